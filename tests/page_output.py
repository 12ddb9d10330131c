#!/usr/bin/env python3
"""Reads the pages of `report --html` with an HTML parser, and compares them with the text and the JSON of the same report.

    tests/page_output.py [PROGRAM] [--store]

PROGRAM is the one that `rt ci` built, unless another is named. The traces are those of examples/, tests/data/report and
tests/data/real. A page is well formed, names no other file and runs nothing, and its links lead somewhere. It has a row for each
payment, an item for each case, with a link to the dialogue, and the slips and the totals by card of the JSON. Its dialogue is what
`show --safe --explain --open` writes, and its style sheet has no rule that no page uses. Text has enough contrast in every theme, and a
keyboard reaches everything. The pages of the traces in tests/data/report are those beside them; `--store` writes them anew, so look at
them before you commit them. The status is 1 if anything differs.
"""
import json
import os
import re
import subprocess
import sys
import tempfile
from html.parser import HTMLParser
from pathlib import Path

from common import EXAMPLES, TOP, Checks, program

WORDS = [word for word in sys.argv[1:] if word != "--store"]
STORE = "--store" in sys.argv[1:]
PROGRAM = program(WORDS)
STORED = TOP / "tests/data/report"
POLICY = "default-src 'none'; style-src 'unsafe-inline'; base-uri 'none'; form-action 'none'"
VOID = {"meta"}
SPEAKERS = {"till", "terminal", "bad", "lost"}
MOST = 2000  # messages of a trace whose dialogue is shown whole, and events on a page
ELEMENTS = {"html", "head", "meta", "title", "style", "body", "a", "main", "header", "h1", "h2", "h3", "p", "dl", "div", "dt", "dd", "ol", "li", "pre", "span", "table", "thead", "tbody", "tr", "th", "td", "footer", "section"}
ATTRIBUTES = {"lang", "charset", "name", "content", "http-equiv", "class", "href", "id", "scope"}
check = Checks()


def run(words, trace=b"", folder=TOP):
    done = subprocess.run([PROGRAM, *words], input=trace, capture_output=True, timeout=60, cwd=folder)
    return done.returncode, done.stdout.decode(), done.stderr.decode()


class Page(HTMLParser):
    """A page that was read: its elements in order, each with its attributes, its ancestors and its text."""

    def __init__(self, text):
        super().__init__(convert_charrefs=True)
        self.open, self.elements, self.faults, self.doctype = [], [], [], ""
        self.feed(text)
        self.close()
        self.faults += [f"<{one['tag']}> is not closed" for one in self.open]

    def handle_decl(self, decl):
        self.doctype += decl

    def handle_comment(self, data):
        self.faults.append("a comment")

    def handle_starttag(self, tag, attributes):
        one = {"tag": tag, "attributes": dict(attributes), "in": [each["tag"] for each in self.open], "text": ""}
        if tag not in ELEMENTS or len(one["attributes"]) != len(attributes) or not set(one["attributes"]) <= ATTRIBUTES:
            self.faults.append(f"<{tag} {attributes}>")
        self.elements.append(one)
        if tag not in VOID:
            self.open.append(one)

    def handle_endtag(self, tag):
        if not self.open or self.open[-1]["tag"] != tag:
            self.faults.append(f"</{tag}> in {[one['tag'] for one in self.open]}")
        else:
            self.open.pop()

    def handle_data(self, data):
        for one in self.open:
            one["text"] += data

    def texts(self, tag, name=None):
        return [one["text"] for one in self.elements if one["tag"] == tag and name in (None, one["attributes"].get("class"))]

    def values(self, attribute):
        return [one["attributes"][attribute] for one in self.elements if attribute in one["attributes"]]


def well_formed(name, page, titles=1):
    """Whatever the report says, the page is one."""
    check(f"the markup of {name}", page.faults, [])
    check(f"the document type of {name}", page.doctype, "DOCTYPE html")
    check(f"the ids of {name}", len(page.values("id")), len(set(page.values("id"))))
    check(f"the links of {name}", [link for link in page.values("href") if link[:1] != "#" or link[1:] not in page.values("id")], [])
    check(f"the policy of {name}", [one["attributes"]["content"] for one in page.elements if "http-equiv" in one["attributes"]], [POLICY])
    check(f"the language of {name}", page.values("lang"), ["en"])
    check(f"the columns of {name}", [one for one in page.elements if one["tag"] == "th" and one["attributes"].get("scope") != "col"], [])
    levels = [int(one["tag"][1]) for one in page.elements if re.fullmatch("h[1-6]", one["tag"])]
    check(f"the headings of {name}", levels[:1] == [1] and all(b <= a + 1 for a, b in zip(levels, levels[1:])) and levels.count(1) == titles, True)
    style, = page.texts("style")
    check(f"the style of {name}", re.findall(r"<|@import|url\(|expression", style), [])
    check(f"the characters of {name}", [letter for one in page.elements[:1] for letter in one["text"] if ord(letter) < 32 and letter != "\n"], [])


def rows(page):
    """The cells of each row, by their class."""
    found = []
    for one in page.elements:
        if one["tag"] == "tr" and "tbody" in one["in"]:
            found.append({})
        if one["tag"] == "td":
            found[-1][one["attributes"]["class"]] = one["text"]
    return found


def printed(text):
    """The characters of a printed text: UTF-8 if it is valid, or else code page 437. A control character stays an escape."""
    data = b"".join(bytes([int(one[2:], 16)]) if one[0] == "\\" else one.encode() for one in re.findall(r"\\x..|.", text))
    try:
        found = data.decode()
    except UnicodeDecodeError:
        found = data.decode("cp437")
    return "".join("".join(f"\\x{byte:02X}" for byte in letter.encode()) if ord(letter) < 0x20 or 0x7F <= ord(letter) < 0xA0 else letter for letter in found)


def slips(name, page, objects):
    """The page has each slip, line by line."""
    found, wanted = [], [one["slip"] for one in objects if "slip" in one]
    for one in page.elements:
        if one["tag"] == "pre":
            found.append([])
        elif one["tag"] == "span" and "pre" in one["in"]:
            found[-1].append(one["text"])
    check(f"the slips of {name}", found, [[printed(text) for text in slip["texts"]] for slip in wanted])
    titles = [f"{slip['kind'].capitalize()} (lines {slip['lines'][0]}-{slip['lines'][1]})" for slip in wanted]
    check(f"the titles of the slips of {name}", page.texts("h3")[-len(titles):] if titles else [], titles)
    check(f"the heading of the slips of {name}", page.texts("h2").count("Printed by the terminal"), 1 if titles else 0)


def groups(name, page, objects):
    """The page has the totals by card of each end of day."""
    wanted = [(group["card"], str(group["count"])) for one in objects for group in one.get("close", {}).get("groups", ())]
    check(f"the totals by card of {name}", [(row["ca"], row["n"]) for row in rows(page) if "n" in row], wanted)


def agrees(name, trace, page):
    """The page has what the text and the JSON of the report have."""
    text = " ".join(run(["report"], trace)[1].split())
    objects = [json.loads(line) for line in run(["report", "--json"], trace)[1].splitlines()]
    payments = [one for one in rows(page) if "i n" in one]
    wanted = [(str(one["payment"]), f"{one['trace']:06}" if "trace" in one else "", one.get("receipt", ""), f"{one['lines'][0]}-{one['lines'][1]}") for one in (each["payment"] for each in objects if "payment" in each)]
    check(f"the payments of {name}", [(one["i n"], one["ids"], one["rc"], one["ln"]) for one in payments], wanted)
    check(f"the times of {name}", [one.get("tm", "") for one in payments], [each["payment"].get("time", "")[11:19] for each in objects if "payment" in each])
    looks = [one for one in objects if "look" in one]
    check(f"the cases of {name}", sorted(page.texts("span", "sev")), sorted(one["look"]["weight"].capitalize() for one in looks))
    said = [f"{title} ({lines}) {account} -> {advice}" for title, lines, account, advice in zip(page.texts("h3"), [one["text"] for one in places(page)], page.texts("p", "why"), page.texts("p", "do"))]
    check(f"the sentences of {name}", [one for one in said if one not in text], [])
    where_cases_lead(name, page)
    figures = page.texts("dd")
    summary = [re.search(rf"{words} (\S+)", text)[1] for words in ("Net total", "booked", "taken back", "Unclear")]
    check(f"the figures of {name}", figures[:8:2], summary)
    check(f"the footer of {name}", text.endswith(" ".join(page.texts("footer")[0].split())), True)
    slips(name, page, objects)
    groups(name, page, objects)
    if "time_from" in objects[0]["summary"]:
        check(f"the hours of {name}", text.startswith(page.texts("p", "meta")[0]), True)


def places(page):
    """The elements with the times and lines of the cases."""
    return [one for one in page.elements if one["attributes"].get("class") == "at"]


def where_cases_lead(name, page):
    """Each case has a link to its first line, if the dialogue has an item of that line."""
    ids = page.values("id")
    for one in places(page):
        target = "l" + re.search(r"lines? (\d+)(-\d+)?$", one["text"])[1]
        check(f"where {one['text']} of {name} leads", (one["tag"], one["attributes"].get("href")), ("a", "#" + target) if target in ids else ("span", None))


def events(page):
    """The items of the dialogue: class, id, line and text of each."""
    found = []
    for one in page.elements:
        tag, name = one["tag"], one["attributes"].get("class")
        if tag == "li" and name in SPEAKERS:
            found.append({"class": name, "id": one["attributes"].get("id"), "line": 0, "text": ""})
        elif found and tag == "span" and name == "ln":
            found[-1]["line"] = int(one["text"])
        elif found and tag == "div" and name is None and "li" in one["in"]:
            found[-1]["text"] += one["text"] + "\n"
    return found


def told(trace):
    """What `show` writes of a trace: the class, the line and the text of each event."""
    text = run(["show", "--safe", "--explain", "--open"], trace)[1]
    objects = [json.loads(line) for line in run(["show", "--json", "--open"], trace)[1].splitlines()]
    blocks = re.findall(r"^[<>!].*\n(?:(?![<>!]).*\n)*", text, re.M)
    classes = ["lost" if block[0] == "!" else "bad" if re.match("[<>] (refused|stopped|resumed|truncated) ?", block) else "till" if block[0] == ">" else "terminal" for block in blocks]
    check("the blocks of show", ("".join(blocks), len(blocks)), (text, len(objects)))
    return [{"class": name, "line": one["line"], "text": block} for name, one, block in zip(classes, objects, blocks)]


def dialogue(name, trace, page):
    """The dialogue is the safe text of each event, and the first event of a line has its id."""
    found, wanted, seen = events(page), told(trace), set()
    for one in wanted:
        one["id"] = None if one["line"] in seen else f"l{one['line']}"
        seen.add(one["line"])
    check(f"the dialogue of {name}", found, wanted)
    check(f"the heading of the dialogue of {name}", page.texts("h2").count("Dialogue"), 1)


def notes(page):
    """The beginning of each note below the head."""
    return [one["text"][:42] for one in page.elements if one["tag"] == "p" and one["attributes"].get("class") == "meta" and "header" not in one["in"]]


def long_day():
    """Of a long trace, the page shows the orders that need a look, and says so."""
    part = (STORED / "twice.trace").read_bytes()
    few, many = part * 2, part * 60
    status, text, _ = run(["report", "--html"], many)
    page = Page(text)
    well_formed("a long trace", page)
    objects = [json.loads(line) for line in run(["report", "--json"], many)[1].splitlines()]
    cases = [one["look"] for one in objects if "look" in one]
    orders = {one["order"]: one["lines"] for each in objects for one in each.values() if isinstance(one, dict) and "order" in one and "lines" in one and not {"case", "kind"} & set(one)}
    ranges = [orders[one["order"]] for one in cases]
    messages = sum(one["class"] in ("till", "terminal") for one in told(many))
    wanted = [one for one in told(many) if any(first <= one["line"] <= last for first, last in ranges)][:MOST]
    check("a long trace is long", (status, messages > MOST, 0 < len(wanted) <= MOST), (0, True, True))
    check("the part of a long dialogue", [(one["line"], one["text"]) for one in events(page)], [(one["line"], one["text"]) for one in wanted])
    slips = [one["slip"] for one in objects if "slip" in one]
    shown = [one["kind"].capitalize() + " (lines {}-{})".format(*one["lines"]) for one in slips if any(first <= one["lines"][0] <= last for first, last in ranges)]
    check("the slips of a long trace", (0 < len(shown) < len(slips), page.texts("h3")[-len(shown):], len(page.texts("pre"))), (True, shown, len(shown)))
    check("the note of a long dialogue", notes(page), ["The trace has more than 2000 messages. Onl"])
    check("no note of a short dialogue", notes(Page(run(["report", "--html"], few)[1])), [])
    losses = Page(run(["report", "--html"], b"!\n" * (MOST + 5))[1])
    check("a flood of losses", (len(events(losses)), [note[:23] for note in notes(losses)]), (MOST, ["No more than 2000 events"[:23]]))


def luminance(colour):
    """The relative luminance of a colour, by WCAG 2."""
    digits = colour[1:] if len(colour) == 7 else "".join(2 * digit for digit in colour[1:])
    parts = [int(digits[at:at + 2], 16) / 255 for at in (0, 2, 4)]
    red, green, blue = [part / 12.92 if part <= 0.04045 else ((part + 0.055) / 1.055) ** 2.4 for part in parts]
    return 0.2126 * red + 0.7152 * green + 0.0722 * blue


def contrast(one, other):
    """The contrast of two colours, from 1 to 21."""
    bright, dark = sorted((luminance(one), luminance(other)), reverse=True)
    return (bright + 0.05) / (dark + 0.05)


def themes(style):
    """The colours of each theme: light, dark and paper. A theme has the colours of the light one that it doesn't set."""
    found = []
    for block in re.findall(r":root\{([^}]*)\}", style):
        found.append(dict(found[0] if found else {}, **dict(re.findall(r"--([a-z]+):(#[0-9a-f]{3,6})\b", block))))
    return found


def readable(style):
    """Each colour of text has enough contrast with each colour behind it, in each theme."""
    check("the contrast of black and white", round(contrast("#000", "#ffffff"), 2), 21.0)
    behind = {"bg", "paper"}
    check("the themes", len(themes(style)), 3)
    rules = re.sub(r":root\{[^}]*\}", "", style)
    text = set(re.findall(r"(?<![-a-z])color:var\(--([a-z]+)\)", rules))
    check("the colours of text", text >= {"ink", "soft", "act", "check", "ok", "wire"} and not text & (behind | {"line"}), True)
    check("colours beside the themes", re.findall(r"#[0-9a-f]{3,8}\b|rgb\(|hsl\(|opacity", rules), [])
    check("backgrounds", set(re.findall(r"background:(?!none|currentColor|var\(--(?:bg|paper)\))[^;}]*", rules)), set())
    for theme in themes(style):
        low = [(name, other, round(contrast(theme[name], theme[other]), 2)) for name in sorted(text) for other in sorted(behind) if contrast(theme[name], theme[other]) < 4.5]
        check(f"the contrast on {theme['bg']}", low, [])


def reachable(name, page):
    """A keyboard reaches all that can be chosen: links alone, and first the one that skips the summary."""
    body = [one for one in page.elements if "body" in one["in"]]
    check(f"the first link of {name}", (body[0]["tag"], body[0]["attributes"]), ("a", {"class": "skip", "href": "#look"}))
    check(f"links without a target in {name}", [one for one in body if one["tag"] == "a" and "href" not in one["attributes"]], [])
    check(f"links without words in {name}", [one for one in body if one["tag"] == "a" and not one["text"].strip()], [])
    style, = page.texts("style")
    check(f"the focus of {name}", (len(re.findall(r":focus-visible\{outline:2px solid var\(--[a-z]+\)", style)), re.findall(r"outline:(?:none|0)", style)), (1, []))
    check(f"the skip link of {name} is seen", bool(re.search(r"\.skip:focus\{left:\d", style)), True)


def of(name, trace):
    """The page of a trace from standard input, read."""
    status, text, reported = run(["report", "--html"], trace)
    if status == 3:
        check(f"the status of {name}", run(["report"], trace)[0], 3)
        return None
    check(f"the status of {name}", (status, reported), (run(["report"], trace)[0], ""))
    page = Page(text)
    well_formed(name, page)
    check(f"the title of {name}", (page.texts("title"), page.texts("h1")), (["Report of a trace"], ["Report of a trace"]))
    agrees(name, trace, page)
    dialogue(name, trace, page)
    reachable(name, page)
    return page


def used(pages):
    """The style sheet has no class that no page has, and no page a class that the style sheet lacks."""
    style, = pages[0].texts("style")
    in_style = set(re.findall(r"\.([a-z][a-z-]*)", re.sub(r"\{[^{}]*\}", "{}", style)))
    in_pages = {word for page in pages for names in page.values("class") for word in names.split()}
    check("the classes of the style sheet", sorted(in_style - in_pages), [])
    check("the classes of the pages", sorted(in_pages - in_style), [])


def stored():
    """The pages of two days, as they are stored beside the traces."""
    for trace in sorted(STORED.glob("*.trace")):
        found = run(["report", "--html", trace.name], folder=STORED)
        file = trace.with_suffix(".html")
        if STORE:
            file.write_text(found[1])
        check(f"the page of {trace.name}", found, (found[0], file.read_text(), ""))


def hostile():
    """The name of a file is text, whatever it looks like."""
    for name in ("<img src=x onerror=alert(1)>.trace", "\"'>&lt;<script>.trace", "a\tb\n<title>.trace", "\u00fc&amp;.trace"):
        with tempfile.TemporaryDirectory() as folder:
            Path(folder, name).write_bytes((STORED / "twice.trace").read_bytes())
            status, text, reported = run(["report", "--html", name], folder=folder)
        page = Page(text)
        well_formed(f"the file {name!r}", page)
        shown = name.replace("\t", " ").replace("\n", " ")
        check(f"the name {name!r}", (status, reported, page.texts("title"), page.texts("h1")), (0, "", [shown], [shown]))


def marked_up():
    """A text of the terminal is text too, whatever it looks like."""
    words = b"</div></li><script>alert('1')</script>&amp;\"<!--"
    line = b"\x06\xd1" + bytes([len(words) + 1, 0]) + words
    page = of("markup in a print line", b"< " + line.hex(" ").encode() + b"\n")
    check("markup in a print line", [words.decode().replace('"', "\\x22") in one["text"] for one in events(page)], [True])


def several():
    """One page about several files has an index with their figures, and each report without its dialogue."""
    names = ["twice.trace", "none.trace", "refusals.trace", "twice.trace"]
    status, text, reported = run(["report", "--html", *names], folder=STORED)
    page, wanted, net = Page(text), [], 0
    check("several files", (status, reported), (4, "zvt: 'none.trace': cannot open the trace: No such file or directory (os error 2)\n"))
    well_formed("several files", page, titles=4)
    for name in names:
        if name == "none.trace":
            wanted.append([name, "not read", "", ""])
            continue
        objects = [json.loads(line) for line in run(["report", "--json", name], folder=STORED)[1].splitlines()]
        said = objects[0]["summary"]
        acts = sum(one["look"]["weight"] == "act" for one in objects if "look" in one)
        net += said["net"]
        wanted.append([name, f"{said['net'] // 100}.{said['net'] % 100:02d} EUR", str(said["unclear"] + said["reversals_unclear"]), str(acts)])
    wanted.append(["Sum", f"{net // 100}.{net % 100:02d} EUR", "", ""])
    index = text[text.index("<tbody>"):text.index("</tbody>")]
    check("the index", [re.findall("<td[^>]*>(?:<a [^>]*>)?([^<]*)", row) for row in index.split("</tr>")[:-1]], wanted)
    check("where the index leads", [link for link in page.values("href") if link.startswith("#f")], ["#f1", "#f3", "#f4"])
    sections = re.findall('<section id="f([0-9]+)">(.*?)</section>', text, re.DOTALL)
    check("the sections", [number for number, _ in sections], ["1", "3", "4"])
    for (number, section), name in zip(sections, ["twice.trace", "refusals.trace", "twice.trace"]):
        alone = (STORED / name).with_suffix(".html").read_text()
        whole = alone[alone.index("<header>"):alone.index("<footer>")].replace('id="look"', f'id="f{number}-look"')
        whole = re.sub('<a class="at" href="#l[0-9]+">([^<]*)</a>', r'<span class="at">\1</span>', whole)
        check(f"the report {number}", whole.startswith(section[:section.index("<footer>")]), True)
    check("no stranger's trace", run(["report", "--html", "twice.trace", "/dev/null"], folder=STORED)[0], 0)


def sums():
    """The index has a sum if two reports or more have one currency, and all have it."""
    with tempfile.TemporaryDirectory() as folder:
        for name, registration in (("euros", "06 00 06 00 00 00 BE 09 78"), ("francs", "06 00 06 00 00 00 BE 07 56"), ("unnamed", "06 00 04 00 00 00 BE")):
            (Path(folder) / name).write_text(f"> {registration}\n")
        for names, wanted in (("euros euros", "0.00 EUR"), ("francs missing francs", "0.00 CHF"), ("euros francs", None), ("euros euros unnamed", None), ("unnamed unnamed", None), ("euros missing", None)):
            found = re.search('<td>Sum</td><td class="n">([^<]*)</td>', run(["report", "--html", *names.split()], folder=folder)[1])
            check(f"the sum of {names}", found and found[1], wanted)


def refused():
    """What cannot be written is refused."""
    both = "zvt: '--html' does not go with '--json': leave one of them out\n"
    check("a page and JSON", run(["report", "--html", "--json", "tests/data/report/twice.trace"]), (2, "", both))
    check("a page of a file that is not there", run(["report", "--html", "none.trace"])[:2], (run(["report", "none.trace"])[0], ""))


def main():
    folders = (EXAMPLES, EXAMPLES / "messages", STORED, TOP / "tests/data/real")
    traces = {path.name: path.read_bytes() for folder in folders for path in sorted(folder.glob("*.trace"))}
    pages = [page for page in (of(name, trace) for name, trace in traces.items()) if page]
    used(pages)
    readable(*pages[0].texts("style"))
    long_day()
    stored()
    hostile()
    marked_up()
    several()
    sums()
    refused()
    print(f"{check.verdict}: {len(pages)} pages, {check.count} comparisons")
    return check.status


if __name__ == "__main__":
    sys.exit(main())
