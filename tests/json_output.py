#!/usr/bin/env python3
"""Compares `show` and `receipts`, as text and as JSON, with the model of `json_model.py`, byte for byte, strictly and with
`--loose`, and `show` with `--resync`, `--safe` and `--explain` too.

    tests/json_output.py [--text] [PROGRAM]

PROGRAM is the one that `rt ci` built, unless another is named. With `--text` what a program without `--json` writes is
compared alone. The traces are those of examples/, each line of examples/vectors.txt, random ones of all messages, fields and
nested containers, large ones, and hostile ones, cut into lines anywhere; journals, and traces with a line that can't be
read. Each line is read back by Python's json and held against docs/zvt.schema.json, and `jq` writes it as it is, where both
are there. Each event of docs/JSON.md is one of the model's. The status is 1 where anything differs. It takes a minute.
"""
import itertools
import json
import os
import random
import re
import shutil
import subprocess
import sys
import warnings

import journal_dialogues
import json_model
import random_traces
from common import Checks, EXAMPLES, TOP, program

TEXT_ALONE = "--text" in sys.argv[1:2]
WORDS = sys.argv[2 if TEXT_ALONE else 1:]
PROGRAM = program(WORDS)
SEED, VALID, HOSTILE, OF_SCHEMA = 20261126, 3000, 3000, 1000
MOST = 4_000_000  # bytes of a trace that many others are put into
# Events that docs/JSON.md writes, line 3 and on of a trace each.
DOCUMENTED = [
    b"\n\n< 04 0F 1C 27 00 04 00 00 00 00 12 34 22 F1 F0" + 10 * b" 11" + b" 06 04 25 02 07 00\n",
    b"\n\n\n< 04 0F 05 D0\n< 80\n",
    b"\n\n\n< 04 0F 05 D0 00 00 00 00\n",
    b"> 06 01 0A 04 00 00 00 00 12 34\n\n\n\n\n!\n!\n",
]
# Traces whose ends and lines are odd, and some that can't be read.
ODD = [
    b"", b"\n", b"!", b"> 06", b"> 06\n\n\n", b"> 06\r\n> 01 00", b"> 06\r", b"< 80 00 00\n> 06\nx\n", b"< 80 00 00\n> 0\n",
    b" > 80\n", b"!!\n", b"! \n", b"> 8G\n", b"> \n> 05 D0\n> 00\n>\n! \n", b"> 06 01 02 D0\n>\n> 00\n<\n!\n>\n",
    b"# zvt journal 1\n< 80\n#\n\n< 00\n", b"# zvt journal 1\n< 80\n\r\n< 00\n", b"#\n# zvt journal 1\n< 80\n\n< 00 00",
]
# Objects that the schema must refuse.
NO_LINES = [
    {}, {"line": 1}, {"line": 0, "lost": True}, {"line": 1, "lost": False}, {"from": "till", "line": 1, "stopped": 1},
    {"from": "Till", "line": 1, "stopped": True}, {"from": "till", "kind": "Ack", "line": 1}, {"kind": "Ack", "line": 1, "size": 3},
    {"from": "till", "kind": "Ack", "line": 1, "size": 3, "words": "success"},
    {"data": "", "from": "till", "kind": "Ack", "line": 1, "size": 3}, {"data": "0a", "from": "till", "kind": "Ack", "line": 1, "size": 4},
    {"from": "till", "kind": "Status", "line": 1, "size": 3}, {"fields": [{"bmp": "D0"}], "from": "till", "kind": "Status", "line": 1, "size": 4},
    {"fields": [{"bmp": "22", "content": "12", "name": "pan"}], "from": "till", "kind": "Status", "line": 1, "size": 7},
    {"fields": [{"bmp": "04", "name": "amount", "value": 10 ** 12}], "from": "till", "kind": "Status", "line": 1, "size": 10},
    {"fields": [{"bmp": "04", "name": "result", "value": 1}], "from": "till", "kind": "Status", "line": 1, "size": 10},
    {"from": "till", "line": 4, "refused": {"byte": "D0", "place": 3, "reason": "Unknown"}},
    {"from": "till", "line": 4, "truncated": {"after": 0}}, {"from": "till", "line": 4, "resumed": 2}, {"file": 1, "line": 1, "lost": True},
    {"booked": {"amount": 0, "trace": 1}}, {"booked": {"amount": 1, "line": 0, "trace": 1}}, {"booked": {"amount": 0, "line": 1, "trace": 1}},
    {"unclear": {"amount": 1, "cause": "Lost"}}, {"unclear": {"amount": 1, "cause": "Line", "line": 0}}, {"total": -1}, {"bad": -1, "messages": 1, "total": 1},
    {"booked": {"amount": 1, "ref": "A 1", "trace": 1}}, {"booked": {"amount": 1, "at": "2026-11-28", "trace": 1}}, {"unclear": {"amount": 1, "cause": "Line", "ref": ""}},
    {"bad": 0, "currency": "978", "messages": 1, "total": 1}, {"bad": 0, "currency": None, "messages": 1, "total": 1},
    {"look": {"case": "Lost", "lines": [1, 2], "order": 1, "weight": "act"}}, {"look": {"case": "OtherAmount", "lines": [1, 2], "order": 0, "weight": "act"}},
    {"payment": {"amount": 1, "lines": [1], "order": 1, "outcome": "paid", "payment": 1}}, {"close": {"lines": [1, 2], "order": 1, "outcome": "paid"}},
    {"other": {"control": "0670", "lines": [1, 2], "order": 1, "outcome": "completed"}}, {"summary": {"bad": 0}},
]
check, counts, validated = Checks(), {"traces": 0, "lines": 0}, []


def run(words, given):
    """The status, what is written, and what is said on standard error."""
    done = subprocess.run([PROGRAM, *words], input=given, capture_output=True, timeout=100)
    return done.returncode, done.stdout, done.stderr


def told(trace, loose, resync=False):
    """The events of a trace, and the status of the program that reads it."""
    events = []
    try:
        for event in json_model.events_of(trace, loose, resync):
            events.append(event)
    except json_model.Fault:
        return events, 3
    return events, int(any(map(is_bad, events)))


def compare(name, words, trace, wanted):
    """What standard error says, where all else is as wanted."""
    *found, noted = run(words, trace)
    if found != wanted:
        rows = itertools.zip_longest(found[1].split(b"\n"), wanted[1].split(b"\n"))
        at = next((pair for pair in rows if pair[0] != pair[1]), "no line")
        check.differs(f"{name}: {' '.join(words)}", f"status {found[0]} instead of {wanted[0]}; the line and what it should be: {at}")
    return noted.decode()


def note_of(event):
    """What standard error says of an event: the line, the side, the place, the byte and the reason."""
    sign = json_model.MARKS[event["from"]]
    if "truncated" in event:
        return f"{event['line']} {sign} cut off after {event['truncated']['after']}"
    return "{line} {sign} refused at {place}, byte {byte}: {reason}".format(line=event["line"], sign=sign, **event["refused"])


def is_bad(event):
    return "refused" in event or "truncated" in event


def notes_in(noted):
    """What standard error says of streams that are bad, in order."""
    found = re.findall(r"^zvt: line (\d+) of the trace: ([<>]) .*?((?:refused at|cut off after) .*)$", noted, re.M)
    return sorted(map(" ".join, found))


def hold_to_others(name, trace, loose, events, noted):
    """The lines, bytes and sizes of JSON are those that standard error says, and that the messages have which are joined."""
    wanted, found = sorted(map(note_of, filter(is_bad, events))), notes_in(noted)
    if found != wanted:
        check.differs(name, "standard error", set(wanted) ^ set(found))
    joined = run(["normalise" if loose else "join"], trace)[1].decode().splitlines()
    sizes = [(line[0], len(line) // 2 - 1) for line in joined if line[:1] in "<>"]
    if sizes != [(json_model.MARKS[event["from"]], event["size"]) for event in events if "size" in event]:
        check.differs(name, "the sizes of messages")


def hold_resync(name, trace, loose):
    """With --resync too."""
    events, status = told(trace, bool(loose), True)
    text = "".join(row + "\n" for event in events for row in json_model.text_of(event))
    noted = compare(name, ["show", "--resync", *loose], trace, [status, text.encode("ascii")])
    if notes_in(noted) != sorted(map(note_of, filter(is_bad, events))):
        check.differs(name, "standard error with --resync")
    if not TEXT_ALONE:
        lines = [json_model.json_of(json_model.safe_of(event)) for event in events]
        compare(name, ["show", "--json", "--resync", *loose], trace, [status, "".join(line + "\n" for line in lines).encode("ascii")])
        validated.extend(line for line, event in zip(lines, events) if "resumed" in event)


def hold(name, trace):
    """The program writes of a trace what the model does."""
    for loose in ([], ["--loose"]):
        events, status = told(trace, bool(loose))
        lines = [json_model.json_of(json_model.safe_of(event)) for event in events]
        text = "".join(row + "\n" for event in events for row in json_model.text_of(event))
        noted = compare(name, ["show", *loose], trace, [status, text.encode("ascii")])
        hold_to_others(name, trace, loose, events, noted)
        printed = list(json_model.receipts_of(events))
        safe = "".join(row + "\n" for event in events for row in json_model.text_of(json_model.safe_of(event)))
        compare(name, ["show", "--safe", *loose], trace, [status, safe.encode("ascii")])
        for words, form in ((["--explain"], dict), (["--safe", "--explain"], json_model.safe_of)):
            explained = "".join(row + "\n" for event in events for row in json_model.text_of(form(event), True))
            compare(name, ["show", *words, *loose], trace, [status, explained.encode("ascii")])
        compare(name, ["receipts", *loose], trace, [status, "".join(event["text"] + "\n" for event in printed).encode("ascii")])
        if not TEXT_ALONE:
            receipts = "".join(json_model.json_of(event) + "\n" for event in printed)
            compare(name, ["show", "--json", *loose], trace, [status, "".join(line + "\n" for line in lines).encode("ascii")])
            compare(name, ["receipts", "--json", *loose], trace, [status, receipts.encode("ascii")])
        hold_resync(name, trace, loose)
        validated.extend(lines)
        counts["lines"] += len(lines)


def batches(traces):
    """Traces that each end with `!`, many in one."""
    held = b""
    for trace in traces:
        counts["traces"] += 1
        held += trace
        if len(held) > MOST:
            yield held
            held = b""
    yield held


def vectors():
    """Each vector on a line, by both sides in turn."""
    for number, line in enumerate((EXAMPLES / "vectors.txt").read_text("ascii").splitlines()):
        if line and not line.startswith("#"):
            yield f"{'<>'[number % 2]} {line.split('=')[0]}\n!\n".encode()


def large(chance):
    """Messages of the greatest size, and each field by itself."""
    maker = random_traces.Maker(chance)
    text = b"\x3C\xF9\xF9\xF9" + (bytes(range(256)) * 4)[:999]
    for control, data in (
        (b"\x80\x00", bytes(65535)), (b"\x06\xD1", bytes(range(256)) * 255 + bytes(255)), (b"\x04\x0F", 65 * text),
        (b"\x06\x0F", b"\x06\x82\xFF\xFB\x07\x82\xFF\xF7" + bytes(65527)), (b"\x06\x0F", bytes.fromhex("060C250A25082506250425020700")),
        *((b"\x04\x0F", maker.field(bmp)) for bmp in json_model.FIELDS for _ in range(20)),
    ):
        yield b"".join(random_traces.cut(chance, b"<", maker.framed(control, data))) + b"!\n"


def whole_traces():
    """Traces that are given to the program one by one."""
    for path in sorted(EXAMPLES.glob("**/*.trace")):
        yield path.name, path.read_bytes()
    for dialogue in journal_dialogues.ALL:
        journal = journal_dialogues.written(dialogue).file()
        yield f"the journal of {dialogue.__name__}", journal + b"> 06\n"
    for text in ODD:
        yield repr(text), text


def objects_of_document(events=False):
    """The objects that docs/JSON.md writes, or those of its events alone; one that ends with dots is left unfinished there."""
    text = (TOP / "docs/JSON.md").read_text()
    return re.findall(r'(?:`|^    )(\{".*?\})(?:`|$)', text.split("\n## Books\n")[0] if events else text, re.M)


def documented():
    """Each event of docs/JSON.md is one that the model writes."""
    written = [event for trace in DOCUMENTED for resync in (False, True) for event in told(trace, False, resync)[0]]
    shown = objects_of_document(events=True)
    if len(shown) != 7:
        check.differs("docs/JSON.md", f"it has {len(shown)} events")
    for text in shown:
        if text.endswith(",..}"):
            part = json.loads(text.replace(",..}", "}"))
            holds = any(all(event.get(name) == value for name, value in part.items()) for event in written)
        else:
            holds = text in map(json_model.json_of, written)
        if not holds:
            check.differs("docs/JSON.md", f"the model does not write {text}")


def reads_back():
    """Python's json reads each line, and writes it as it was."""
    for line in validated:
        if json_model.json_of(json.loads(line)) != line or not line.isascii():
            check.differs("json", line)


def fits_schema():
    """How many lines were held against the schema, or why none."""
    with warnings.catch_warnings():
        warnings.simplefilter("ignore")
        try:
            import jsonschema
        except ImportError:
            return "no schema held, since python3 has no jsonschema"
    schema = json.loads((TOP / "docs/zvt.schema.json").read_text())
    jsonschema.Draft202012Validator.check_schema(schema)
    checker = jsonschema.Draft202012Validator(schema)
    some = validated[::max(1, len(validated) // OF_SCHEMA)]
    for line in some:
        value = json.loads(line)
        for one in (value, {"file": "a.trace", **value}):
            if not checker.is_valid(one):
                check.differs("docs/zvt.schema.json", f"it refuses {line[:300]}")
    for text in objects_of_document():
        if not text.endswith(",..}") and not checker.is_valid(json.loads(text)):
            check.differs("docs/zvt.schema.json", f"it refuses {text}")
    for value in NO_LINES:
        if checker.is_valid(value):
            check.differs("docs/zvt.schema.json", f"it takes {value}")
    return f"{len(some)} held against the schema"


def same_by_jq():
    if not shutil.which("jq"):
        return "jq is missing"
    text = "".join(line + "\n" for line in validated)
    done = subprocess.run(["jq", "-cS", "."], input=text, capture_output=True, text=True, timeout=100)
    if done.stdout != text:
        check.differs("jq", done.stderr or "it writes another text")
    return "jq writes each as it is"


def main():
    if not os.access(PROGRAM, os.X_OK):
        print(f"json_output: no program at {PROGRAM}: build it by 'rt run' in crates/zvt, or by 'rt ci'", file=sys.stderr)
        return 2
    chance = random.Random(SEED)
    documented()
    for name, trace in whole_traces():
        counts["traces"] += 1
        hold(name, trace)
    for name, traces in (
        ("vectors", vectors()), ("large", large(chance)),
        ("valid", (random_traces.trace(chance, padded=number % 3 == 0) for number in range(VALID))),
        ("hostile", (random_traces.trace(chance, padded=number % 3 == 0, hostile=True) for number in range(HOSTILE))),
    ):
        for number, trace in enumerate(batches(traces)):
            hold(f"{name}, batch {number}", trace)
    reads_back()
    said = f"{fits_schema()}, {same_by_jq()}"
    print(f"{check.verdict}: {counts['traces']} traces, {counts['lines']} lines of them, {said}"
          f"{', the text alone' if TEXT_ALONE else ''}: {check.wrong} wrong")
    return check.status


if __name__ == "__main__":
    sys.exit(main())
