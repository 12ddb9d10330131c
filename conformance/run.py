#!/usr/bin/env python3
"""Starts a till for each situation, plays the terminal against it, and compares what the till came to.

    conformance/run.py [--kit ZVT] [--jobs N] [--seconds S] [--junit FILE] [--messages-only] SITUATION... -- COMMAND...

In COMMAND `{port}` stands for the port of the kit's terminal, `{steps}` for the steps of the situation, a word each, and `{book}`
for a file that does not exist yet. A situation whose steps have a `/` starts the till once for each part, with the same book.
The last line `STEP -> OUTCOME` of the till's standard output must have the outcome that the situation names, or begin with the
last member `outcome` of its lines of JSON; with --messages-only it is not compared. A till has S seconds, 90 unless told otherwise.

    conformance/run.py --kit ./zvt conformance/till/*.trace -- ./zvt till --timeout 5 --port {port} --book {book} --no-ask {steps}

The verdicts are lines of TAP. The status is 0 where all situations are passed, 1 where one is not, and 2 for wrong words.
"""
import argparse
import concurrent.futures
import json
import pathlib
import re
import signal
import subprocess
import sys
import tempfile
from xml.sax.saxutils import escape, quoteattr


def head(file):
    """The comments at the head of a situation, by their words before the colon."""
    lines = file.read_text(encoding="ascii").split("\n\n")[0].splitlines()
    return dict(line[2:].split(": ", 1) for line in lines if ": " in line)


def outcome_of(written):
    """What the last step of a till came to, by what it wrote, and whether it wrote JSON, which has the words in parts."""
    found, is_json = None, False
    for line in written.splitlines():
        if line.startswith("{"):
            try:
                told = json.loads(line).get("outcome")
            except ValueError:
                continue
            found, is_json = (told, True) if told else (found, is_json)
        elif " -> " in line:
            found, is_json = line.split(" -> ", 1)[1], False
    return found, is_json


def words(command, port, steps, book):
    """The command, with what stands for its parts."""
    for word in command:
        if word == "{steps}":
            yield from steps
        else:
            yield word.replace("{port}", port).replace("{book}", book)


def end(process):
    """Ends a process that was started here."""
    if process.poll() is None:
        process.send_signal(signal.SIGKILL)
    return process.communicate()


def start_tills(options, port, steps, book):
    """What the tills wrote, and what is wrong with how they ended."""
    written = ""
    for part in steps.split("/"):
        try:
            till = subprocess.Popen(list(words(options.command, port, part.split(), book)), stdout=subprocess.PIPE, stderr=subprocess.DEVNULL, text=True)
        except OSError as error:
            return written, f"the till can't be started: {error}"
        try:
            written += till.communicate(timeout=options.seconds)[0]
        except subprocess.TimeoutExpired:
            written += end(till)[0]
            return written, f"the till did not end within {options.seconds} seconds"
    return written, None


def judge(options, file):
    """What is wrong with a till in this situation, as text and whether it is a difference; nothing where it is passed."""
    said = head(file)
    kit = subprocess.Popen([options.kit, "check-till", "--listen", "0", file], stdout=subprocess.PIPE, stderr=subprocess.PIPE, text=True)
    address = ""
    for address in kit.stderr:
        if re.search(r":\d+$", address):
            break
    port = re.search(r":(\d+)$", address)
    if not port:
        end(kit)
        return f"the kit can't play it: {address.strip()}", False
    with tempfile.TemporaryDirectory() as room:
        written, wrong = start_tills(options, port[1], said.get("Steps", ""), str(pathlib.Path(room) / "book"))
    try:
        verdict = kit.communicate(timeout=5 if wrong else options.seconds)[0]
    except subprocess.TimeoutExpired:
        verdict = end(kit)[0]
        wrong = wrong or "the till ended, and the situation did not: the till made no connection that it awaits"
    if not re.search(r"^ok 1 ", verdict, re.M):
        told = [line[2:] for line in verdict.split("not ok 1", 1)[-1].splitlines()[1:] if line.startswith("# ")] if "not ok 1" in verdict else []
        return "\n".join(told) or wrong or "the kit gave no verdict", bool(told)
    if wrong:
        return wrong, False
    found, is_json = outcome_of(written)
    wanted = said.get("Outcome", "")
    if not options.messages_only and found != wanted and not (is_json and f"{wanted} ".startswith(f"{found} ")):
        return f"the outcome is '{found}'\nbut the situation wants '{wanted}'", True
    return None


def report(options, files, found):
    """Writes the report in JUnit's form."""
    cases = []
    for file, wrong in zip(files, found):
        kind = "failure" if wrong and wrong[1] else "error"
        cases.append(f"  <testcase name={quoteattr(file.stem)}" + (f"><{kind}>{escape(wrong[0])}</{kind}></testcase>" if wrong else "/>"))
    failures = sum(1 for it in found if it and it[1])
    errors = sum(1 for it in found if it and not it[1])
    text = f'<testsuite name="conformance/run.py" tests="{len(files)}" failures="{failures}" errors="{errors}">'
    options.junit.write_text('<?xml version="1.0" encoding="UTF-8"?>\n' + "\n".join([text, *cases, "</testsuite>"]) + "\n", encoding="utf-8")


def options_of(given):
    """The options, or the exit status of wrong words."""
    parser = argparse.ArgumentParser(prog="conformance/run.py", usage=__doc__.split("\n\n")[1].strip())
    parser.add_argument("--kit", default="zvt")
    parser.add_argument("--jobs", type=int, default=1)
    parser.add_argument("--seconds", type=int, default=90)
    parser.add_argument("--junit", type=pathlib.Path)
    parser.add_argument("--messages-only", action="store_true")
    parser.add_argument("situations", nargs="+", type=pathlib.Path)
    if "--" not in given:
        parser.error("give '--' and the command that starts the till, e.g. -- zvt till --port {port} {steps}")
    place = given.index("--")
    options = parser.parse_args(given[:place])
    options.command = given[place + 1:]
    if not options.command:
        parser.error("give the command that starts the till after '--'")
    return options


def main():
    options = options_of(sys.argv[1:])
    files = options.situations
    print(f"TAP version 13\n1..{len(files)}", flush=True)
    found = []
    with concurrent.futures.ThreadPoolExecutor(max(options.jobs, 1)) as pool:
        for at, (file, wrong) in enumerate(zip(files, pool.map(lambda it: judge(options, it), files)), 1):
            found.append(wrong)
            print(f"{'not ' if wrong else ''}ok {at} - {file.stem}")
            if wrong:
                print("".join(f"# {line}\n" for line in wrong[0].splitlines()), end="")
            sys.stdout.flush()
    if options.junit:
        report(options, files, found)
    return 1 if any(found) else 0


if __name__ == "__main__":
    sys.exit(main())
