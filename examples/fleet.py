#!/usr/bin/python3
"""Reports the traces of many tills on many machines, and sums up by shop.

    examples/fleet.py [--scheduler ADDRESS] [--zvt PROGRAM] [--batch N] FOLDER

FOLDER has a trace of each till, FILE.trace, anywhere below it; the folder that a trace is in names its shop. Each worker must
see FOLDER and PROGRAM (`zvt` in its PATH without it) under the same names. ADDRESS is that of a Dask scheduler, as
tcp://head:8786; without it the workers are processes of this machine. Each task runs `zvt report --json` over N traces, 100
without it. Where a worker is lost, its tasks run again elsewhere. A task's result is taken once, so nothing counts twice.

Standard output has a line of each shop, and one of all. A trace that can't be read is named on standard error and is in
no sum; then the status is 1. It is 4 where there are no traces, or no scheduler. It needs python3-distributed.
"""
import argparse
import json
import os
import subprocess
import sys

COLUMNS = ("traces", "booked", "net", "unclear", "amount", "others", "acts", "bad")
CONNECT = 10  # seconds


def report(program, files):
    """The sums of each of these traces that could be read, and what was said on standard error."""
    # The empty file makes two at least, so each line names its file.
    done = subprocess.run([program, "report", "--json", os.devnull, *files], capture_output=True, text=True)
    sums = {}
    for row in map(json.loads, done.stdout.splitlines()):
        file = row["file"]
        if "summary" in row and file in files:
            of = row["summary"]
            sums[file] = {"traces": 1, "amount": of["unclear_amount"], "acts": 0, **{name: of[name] for name in ("booked", "net", "unclear", "others", "bad")}}
        elif "look" in row:
            sums[file]["acts"] += row["look"]["weight"] == "act"
    return sums, done.stderr


def traces_in(folder):
    found = [os.path.join(path, name) for path, _, names in os.walk(folder) for name in names if name.endswith(".trace")]
    return sorted(found)


def reported(client, program, batches):
    """The sums of each trace, of all batches."""
    from distributed import as_completed
    futures = {client.submit(report, program, batch, retries=2, key=f"report-{number}", pure=True): batch for number, batch in enumerate(batches)}
    sums, failed = {}, {}
    for future in as_completed(futures):
        batch = futures[future]
        try:
            found, said = future.result()
        except Exception as error:  # the task failed on several workers
            found, said = {}, f"{type(error).__name__}: {error}"
        sums.update(found)
        failed.update({file: said for file in batch if file not in found})
    return sums, failed


def by_shop(sums):
    shops = {}
    for file, of in sorted(sums.items()):
        shop = shops.setdefault(os.path.basename(os.path.dirname(file)), dict.fromkeys(COLUMNS, 0))
        for column in COLUMNS:
            shop[column] += of[column]
    return shops


def line(name, of):
    return "\t".join([name, *(str(of[column]) for column in COLUMNS)])


def main():
    words = argparse.ArgumentParser(description="Report the traces of many tills on many machines, and sum up by shop.")
    words.add_argument("--scheduler", metavar="ADDRESS")
    words.add_argument("--zvt", metavar="PROGRAM", default="zvt")
    words.add_argument("--batch", metavar="N", type=int, default=100)
    words.add_argument("folder", metavar="FOLDER")
    given = words.parse_args()
    try:
        from distributed import Client
    except ImportError:
        print("fleet: python3 has no 'distributed': install python3-distributed", file=sys.stderr)
        return 4
    files = traces_in(given.folder)
    if not files:
        print(f"fleet: '{given.folder}': there is no FILE.trace below it", file=sys.stderr)
        return 4
    batches = [files[at:at + given.batch] for at in range(0, len(files), given.batch)]
    try:
        client = Client(given.scheduler, timeout=CONNECT)
    except OSError as error:
        print(f"fleet: '{given.scheduler}': no scheduler answers there: {error}", file=sys.stderr)
        return 4
    with client:
        sums, failed = reported(client, given.zvt, batches)
    shops = by_shop(sums)
    print("\t".join(["shop", *COLUMNS]))
    for shop, of in sorted(shops.items()):
        print(line(shop, of))
    print(line("all", {column: sum(of[column] for of in shops.values()) for column in COLUMNS}))
    for file, said in sorted(failed.items()):
        about = [row for row in said.splitlines() if f"'{file}'" in row]
        print(f"fleet: '{file}' is not reported: {(about or said.splitlines() or ['nothing was said'])[0]}", file=sys.stderr)
    return 1 if failed else 0


if __name__ == "__main__":
    sys.exit(main())
