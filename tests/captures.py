#!/usr/bin/env python3
"""Makes captures, lets examples/from-capture make traces of them, and compares these with what was said on the line.

    tests/captures.py

The captures are written here, byte by byte: no network is listened to. One begins in the middle of an open line, so that
its first packet is the terminal's. Where tshark is missing nothing is compared, and that is said.
"""
import datetime
import os
import shutil
import struct
import subprocess
import sys
import tempfile
import time

from common import TOP

PORT, TILL_PORT = 20007, 50_000
TILL, TERMINAL = b"\x0a\x00\x00\x01", b"\x0a\x00\x00\x02"
# A payment: `>` is the till.
PAYMENT = [
    (">", "06010a04000000001234490978"), ("<", "800000"), ("<", "040f102700040000000012340b00001787" + "0005"), (">", "800000"),
    ("<", "060f00"), (">", "800000"),
]
SYN, PUSH, FIN = 0x02, 0x18, 0x11
BEGIN = 1_700_000_000  # when each connection begins, in seconds since 1970


class Connection:
    """A connection that a capture has: its packets, with the numbers that TCP counts its bytes by."""

    def __init__(self, number):
        self.port = TILL_PORT + number
        self.sent = {">": 1000 * (number + 1), "<": 7000 * (number + 1)}
        self.packets = []

    def says(self, side, data=b"", flags=PUSH):
        ports = (self.port, PORT) if side == ">" else (PORT, self.port)
        ends = (TILL, TERMINAL) if side == ">" else (TERMINAL, TILL)
        other = "<" if side == ">" else ">"
        tcp = struct.pack(">HHIIBBHHH", *ports, self.sent[side], self.sent[other], 0x50, flags, 0xFFFF, 0, 0) + data
        ip = struct.pack(">BBHHHBBH4s4s", 0x45, 0, 20 + len(tcp), 1, 0, 64, 6, 0, *ends)
        self.packets.append(b"\x02" * 12 + b"\x08\x00" + ip + tcp)
        self.sent[side] += len(data) + bool(flags & (SYN | 1))

    def opens(self):
        self.says(">", flags=SYN)
        self.says("<", flags=SYN | 0x10)
        return self

    def pays(self, messages=PAYMENT):
        for side, digits in messages:
            self.says(side, bytes.fromhex(digits))
        return self

    def says_again(self):
        """The last packet is sent a second time."""
        self.packets.append(self.packets[-1])
        return self


def capture(path, connections):
    with open(path, "wb") as file:
        file.write(struct.pack("<IHHiIII", 0xA1B2C3D4, 2, 4, 0, 0, 65535, 1))
        for connection in connections:
            for at, packet in enumerate(connection.packets):
                file.write(struct.pack("<IIII", BEGIN + at, 0, len(packet), len(packet)) + packet)


def said(messages):
    """The bytes of each side in turn: what tshark joins to one run is one line."""
    runs = []
    for side, digits in messages:
        if runs and runs[-1][0] == side:
            runs[-1][1] += digits
        else:
            runs.append([side, digits])
    return runs


def runs_of(path):
    with open(path) as file:
        lines = file.read().splitlines()
    if not lines or lines.pop() != "!":
        sys.exit(f"captures: {path} does not end with '!'")
    marks, messages = lines[::2], lines[1::2]
    # The packets of a connection come a second apart.
    times = [datetime.datetime.fromisoformat(f"{word.removeprefix('#@ ').removesuffix('.000Z')}+00:00").timestamp() for word in marks]
    if times != [times[0] + number for number in range(len(messages))] or not BEGIN <= times[0] < BEGIN + 10:
        sys.exit(f"captures: the times of {path} are {marks}")
    return said([line.split(" ") for line in messages])


def convert(folder, connections, port=PORT):
    path, traces = f"{folder}/line.pcap", f"{folder}/traces"
    shutil.rmtree(traces, ignore_errors=True)
    capture(path, connections)
    done = subprocess.run([f"{TOP}/examples/from-capture", path, str(port), traces], capture_output=True, text=True)
    return done, traces


def compare(folder, connections, wanted):
    done, traces = convert(folder, connections)
    if done.returncode != 0:
        sys.exit(f"captures: from-capture ended with {done.returncode}: {done.stderr}")
    found = [runs_of(f"{traces}/{number}.trace") for number in range(len(os.listdir(traces)))]
    if found != wanted:
        sys.exit(f"captures: the traces are {found} and not {wanted}")


def main():
    if not shutil.which("tshark"):
        print("captures: tshark is missing: nothing was compared")
        return
    with tempfile.TemporaryDirectory() as folder:
        whole, middle = said(PAYMENT), said(PAYMENT[1:])
        compare(folder, [Connection(0).opens().pays()], [whole])
        # The capture begins behind the order: the terminal is seen first.
        compare(folder, [Connection(0).pays(PAYMENT[1:])], [middle])
        compare(folder, [Connection(0).pays(PAYMENT[1:]), Connection(1).opens().pays(), Connection(2).opens().pays().says_again()], [middle, whole, whole])
        began = time.monotonic()
        compare(folder, [Connection(number).opens().pays() for number in range(200)], [whole] * 200)
        took = time.monotonic() - began
        if took > 5:
            sys.exit(f"captures: 200 connections took {took:.1f} s")
        # A message of several segments, whose data tshark writes in several lines.
        long = [(">", "06d1820100" + "00" * 256), (">", "07" * 700), ("<", "800000")]
        compare(folder, [Connection(0).opens().pays(long)], [said(long)])
        done, _ = convert(folder, [Connection(0).opens().pays()], PORT + 1)
        if done.returncode != 1 or "no connection to port" not in done.stderr:
            sys.exit(f"captures: another port ended with {done.returncode}: {done.stderr}")
        done = subprocess.run([f"{TOP}/examples/from-capture", "line.pcap", "a", folder], capture_output=True, text=True)
        if done.returncode != 2:
            sys.exit(f"captures: a wrong port ended with {done.returncode}")
    print(f"ok: traces of captures, 200 connections in {took:.1f} s")


main()
