#!/usr/bin/env python3
"""How fast the program is: steps of `run`, elements of `emulate`, jobs of many segments, and large texts.

usage: scripts/benchmark.py [PROGRAM]

PROGRAM is the built orcc, by default crates/orcc/out/orcc of this checkout. Each line tells what was
done, the processor time that it took in seconds, the least of some runs, and the rate that follows. A
rate leaves out what the same call takes on no elements, so reading the job and printing its memory
don't count. Nothing is asked of the figures: docs/PERFORMANCE.md has those of one machine.
"""

import json
import os
import pathlib
import subprocess
import sys
import tempfile

HERE = pathlib.Path(__file__).resolve().parent.parent
PROGRAM = sys.argv[1] if len(sys.argv) > 1 else str(HERE / "crates/orcc/out/orcc")
ELEMENTS = 1 << 20
SEGMENTS = 1_000_000
BYTES_OF_TEXT = 1 << 20

# Element by element and in turns: a kernel's name, its arrays' sizes (dests first), and its text.
BYTES = """.function bytes
.dest 1 d1
.source 1 s1
.source 1 s2
.temp 1 t1
addb t1, s1, s2
""" + "".join(
    f"{op} t1, t1, {source}\n"
    for op, source in [("addusb", "s2"), ("xorb", "s1"), ("maxub", "s2"), ("subb", "s1")] * 10
) + "copyb d1, t1\n"
LONGS = """.function longs
.dest 4 d1
.source 4 s1
.temp 4 t1
mulll t1, s1, 77
shrsl t1, t1, 3
addssl t1, t1, s1
storel d1, t1
"""
QUADS = """.function quads
.dest 8 d1
.source 8 s1
addq d1, s1, d1
"""
SUM = """.function sum
.accumulator 4 a1
.source 2 s1
.temp 4 t1
convswl t1, s1
accl a1, t1
"""
KERNELS = {
    "bytes": ([1, 1, 1], BYTES, 42),
    "longs": ([4, 4], LONGS, 4),
    "quads": ([8, 8], QUADS, 1),
    "sum": ([2], SUM, 2),
}


def call(words, data, runs=3):
    """The least processor time of some runs, in seconds, and what the program wrote."""
    best, out = None, b""
    with tempfile.TemporaryDirectory() as folder:
        source, sink = pathlib.Path(folder, "input"), pathlib.Path(folder, "output")
        source.write_bytes(data)
        for _ in range(runs):
            with source.open("rb") as given, sink.open("wb") as taken:
                child = subprocess.Popen([PROGRAM, *words], stdin=given, stdout=taken)
                _, status, usage = os.wait4(child.pid, 0)
            if status != 0:
                sys.exit(f"{words}: status {status}")
            spent = usage.ru_utime + usage.ru_stime
            best = spent if best is None else min(best, spent)
            out = sink.read_bytes()
    return best, out


def job(name, sizes, n, memory=None):
    """A job whose arrays lie apart from each other, with bytes that differ."""
    places = [0x10000 + (k << 24) for k in range(len(sizes))]
    if memory is None:
        memory = [
            {"at": at, "bytes": bytes((37 * k + 11 * i) % 256 for i in range(256)).hex() * (size * ELEMENTS // 256)}
            for k, (at, size) in enumerate(zip(places, sizes))
        ]
    return json.dumps({
        "function": name, "n": n, "m": 1, "params": [], "budget": 100_000_000,
        "arrays": [{"base": at, "stride": 0} for at in places], "memory": memory,
    }).encode()


def kernels():
    for name, (sizes, text, count) in KERNELS.items():
        text = text.encode()
        _, image = call(["asm"], text, 1)
        full, empty = job(name, sizes, ELEMENTS), job(name, sizes, 0)
        rest, _ = call(["run"], image + empty)
        spent, out = call(["run"], image + full)
        words = out.split(b"\n", 1)[0].decode()
        steps = int(words.split()[2])
        rate = steps / (spent - rest) / 1e6
        print(f"run      {name:6} {spent:7.2f} s  {words}; {rate:.1f} million steps a second; {rest:.2f} s on no elements")
        rest, _ = call(["emulate"], text + b"%%\n" + empty)
        spent, _ = call(["emulate"], text + b"%%\n" + full)
        rate = ELEMENTS / (spent - rest) / 1e6
        print(f"emulate  {name:6} {spent:7.2f} s  {rate:.2f} million elements a second, "
              f"{rate * count:.1f} million instructions; {rest:.2f} s on no elements")


def segments():
    text = KERNELS["quads"][1].encode()
    _, image = call(["asm"], text, 1)
    for what, content in [("empty", ""), ("of a byte", "5a")]:
        rising = [{"at": 0x20000000 + 2 * i, "bytes": content} for i in range(SEGMENTS)]
        mixed = [rising[i * 700_001 % SEGMENTS] for i in range(SEGMENTS)]
        for way, memory in [("rising", rising), ("falling", rising[::-1]), ("mixed", mixed)]:
            data = job("quads", [8, 8], 0, memory)
            for words, before in [(["run"], image), (["emulate"], text + b"%%\n")]:
                spent, _ = call(words, before + data, 1)
                print(f"{words[0]:8} {SEGMENTS:,} segments {what}, {way}: {spent:.2f} s")


def texts():
    """64 functions of 100 instructions, whose long names fill a text of almost a megabyte."""
    lines = []
    for f in range(64):
        names = [f"{kind}{'_' * 40}{f:02}" for kind in ("dest", "first", "second", "value")]
        d, s, t, v = names
        lines += [f".function f{f:02}", f".dest 2 {d}", f".source 2 {s}", f".source 2 {t}", f".temp 2 {v}",
                  f"addw {v}, {s}, {t}"]
        lines += [f"{('addssw', 'xorw', 'minsw')[i % 3]} {v}, {v}, {(s, t)[i % 2]}" for i in range(98)]
        lines += [f"copyw {d}, {v}"]
    text = ("\n".join(lines) + "\n").encode()
    assert len(text) <= BYTES_OF_TEXT, len(text)
    for words in (["asm"], ["check"], ["fmt"], ["c"], ["obj"]):
        spent, out = call(words, text)
        print(f"{words[0]:8} {len(text):,} bytes: {spent:.2f} s, {len(out):,} bytes written")


if __name__ == "__main__":
    kernels()
    segments()
    texts()
