#!/usr/bin/env python3
"""Measures the functions of kernels/ beside the ORC library's code, and prints a table for docs/PERFORMANCE.md.

Usage: python3 scripts/measure.py [asm41] [ORCC] [FILE.orc ..]
With the word asm41 the code is that of `orcc asm41`, and the library may use SSSE3 and SSE4.1 too; else both use SSE2 alone.
ORCC is the program, crates/orcc/out/orcc unless given. Without files all of kernels/ are measured. It needs an x86-64
Linux with a C compiler, pkg-config and the library's headers (Debian: liborc-0.4-dev).

A turn is the innermost loop that does most elements: its instructions are counted in the listing of `orcc dis`, and for
the library in the code that it prints. An object's functions stand at multiples of 16, and how a loop lies to the
boundaries of 32 and of 64 bytes changes its speed. So each function is measured at four places; the table has the best of
them, and for the last number of elements also the worst.
"""

import math
import pathlib
import re
import subprocess
import sys
import tempfile

TOP = pathlib.Path(__file__).resolve().parent.parent
COUNTS = (40, 320, 1920, 16384)
PLACES = (0, 16, 32, 48)
RUNS = 2


def listings(orcc, image):
    """For each function of an image its instructions: offset, bytes, mnemonic."""
    functions = {}
    ran = subprocess.run([orcc, "dis"], input=image, capture_output=True, check=True)
    for line in ran.stdout.decode().splitlines():
        if line.startswith("function "):
            lines = functions[line.split()[1]] = []
        else:
            offset, code, mnemonic = line.split()
            lines.append((int(offset, 16), bytes.fromhex(code), mnemonic))
    return functions


def turn(lines):
    """How many elements the turn does that does most, and how many instructions it has."""
    places = {offset: k for k, (offset, _, _) in enumerate(lines)}
    loops = []
    for k, (offset, code, mnemonic) in enumerate(lines):
        if mnemonic == "jmp" or mnemonic.startswith("j"):
            to = offset + len(code) + int.from_bytes(code[-4:], "little", signed=True)
            if to <= offset and to in places:
                loops.append((places[to], k))
    best = (0, 0)
    for first, last in loops:
        inner = any((a, b) != (first, last) and first <= a and b <= last for a, b in loops)
        if inner:
            continue
        for _, code, _ in lines[first:last + 1]:
            # The count of the elements that are left stands in RCX: sub rcx, so many
            if code[:3] == b"\x48\x83\xe9":
                elements = code[3]
                if elements > best[0] or elements == best[0] and last + 1 - first < best[1]:
                    best = (elements, last + 1 - first)
    return best


def library_turn(code):
    """The same of the library's code: it counts turns by a shift of the number of elements, and its loop has the label 2."""
    lines = [line.strip() for line in code.splitlines()]
    shift = re.search(r"sar \$(\d+), %ecx", code)
    if not shift or "2:" not in lines or "jnz 2b" not in lines:
        return (0, 0)
    body = lines[lines.index("2:") + 1:lines.index("jnz 2b") + 1]
    return (2 ** int(shift[1]), sum(1 for line in body if line and line[0] not in ".#"))


def words_of(*command):
    return subprocess.run(command, capture_output=True, text=True, check=True).stdout.split()


def assembled(room, functions):
    """Makes an object of the functions of an image: `orcc obj` has none for SSE4.1, since a linker can't tell the target."""
    text = [".section .note.GNU-stack, \"\", @progbits", ".text"]
    for name, lines in functions.items():
        text += [".p2align 4", f".globl {name}", f"{name}:"]
        text += [".byte " + ", ".join(map(str, code)) for _, code, _ in lines]
    (room / "kernel.s").write_text("\n".join(text) + "\n")
    subprocess.run(["cc", "-c", room / "kernel.s", "-o", room / "kernel.o"], check=True)


def linked(room, name, place, flags):
    """The measuring program, with the kernel at so many bytes behind a multiple of 64."""
    (room / "place.s").write_text(f".text\n.p2align 6\n.skip {64 + place}, 0x90\n.section .note.GNU-stack, \"\", @progbits\n")
    program = room / "measure"
    subprocess.run(["cc", "-O2", f"-DKERNEL={name}", *flags, f"-I{TOP / 'include'}", TOP / "scripts/measure.c", room / "place.s",
                    room / "kernel.o", "-o", program, "-Wl,-z,noexecstack",
                    *words_of("pkg-config", "--cflags", "--libs", "orc-0.4")], check=True)
    return program


def measured(room, text, name, flags):
    """The library's turn; lines of numbers: elements, cycles of the kernel at its best and at its worst place, cycles of the
    library, whether both left the same."""
    runs = []
    for place in PLACES:
        program = linked(room, name, place, flags)
        ran = [subprocess.run([program, text], capture_output=True, text=True, check=True).stdout for _ in range(RUNS)]
        runs.append([[line.split() for line in out.splitlines()] for out in ran])
    rows = []
    for k, n in enumerate(COUNTS):
        at_places = [min(int(run[k][1]) for run in place) for place in runs]
        theirs = min(int(run[k][2]) for place in runs for run in place)
        same = all(run[k][3] == "same" for place in runs for run in place)
        rows.append((n, min(at_places), max(at_places), theirs, same))
    code = subprocess.run([program, text, "code"], capture_output=True, text=True, check=True).stdout
    return library_turn(code), rows


def main():
    words = sys.argv[1:]
    newer = words[:1] == ["asm41"]
    flags = ["-DSSE41"] if newer else []
    words = words[newer:]
    orcc = TOP / "crates/orcc/out/orcc"
    if words and not words[0].endswith(".orc"):
        orcc = pathlib.Path(words.pop(0)).resolve()
    files = [pathlib.Path(w).resolve() for w in words] or sorted((TOP / "kernels").glob("*.orc"))
    version = words_of("pkg-config", "--modversion", "orc-0.4")[0]
    print(f"ORC library {version}")
    print("| function | a turn: elements, instructions | ORC | " + " | ".join(f"n = {n} | ORC" for n in COUNTS) +
          " | cycles an element | worst place | ORC |")
    print("|---" * (6 + 2 * len(COUNTS)) + "|")
    ratios = {n: [] for n in COUNTS}
    with tempfile.TemporaryDirectory() as folder:
        room = pathlib.Path(folder)
        for path in files:
            text = path.read_bytes()
            image = subprocess.run([orcc, "asm41" if newer else "asm"], input=text, capture_output=True, check=True).stdout
            functions = listings(orcc, image)
            if newer:
                assembled(room, functions)
            else:
                (room / "kernel.o").write_bytes(subprocess.run([orcc, "obj"], input=text, capture_output=True, check=True).stdout)
            for name, lines in functions.items():
                theirs_turn, rows = measured(room, path, name, flags)
                cells = []
                for n, ours, _, theirs, _ in rows:
                    cells += [f"{ours:,}", f"{theirs:,}" if theirs else "none"]
                    if ours and theirs:
                        ratios[n].append(ours / theirs)
                n, ours, worst, theirs, _ = rows[-1]
                cells += [f"{ours / n:.2f}", f"{worst / n:.2f}", f"{theirs / n:.2f}" if theirs else "none"]
                turns = ["{}, {}".format(*turn(lines)), "{}, {}".format(*theirs_turn)]
                print(f"| `{name}` | " + " | ".join(turns + cells) + " |", flush=True)
                if not all(same for *_, same in rows):
                    sys.exit(f"{name}: the two leave other bytes")
    for n, all_of in ratios.items():
        if all_of:
            mean = math.exp(sum(map(math.log, all_of)) / len(all_of))
            print(f"geometric mean of the ratios at n = {n}: {mean:.2f} over {len(all_of)} functions")


if __name__ == "__main__":
    main()
