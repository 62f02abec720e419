#!/usr/bin/env python3
"""Compiles the C text of kernels with the compilers at hand and compares what it does with `orcc emulate`.

Usage: python3 scripts/try-c.py [--folder FOLDER] [--only NAME] .. [ORCC]
ORCC is the program, crates/orcc/out/orcc unless given. FOLDER, where given, keeps what was made. NAME is that of a text:
a file of kernels/ without its ending, or made-K.

- The texts are those of kernels/ but those with far loads, of which there is no C, and texts that are made here: each
  opcode of the table with each prefix that may stand before it, on arrays, on temps, with a parameter, a constant or a
  number; shifts by many counts; functions of several instructions with rows, sums and dests that are read.
- gcc and clang take each text as C11 with warnings as errors and with the sanitizers for addresses and for undefined
  behaviour. Each array has memory of its own of exactly its size, unless two are the very same.
- Each function is called on boundary values, pair by pair, and on drawn ones, with one job for both sides.

It ends with status 0 where all agree, and else prints each difference.
"""

import argparse
import concurrent.futures
import dataclasses
import itertools
import json
import pathlib
import random
import re
import shutil
import subprocess
import sys
import tempfile

TOP = pathlib.Path(__file__).resolve().parent.parent
WARNINGS = ["-std=c11", "-Wall", "-Wextra", "-Werror"]
# Each function has the parameter m, used or not. A cell is read also where a shift by the width or more makes 0 of it.
# Where a number of the text is the least or the greatest of its size, a comparison with it may always come out the same.
ALLOWED = ["-Wno-unused-parameter", "-Wno-unused-but-set-variable", "-Wno-type-limits"]
SANITIZERS = ["-O0", "-fsanitize=undefined,address", "-fno-sanitize-recover=all"]
MOST_FUNCTIONS = 64
FAR_LOADS = r"\b(loadoff|loadup|ldres)"
COUNTS = (0, 1, 7, 8, 15, 16, 31, 32, 63, 64, 65, 255, 2**63, 2**64 - 1)


@dataclasses.dataclass
class Opcode:
    name: str
    results: list
    sources: list
    kind: str

    def prefixes(self):
        sizes = self.results + (self.sources[:1] if self.kind == "Shift" else self.sources)
        return [p for p in (1, 2, 4) if p == 1 or self.kind != "Sum" and max(sizes) * p <= 8]


def opcodes():
    """The table of orc_ops, but for far loads, which `c` refuses."""
    text = (TOP / "crates/orc_ops/src/opcode.rt").read_text()
    rows = re.findall(r'^ +\w+\("(\w+)", (\d), (\d), (\d), (\d), \d, (\w+), \d+, \w+\)$', text, re.M)
    rows = [row for row in rows if row[-1] != "Far"]
    assert len(rows) == 160, len(rows)
    for name, *sizes, kind in rows:
        first, second, a, b = map(int, sizes)
        yield Opcode(name, [s for s in (first, second) if s], [s for s in (a, b) if s], kind)


LETTERS = {1: "b", 2: "w", 4: "l", 8: "q"}
MARKS = {1: "", 2: "x2 ", 4: "x4 "}


class Body:
    """The lines of a function without its name."""

    def __init__(self):
        self.declared = []
        self.lines = []

    def declare(self, line):
        if line not in self.declared:
            self.declared.append(line)

    def text(self):
        return self.declared + self.lines


def results_of(op, prefix, turn, temps, body):
    """The results of an instruction, each of its own for each turn, and the lines that go behind it."""
    names, after = [], []
    for k, size in enumerate(op.results):
        number = turn * len(op.results) + k + 1
        if op.kind == "Sum":
            body.declare(f".accumulator {size} a{number}")
            names.append(f"a{number}")
            continue
        body.declare(f".dest {size * prefix} d{number}")
        if temps and op.kind != "Store":
            body.declare(f".temp {size * prefix} t{number}")
            names.append(f"t{number}")
            after.append(f"store{LETTERS[size * prefix]} d{number}, t{number}")
        else:
            names.append(f"d{number}")
    return names, after


def source_of(op, prefix, k, temps, word, body):
    """A source of an instruction, where a word may stand for it; loads its temp."""
    size = op.sources[k] * prefix
    scalar = op.kind == "LoadParam" or op.kind == "Shift" and k == 1
    if scalar or word and k + 1 == len(op.sources):
        word = word or "p1"
        if word == "p1":
            body.declare(".param 4 p1")
        if word == "c1":
            body.declare(".const 8 c1 0x8000000000008080")
        return word
    body.declare(f".source {size} s{k + 1}")
    if not temps or op.kind == "Load":
        return f"s{k + 1}"
    body.declare(f".temp {size} u{k + 1}")
    body.lines.append(f"load{LETTERS[size]} u{k + 1}, s{k + 1}")
    return f"u{k + 1}"


def function_of(op, prefix, ways):
    """A function that does an opcode in several ways: on temps or not, with a word for the last source or not."""
    body = Body()
    for turn, (temps, word) in enumerate(ways):
        results, after = results_of(op, prefix, turn, temps, body)
        sources = [source_of(op, prefix, k, temps, word, body) for k in range(len(op.sources))]
        body.lines.append(f"{MARKS[prefix]}{op.name} {', '.join(results + sources)}")
        body.lines += after
    return body.text()


def generated():
    """Functions for each opcode and prefix, as lists of lines without the line of the name."""
    for op in opcodes():
        for prefix in op.prefixes():
            if op.kind == "Shift":
                for k in range(0, len(COUNTS), 4):
                    yield function_of(op, prefix, [(False, str(count)) for count in COUNTS[k:k + 4]])
                yield function_of(op, prefix, [(False, None), (True, "p1"), (False, "c1")])
            elif op.kind == "LoadParam" or len(op.sources) == 2:
                yield function_of(op, prefix, [(False, None), (True, None), (False, "p1"), (True, "c1")])
            else:
                yield function_of(op, prefix, [(False, None), (True, None)])
    # The dest is read again, and the second result of a split goes where the first went.
    yield [".dest 1 d1", ".source 1 s1", "addb d1, s1, s1", "addb d1, d1, s1", "subb d1, d1, 3"]
    yield [".dest 1 d1", ".source 2 s1", "splitwb d1, d1, s1"]
    yield [".flags 2d", ".dest 2 d1", ".source 1 s1", ".param 1 p1", ".temp 2 t1",
           "mulubw t1, s1, p1", "div255w t1, t1", "addusw d1, d1, t1"]
    yield [".flags 2d", ".accumulator 4 a1", ".accumulator 2 a2", ".source 1 s1", ".source 1 s2", ".temp 2 t1",
           "accsadubl a1, s1, s2", "convubw t1, s1", "accw a2, t1"]


def functions_in(text):
    """The texts of the functions of a text."""
    return re.split(r"^(?=[ \t]*\.function)", text, flags=re.M)[1:]


def texts():
    """Names of texts, each with the texts of its functions."""
    for path in sorted((TOP / "kernels").glob("*.orc")):
        text = path.read_text()
        if not re.search(FAR_LOADS, text):
            yield path.stem, functions_in(text)
    functions = list(generated())
    for k in range(0, len(functions), MOST_FUNCTIONS):
        parts = ["\n".join([f".function f{i}", *body]) + "\n" for i, body in enumerate(functions[k:k + MOST_FUNCTIONS])]
        yield f"made-{k // MOST_FUNCTIONS}", parts


@dataclasses.dataclass
class Function:
    text: str
    name: str = ""
    rows: bool = False
    dests: list = dataclasses.field(default_factory=list)
    sources: list = dataclasses.field(default_factory=list)
    params: int = 0
    sums: int = 0
    lanes: int = 1


def function(text):
    f = Function(text)
    for line in text.splitlines():
        words = re.split(r"[ \t,]+", line.split("#")[0].strip())
        if words[0] == ".function":
            f.name = words[1]
        elif words[0] == ".flags":
            f.rows = True
        elif words[0] == ".dest":
            f.dests.append(int(words[1]))
        elif words[0] == ".source":
            f.sources.append(int(words[1]))
        elif words[0] == ".param":
            f.params += 1
        elif words[0] == ".accumulator":
            f.sums += 1
        elif words[0] in ("x2", "x4"):
            f.lanes = int(words[0][1])
    return f


def boundary(size):
    """Numbers of a size at which something turns."""
    top = 2 ** (8 * size)
    half = top // 2
    some = {0, 1, 2, 3, half - 1, half, half + 1, top - 2, top - 1, top // 3, 127, 128, 254, 255, 256, 257, 32767, 32768,
            65025, 65535, 65536, 2**31 - 1, 2**31, 2**32 - 1}
    return sorted(n for n in some if n < top)


def element(numbers, lanes, size, at):
    """An element whose lanes begin with the number at a place of the list."""
    lane = size // lanes if size % lanes == 0 and size >= lanes else size
    return b"".join(numbers(lane, at + 5 * q).to_bytes(lane, "little") for q in range(size // lane))


def jobs_of(f, draw):
    """Jobs of a function: boundary values pair by pair, some parameters, drawn values, one array in two places."""
    arrays = f.dests + f.sources
    most = max((len(boundary(s // f.lanes if s % f.lanes == 0 else s)) for s in f.sources), default=1)
    pairs = most if len(f.sources) < 2 else most * most
    for k, first in enumerate((1, 2**64 - 1, 31, 2**63 + 0x8080)[:4 if f.params else 1]):
        params = [first] + [draw.getrandbits(64) for _ in range(f.params)]
        yield job(f, arrays, params[:f.params], pairs if k == 0 else 24, 1, draw, True, False)
    params = [draw.getrandbits(64) for _ in range(f.params)]
    yield job(f, arrays, params, draw.randrange(50), draw.randrange(4) if f.rows else 1, draw, False, False)
    if f.dests and f.sources and f.dests[0] == f.sources[0]:
        yield job(f, arrays, [3] * f.params, 40, 2 if f.rows else 1, draw, False, True)


def job(f, arrays, params, n, m, draw, pairs, same):
    segments, places = [], []
    for k, size in enumerate(arrays):
        source = k - len(f.dests)
        if same and source == 0:
            places.append(places[0])
            continue
        row = n * size
        stride = draw.choice((-1, 1)) * (row + draw.randrange(9)) if f.rows else 0
        length = row + (m - 1) * abs(stride) if m else 0
        at = 4096 + 65536 * k + draw.randrange(16)
        data = bytearray(draw.randbytes(length))
        if pairs and source >= 0:
            def numbers(lane, i, turn=source):
                list_ = boundary(lane)
                return list_[(i if turn == 0 else i // len(list_)) % len(list_)]
            data = bytearray(b"".join(element(numbers, f.lanes, size, i) for i in range(n)))
        segments.append({"at": at, "bytes": bytes(data).hex()})
        back = (m - 1) * abs(stride) if m and stride < 0 else 0
        places.append({"base": at + back, "stride": stride})
    return {"function": f.name, "n": n, "m": m, "arrays": places, "params": params, "memory": segments, "budget": 1}


def driver_of(functions, c_text):
    """A program of C that reads calls and prints what they leave, as results of orcc do."""
    calls, names = [], []
    for f in functions:
        arguments = ["c->n", "c->m"]
        arguments += [f"c->a[{k}], c->s[{k}]" for k in range(len(f.dests + f.sources))]
        arguments += [f"c->p[{k}]" for k in range(f.params)] + [f"&c->g[{k}]" for k in range(f.sums)]
        calls.append(f"static void call_{f.name}(struct call *c) {{ orc_{f.name}({', '.join(arguments)}); }}")
        names.append(f'{{ "{f.name}", call_{f.name}, {f.sums} }},')
    return f"""{c_text}
#include <inttypes.h>
#include <stdio.h>
#include <stdlib.h>
#include <string.h>
struct call {{ int64_t n, m; unsigned char *a[12]; int64_t s[12]; uint64_t p[8]; uint64_t g[4]; }};
{chr(10).join(calls)}
static const struct {{ const char *name; void (*call)(struct call *); int sums; }} functions[] = {{
{chr(10).join(names)}
{{ "", 0, 0 }} }};
int main(void)
{{
    char name[80];
    while (scanf("%79s", name) == 1) {{
        struct call c;
        unsigned char *segments[12];
        uint64_t at[12];
        size_t sizes[12];
        int count, arrays, params;
        memset(&c, 0, sizeof c);
        if (scanf("%" SCNd64 "%" SCNd64 "%d", &c.n, &c.m, &count) != 3) return 2;
        for (int k = 0; k < count; k++) {{
            if (scanf("%" SCNu64 "%zu", &at[k], &sizes[k]) != 2) return 2;
            segments[k] = malloc(sizes[k]);
            for (size_t i = 0; i < sizes[k]; i++) {{
                unsigned byte;
                if (scanf("%2x", &byte) != 1) return 2;
                segments[k][i] = (unsigned char)byte;
            }}
        }}
        if (scanf("%d", &arrays) != 1) return 2;
        for (int k = 0; k < arrays; k++) {{
            int segment;
            int64_t offset;
            if (scanf("%d%" SCNd64 "%" SCNd64, &segment, &offset, &c.s[k]) != 3) return 2;
            c.a[k] = segments[segment] + offset;
        }}
        if (scanf("%d", &params) != 1) return 2;
        for (int k = 0; k < params; k++) if (scanf("%" SCNu64, &c.p[k]) != 1) return 2;
        int f = 0;
        while (strcmp(functions[f].name, name)) f++;
        functions[f].call(&c);
        for (int g = 0; g < functions[f].sums; g++) printf("acc %d %" PRIu64 "\\n", g, c.g[g]);
        for (int k = 0; k < count; k++) {{
            printf("mem %" PRIu64 " ", at[k]);
            for (size_t i = 0; i < sizes[k]; i++) printf("%02x", segments[k][i]);
            printf("\\n");
            free(segments[k]);
        }}
        printf("end\\n");
    }}
    return 0;
}}
"""


def call_of(job):
    """A job in the words that the driver reads."""
    words = [job["function"], job["n"], job["m"], len(job["memory"])]
    for s in job["memory"]:
        words += [s["at"], len(s["bytes"]) // 2, s["bytes"]]
    words.append(len(job["arrays"]))
    for a in job["arrays"]:
        segment = max(k for k, s in enumerate(job["memory"]) if s["at"] <= a["base"])
        words += [segment, a["base"] - job["memory"][segment]["at"], a["stride"]]
    words += [len(job["params"]), *job["params"]]
    return " ".join(map(str, words)) + "\n"


class Trial:
    def __init__(self, orcc, folder, compilers):
        self.orcc = orcc
        self.folder = folder
        self.compilers = compilers
        self.failures = []
        self.functions = 0
        self.jobs = 0

    def run(self, word, data):
        return subprocess.run([self.orcc, word], input=data.encode(), capture_output=True)

    def emulated(self, function, job):
        ran = self.run("emulate", function.text + "%%\n" + json.dumps(job))
        lines = ran.stdout.decode().splitlines()
        if ran.returncode != 0 or not lines or lines[0] != "end emulated":
            return f"emulate: status {ran.returncode}, {lines[:1]} {ran.stderr.decode()}"
        return lines[1:]

    def fail(self, what):
        self.failures.append(what)
        print("DIFFERS", what, flush=True)

    def text(self, name, parts):
        translated = self.run("c", "".join(parts))
        if translated.returncode != 0:
            return self.fail(f"{name}: c refuses: {translated.stderr.decode().strip()}")
        c_text = translated.stdout.decode()
        functions = [function(part) for part in parts]
        source = self.folder / f"{name}.c"
        source.write_text(c_text)
        draw = random.Random(name)
        calls = [(f, job) for f in functions for job in jobs_of(f, draw)]
        with concurrent.futures.ThreadPoolExecutor(3) as pool:
            wanted = list(pool.map(lambda call: self.emulated(*call), calls))
        jobs = [job for _, job in calls]
        self.functions += len(functions)
        self.jobs += len(jobs)
        driver = self.folder / f"{name}-driver.c"
        driver.write_text(driver_of(functions, c_text))
        for compiler in self.compilers:
            self.compare(compiler, name, source, driver, jobs, wanted)

    def compare(self, compiler, name, source, driver, jobs, wanted):
        strict = subprocess.run([compiler, *WARNINGS, *ALLOWED, "-O2", "-c", source, "-o", "/dev/null"],
                                capture_output=True, text=True)
        if strict.returncode != 0:
            self.fail(f"{name}: {compiler} warns:\n{strict.stderr[:2000]}")
        program = self.folder / f"{name}-{compiler}"
        made = subprocess.run([compiler, "-std=c11", "-w", *SANITIZERS, driver, "-o", program],
                              capture_output=True, text=True)
        if made.returncode != 0:
            return self.fail(f"{name}: {compiler} refuses:\n{made.stderr[:2000]}")
        ran = subprocess.run([program], input="".join(map(call_of, jobs)), capture_output=True, text=True)
        if ran.returncode != 0:
            self.fail(f"{name}: {compiler}: status {ran.returncode}:\n{ran.stderr[:2000]}")
        answers = [[]]
        for line in ran.stdout.splitlines():
            if line == "end":
                answers.append([])
            else:
                answers[-1].append(line.rstrip() if line.startswith("acc") else line)
        for job, want, got in itertools.zip_longest(jobs, wanted, answers[:-1]):
            if want != got:
                self.fail(f"{name}: {compiler}: {json.dumps(job)[:600]}\n  emulate {want}\n  C       {got}"[:3000])
                break


def main():
    words = argparse.ArgumentParser()
    words.add_argument("orcc", nargs="?", default=TOP / "crates/orcc/out/orcc", type=pathlib.Path)
    words.add_argument("--folder", type=pathlib.Path)
    words.add_argument("--only", action="append")
    given = words.parse_args()
    compilers = [c for c in ("gcc", "clang") if shutil.which(c)]
    if not compilers:
        sys.exit("neither gcc nor clang is here")
    with tempfile.TemporaryDirectory() as room:
        folder = given.folder or pathlib.Path(room)
        folder.mkdir(parents=True, exist_ok=True)
        trial = Trial(given.orcc.resolve(), folder, compilers)
        for name, parts in texts():
            if not given.only or name in given.only:
                trial.text(name, parts)
    print(f"{trial.functions} functions, {trial.jobs} jobs, by {' and '.join(compilers)}: "
          f"{len(trial.failures) or 'no'} differences")
    sys.exit(1 if trial.failures else 0)


if __name__ == "__main__":
    main()
