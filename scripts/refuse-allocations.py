#!/usr/bin/env python3
"""Refuses each allocation of the program in turn, and looks at what it answers.

Usage: python3 scripts/refuse-allocations.py [ORCC]
ORCC is the program, crates/orcc/out/orcc unless given. It needs an x86-64 Linux with glibc, and cc.

For each command but gen, whose every run takes long, an input that it accepts is run with the first call for memory
refused, then with the second one, and so on until a run makes none that is refused.
Each of these runs must end with status 5 and nothing written, or else with the
status and the bytes of the run that is refused nothing.

It ends with status 0 where all do, after a line for each command with the number of
refusals and how many of them were answered otherwise than by status 5.
"""

import os
import pathlib
import subprocess
import sys
import tempfile

TOP = pathlib.Path(__file__).resolve().parent.parent
PROGRAM = sys.argv[1] if len(sys.argv) > 1 else TOP / "crates" / "orcc" / "out" / "orcc"

# Refuses the call whose number REFUSED says, and tells so on the descriptor TOLD.
REFUSING = """
#include <stdlib.h>
#include <unistd.h>
extern void *__libc_malloc(size_t size);
extern void *__libc_realloc(void *block, size_t size);
static long calls;
static int refused(void) {
    const char *number = getenv("REFUSED"), *told = getenv("TOLD");
    if (!number || !told || ++calls != atol(number)) return 0;
    return write(atoi(told), "r", 1) == 1;
}
void *malloc(size_t size) { return refused() ? NULL : __libc_malloc(size); }
void *realloc(void *block, size_t size) { return refused() ? NULL : __libc_realloc(block, size); }
"""

JOB = (b'{"function":"volume","n":3,"m":1,"arrays":[{"base":4096,"stride":0,"size":2}],"params":[1024],'
       b'"memory":[{"at":4096,"bytes":"e80318fcff7f"}],"budget":1000}')


def run(words, text, environment=None, told=()):
    ran = subprocess.run([PROGRAM, *words.split()], input=text, capture_output=True,
                         env=environment or {}, pass_fds=told)
    return ran.returncode, ran.stdout, ran.stderr


def refuse(word, text, library):
    """Gives the number of refusals, and of those that were answered as if there had been none."""
    whole = run(word, text)
    assert whole[0] == 0, (word, whole)
    others = 0
    for number in range(1, 1 << 30):
        end, told = os.pipe()
        environment = {"LD_PRELOAD": library, "REFUSED": str(number), "TOLD": str(told)}
        ran = run(word, text, environment, (told,))
        os.close(told)
        refused = os.read(end, 1)
        os.close(end)
        if not refused:
            assert ran == whole, (word, number, ran)
            return number - 1, others
        if ran != (5, b"", b""):
            assert ran == whole, (word, number, ran)
            others += 1


def main():
    add8, volume = ((TOP / "kernels" / name).read_bytes() for name in ("add8.orc", "volume.orc"))
    image = run("asm", volume)[1]
    compilers = ["asm", "asm41", "obj", "lib", "lib41", "header", "c", "check", "check41", "fmt"]
    inputs = [(word, text) for word in compilers for text in (add8, volume)]
    inputs += [("dis", image), ("dis", run("obj", add8)[1]), ("run", image + JOB), ("jobs 2 5", image + JOB),
               ("emulate", volume + b"%%\n" + JOB)]
    with tempfile.TemporaryDirectory() as folder:
        source, library = f"{folder}/refusing.c", f"{folder}/refusing.so"
        pathlib.Path(source).write_text(REFUSING)
        subprocess.run(["cc", "-shared", "-fPIC", "-o", library, source], check=True)
        for word, text in inputs:
            refusals, others = refuse(word, text, library)
            assert refusals > 0, (word, "the program's calls for memory aren't seen")
            print(f"{word}: {refusals} refusals, {others} without effect")


if __name__ == "__main__":
    sys.exit(main())
