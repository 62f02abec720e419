#!/bin/sh
# Links objects of `orcc lib` and `orcc lib41` with examples/gain.c and examples/choice.c, which call kernels by their C
# prototypes, by each C compiler and linker at hand, runs the programs, and says what it saw.
# Usage, from anywhere: scripts/try-prototypes.sh [ORCC]
# ORCC is the program, crates/orcc/out/orcc unless given. Ends with status 0 where every program linked and agreed.
set -eu
top=$(cd "$(dirname "$0")/.." && pwd)
orcc=$(realpath "${1:-$top/crates/orcc/out/orcc}")
room=$(mktemp -d)
trap 'rm -rf "$room"' EXIT
cp -r "$top/examples" "$top/include" "$top/kernels" "$room"
cd "$room/examples"
failed=0

say() { printf '%s\n' "$*"; }

# Builds and runs the examples with these words for make.
try() {
    rm -f gain choice
    if make -s ORCC="$orcc" "$@" gain choice > log 2>&1 && ./gain > said && ./choice >> said; then
        say "$*: $(tr '\n' ';' < said)"
    else
        failed=1
        say "$*: FAILED"
    fi
    sed 's/^/    /' log
}

for compiler in gcc clang; do
    command -v "$compiler" > /dev/null || { say "$compiler: not here"; continue; }
    try CC="$compiler"
    try CC="$compiler" CFLAGS="-std=c11 -O2 -Wall -Wextra -Werror -fsanitize=address,undefined"
    try CC="$compiler" LDFLAGS="-static -Wl,-z,noexecstack"
    if command -v ld.lld > /dev/null; then
        try CC="$compiler" LDFLAGS="-fuse-ld=lld"
    fi
done

say "as a shared library:"
if cc -shared -Wl,-z,noexecstack -Wl,-z,text -o libvolume.so volume-lib.o 2> log && rm -f gain &&
    cc -std=c11 -O2 -o gain gain.c ./libvolume.so 2>> log && ./gain > said; then
    say "    $(cat said)"
else
    failed=1
    say "    FAILED"
fi
sed 's/^/    /' log

for compiler in g++ clang++; do
    command -v "$compiler" > /dev/null || continue
    say "the header as C++11, by $compiler:"
    {
        echo '#include <cstdint>'
        echo 'typedef int16_t gint16;'
        echo '#include "volume.h"'
        echo 'int main() { gint16 sample = 2000; volume(&sample, 1024, 1); return sample != 1000; }'
    } > header.cc
    if "$compiler" -std=c++11 -Wall -Wextra -Werror -Wl,-z,noexecstack -o header header.cc volume-lib.o && ./header; then
        say "    taken"
    else
        failed=1
        say "    FAILED"
    fi
done

if command -v meson > /dev/null; then
    say "meson $(meson --version):"
    mkdir ../bin && ln -s "$orcc" ../bin/orcc
    rm -f ./*.h ./*.o
    if PATH="$room/bin:$PATH" meson setup "$room/build" "$room/examples" > log 2>&1 &&
        PATH="$room/bin:$PATH" meson test -C "$room/build" > log 2>&1; then
        say "    $(grep -i '^ok:' log)"
    else
        failed=1
        say "    FAILED"
        sed 's/^/    /' log
    fi
else
    say "meson: not here"
fi
exit "$failed"
