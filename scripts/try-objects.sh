#!/bin/sh
# Links the objects of kernels/volume.orc and kernels/blend.orc with examples/volume.c and examples/blend.c by each C
# compiler and linker at hand, runs the programs, and says what it saw. Usage, from anywhere: scripts/try-objects.sh [ORCC]
# ORCC is the program, crates/orcc/out/orcc unless given. Ends with status 0 where every program linked and agreed.
set -eu
top=$(cd "$(dirname "$0")/.." && pwd)
orcc=$(realpath "${1:-$top/crates/orcc/out/orcc}")
room=$(mktemp -d)
trap 'rm -rf "$room"' EXIT
cp -r "$top/examples" "$top/include" "$top/kernels" "$room"
cd "$room/examples"
failed=0

say() { printf '%s\n' "$*"; }

# Builds and runs the example with these words for make.
try() {
    rm -f volume blend
    if make -s ORCC="$orcc" "$@" > log 2>&1 && ./volume > said && ./blend >> said; then
        say "$*: $(tr '\n' ';' < said)"
    else
        failed=1
        say "$*: FAILED"
    fi
    sed 's/^/    /' log
}

for compiler in gcc clang; do
    command -v "$compiler" > /dev/null || { say "$compiler: not here"; continue; }
    try CC="$compiler"
    try CC="$compiler" CFLAGS="-std=c11 -O2 -Wall -Wextra -Werror -fsanitize=address,undefined"
    try CC="$compiler" LDFLAGS="-static -Wl,-z,noexecstack"
    if command -v ld.lld > /dev/null; then
        try CC="$compiler" LDFLAGS="-fuse-ld=lld"
    fi
    say "without -z noexecstack:"
    try CC="$compiler" LDFLAGS=
done

say "as a shared library:"
if cc -shared -Wl,-z,noexecstack -Wl,-z,text -o libvolume.so volume.o 2> log && rm -f volume &&
    cc -std=c11 -O2 -I../include -o volume volume.c ./libvolume.so 2>> log && ./volume > said; then
    say "    $(cat said)"
else
    failed=1
    say "    FAILED"
fi
sed 's/^/    /' log

if command -v g++ > /dev/null; then
    say "the header as C++11:"
    printf '#include "orcc.h"\nint main() { return 0; }\n' > header.cc
    if g++ -std=c++11 -Wall -Wextra -Werror -I../include -fsyntax-only header.cc; then
        say "    taken"
    else
        failed=1
        say "    FAILED"
    fi
fi

if command -v readelf > /dev/null; then
    say "readelf on the object:"
    readelf --relocs --wide volume.o | sed '/^$/d; s/^/    /'
    readelf --symbols --wide volume.o | grep GLOBAL | sed 's/^/    /'
fi

if command -v meson > /dev/null; then
    say "meson $(meson --version):"
    mkdir ../bin && ln -s "$orcc" ../bin/orcc
    if PATH="$room/bin:$PATH" meson setup "$room/build" "$room/examples" > log 2>&1 &&
        PATH="$room/bin:$PATH" meson test -C "$room/build" > log 2>&1; then
        say "    $(grep -i '^ok:' log)"
    else
        failed=1
        say "    FAILED"
        sed 's/^/    /' log
    fi
else
    say "meson: not here"
fi
exit "$failed"
