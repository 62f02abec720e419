#!/bin/sh
# Runs the scripts that look outside the proofs: at compilers, linkers, the processor at hand, the ORC library and a C
# library that refuses memory. It ends with a table of what ran and of what was left out for want of a tool.
# Usage, from anywhere: scripts/world.sh [ORCC]
# ORCC is the program, crates/orcc/out/orcc unless given. Status 0 where nothing failed. WORLD_LOG, where it is set, is
# the folder that keeps what each script printed.
set -u
top=$(cd "$(dirname "$0")/.." && pwd)
orcc=$(realpath "${1:-$top/crates/orcc/out/orcc}")
room=$(mktemp -d)
trap 'rm -rf "$room"' EXIT
log=${WORLD_LOG:-$room}
mkdir -p "$log"
failed=0
table=$room/table

# Runs NAME NEEDED.. -- COMMAND..: a command, if all tools that it needs are here.
try() {
    name=$1
    shift
    missing=
    while [ "$1" != -- ]; do
        case $1 in
        /*) [ -e "$1" ] || missing="$missing $1" ;;
        *) command -v "$1" > /dev/null || missing="$missing $1" ;;
        esac
        shift
    done
    shift
    if [ -n "$missing" ]; then
        printf '%-22s left out: no%s\n' "$name" "$missing" >> "$table"
        return
    fi
    echo "== $name"
    begun=$(date +%s)
    "$@" > "$log/$name.log" 2>&1
    status=$?
    tail -n 3 "$log/$name.log"
    if [ "$status" -eq 0 ]; then
        result=passed
    else
        result="FAILED, status $status"
        failed=1
        cat "$log/$name.log"
    fi
    printf '%-22s %s, %s s\n' "$name" "$result" $(($(date +%s) - begun)) >> "$table"
}

tests=$(pkg-config --variable=includedir orc-test-0.4 2> /dev/null)/orc-0.4/orc-test/orctest.h
try try-objects make cc -- "$top/scripts/try-objects.sh" "$orcc"
try try-prototypes make cc objcopy -- "$top/scripts/try-prototypes.sh" "$orcc"
try try-entries python3 gcc nm "$tests" "${ORC_TOOL:-/usr/bin/orcc}" -- python3 "$top/scripts/try-entries.py" "$orcc"
try try-c python3 gcc clang -- python3 "$top/scripts/try-c.py" "$orcc"
try check-processor python3 as ld -- python3 "$top/scripts/check-processor.py"
try refuse-allocations python3 cc -- python3 "$top/scripts/refuse-allocations.py" "$orcc"
try man-page man -- sh -c '! man --warnings -l "$1" 2>&1 > /dev/null | grep .' sh "$top/docs/orcc.1"

echo
cat "$table"
exit "$failed"
