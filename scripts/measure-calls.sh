#!/bin/sh
# Measures what a call by prototype costs beside the same call by a block, for add8 and volume, in cycles of the time-stamp
# counter: the least of 400 times 1,000 calls, at 7, 40 and 320 elements.
# Usage: sh scripts/measure-calls.sh [ORCC]     ORCC is the program, crates/orcc/out/orcc unless given.
set -eu
top=$(cd "$(dirname "$0")/.." && pwd)
orcc=${1:-$top/crates/orcc/out/orcc}
room=$(mktemp -d)
trap 'rm -rf "$room"' EXIT
cat > "$room/calls.c" <<'END'
#include <stdint.h>
#include <stdio.h>
#include <string.h>
#include <x86intrin.h>
#include "orcc.h"
void blk_add8(struct orcc_block *);
void blk_volume(struct orcc_block *);
void ent_add8(uint8_t *, const uint8_t *, const uint8_t *, int); void ent_volume(int16_t *, int, int);
static uint8_t d[4096] __attribute__((aligned(64))), s1[4096] __attribute__((aligned(64))), s2[4096] __attribute__((aligned(64)));
static int16_t v[4096] __attribute__((aligned(64)));
#define BEST(call) ({ uint64_t best = ~0ull; for (int r = 0; r < 400; r++) { _mm_lfence(); uint64_t t = __rdtsc(); for (int i = 0; i < 1000; i++) { call; } _mm_lfence(); t = __rdtsc() - t; if (t < best) best = t; } best / 1000.0; })
int main(void) {
  struct orcc_block b; memset(&b, 0, sizeof b);
  int ns[] = {7, 40, 320};
  for (int k = 0; k < 3; k++) {
    int n = ns[k];
    b.n = n; b.m = 1; b.dests[0].base = d + 8; b.sources[0].base = s1 + 8; b.sources[1].base = s2 + 8;
    double x = BEST(blk_add8(&b)), y = BEST(ent_add8(d + 8, s1 + 8, s2 + 8, n));
    struct orcc_block c; memset(&c, 0, sizeof c); c.n = n; c.m = 1; c.dests[0].base = v + 4; c.params[0] = 1024;
    double p = BEST(blk_volume(&c)), q = BEST(ent_volume(v + 4, 1024, n));
    printf("n=%d add8 block %.1f prototype %.1f; volume block %.1f prototype %.1f\n", n, x, y, p, q);
  }
}
END
for name in add8 volume; do
    "$orcc" obj < "$top/kernels/$name.orc" > "$room/block_$name.o"
    objcopy --redefine-sym "$name=blk_$name" "$room/block_$name.o"
    "$orcc" lib < "$top/kernels/$name.orc" > "$room/entry_$name.o"
    objcopy --redefine-sym "$name=ent_$name" "$room/entry_$name.o"
done
${CC:-cc} -O2 -I "$top/include" -o "$room/calls" "$room/calls.c" "$room"/*.o -Wl,-z,noexecstack
"$room/calls"
