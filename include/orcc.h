/* The argument block by which code of orcc is called, for objects of `orcc obj` on x86-64 (C11 or later, or C++11).
 * Functions of `orcc lib` and `orcc lib41` take plain arguments: their header is what `orcc header` writes, and this one
 * isn't needed.
 *
 * A kernel `volume` of an object is declared as
 *
 *     void volume(struct orcc_block *block);
 *
 * and called with a block that the caller fills. Of the block the code reads what its function declares, and writes
 * nothing but the words of its accumulators. docs/FORMATS.md says what a call asks and what it keeps.
 */
#ifndef ORCC_H
#define ORCC_H

#include <assert.h>
#include <stddef.h>
#include <stdint.h>

#ifdef __cplusplus
extern "C" {
#endif

/* An array that is written: a `.dest` of the text. */
struct orcc_dest {
    void *base;     /* the first element; any address */
    int64_t stride; /* bytes from a row to the next; not looked at without `.flags 2d` */
};

/* An array that is only read: a `.source` of the text. */
struct orcc_source {
    const void *base;
    int64_t stride;
};

/* All numbers of a call. Members that a function doesn't use may hold anything. */
struct orcc_block {
    uint64_t n;                    /* elements in a row, below 2^31 */
    uint64_t m;                    /* rows, below 2^31; not looked at without `.flags 2d` */
    struct orcc_dest dests[4];     /* in order of declaration */
    struct orcc_source sources[8]; /* in order of declaration */
    uint64_t params[8];            /* in order of declaration; each use takes the low bytes that it needs */
    uint64_t accumulators[4];      /* in order of declaration; set by the call, zero-extended */
};

/* A kernel. */
typedef void orcc_kernel(struct orcc_block *block);

static_assert(sizeof(void *) == 8, "addresses have 8 bytes");
static_assert(sizeof(struct orcc_block) == 304, "a block has 304 bytes");
static_assert(offsetof(struct orcc_block, n) == 0, "n");
static_assert(offsetof(struct orcc_block, m) == 8, "m");
static_assert(offsetof(struct orcc_block, dests) == 16, "dests");
static_assert(offsetof(struct orcc_dest, stride) == 8, "a dest's stride");
static_assert(sizeof(struct orcc_dest) == 16, "dests follow one another");
static_assert(offsetof(struct orcc_block, sources) == 80, "sources");
static_assert(offsetof(struct orcc_source, stride) == 8, "a source's stride");
static_assert(sizeof(struct orcc_source) == 16, "sources follow one another");
static_assert(offsetof(struct orcc_block, params) == 208, "params");
static_assert(offsetof(struct orcc_block, accumulators) == 272, "accumulators");

#ifdef __cplusplus
}
#endif

#endif
