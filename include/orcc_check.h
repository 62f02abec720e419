/* Tells whether a call of code of orcc is good, for debug builds (C11 or later, or C++11).
 *
 * A caller says once what the text declares, as
 *
 *     static const struct orcc_declared volume_declared = {.dests = 1, .arrays = {{.size = 2}}};
 *
 * and asks before a call, with the block that it would pass or fills for this alone:
 *
 *     const char *wrong = orcc_wrong(&volume_declared, &block);
 *     if (wrong) { fputs(wrong, stderr); abort(); }
 *
 * What isn't looked at is left to the caller: that all cells are mapped, that those of dests can be written, that nobody
 * else writes them meanwhile, that the stack has room, and that block, stack and code share no byte with a cell. Nor are
 * elements looked at that far loads read outside a row. docs/FORMATS.md has all that a call asks for.
 */
#ifndef ORCC_CHECK_H
#define ORCC_CHECK_H

#include "orcc.h"

/* What `.n` or `.m` states. Of a number that isn't stated 0 stands here. */
struct orcc_count {
    uint64_t exact, mult, min, max;
};

/* An array as the text declares it. */
struct orcc_array {
    uint64_t size;  /* bytes of an element */
    uint64_t align; /* as stated, or 0 */
    int far_loads;  /* whether a far load reads it */
};

/* What a text declares of a function's calls. */
struct orcc_declared {
    int dests, sources;
    int rows;                     /* whether it has `.flags 2d` */
    struct orcc_array arrays[12]; /* the dests, then the sources */
    struct orcc_count n, m;
};

/* An array of a call. */
struct orcc_placed {
    const struct orcc_array *array;
    uint64_t base;
    int64_t stride;
    int is_dest;
};

static inline struct orcc_placed orcc_place(const struct orcc_declared *declared, const struct orcc_block *block, int k)
{
    struct orcc_placed placed;
    placed.array = &declared->arrays[k];
    placed.is_dest = k < declared->dests;
    if (placed.is_dest) {
        placed.base = (uint64_t)(uintptr_t)block->dests[k].base;
        placed.stride = block->dests[k].stride;
    } else {
        placed.base = (uint64_t)(uintptr_t)block->sources[k - declared->dests].base;
        placed.stride = block->sources[k - declared->dests].stride;
    }
    if (!declared->rows)
        placed.stride = 0;
    return placed;
}

/* Whether a count has what is stated of it. */
static inline int orcc_meets(const struct orcc_count *stated, uint64_t count)
{
    if (stated->exact)
        return count == stated->exact;
    return (!stated->mult || count % stated->mult == 0) && count >= stated->min && (!stated->max || count <= stated->max);
}

/* Whether all cells of an array lie from 0 to 2^47. Rows go up or down from the first. */
static inline int orcc_is_low(const struct orcc_placed *a, uint64_t n, uint64_t m)
{
    const uint64_t limit = (uint64_t)1 << 47;
    uint64_t width = n * a->array->size;
    uint64_t step = a->stride < 0 ? 0 - (uint64_t)a->stride : (uint64_t)a->stride;
    if (a->base > limit || width > limit - a->base)
        return 0;
    if (m < 2 || step == 0)
        return 1;
    if (step > limit / (m - 1))
        return 0;
    return a->stride < 0 ? step * (m - 1) <= a->base : step * (m - 1) <= limit - a->base - width;
}

/* Whether a row of a shares a byte with a row of b. Both are low. */
static inline int orcc_share(const struct orcc_placed *a, const struct orcc_placed *b, uint64_t n, uint64_t m)
{
    int64_t a_width = (int64_t)(n * a->array->size), b_width = (int64_t)(n * b->array->size);
    for (uint64_t r = 0; r < m; r++) {
        /* the rows of b that begin above first and below last do */
        int64_t row = (int64_t)a->base + (int64_t)r * a->stride;
        int64_t first = row - b_width - (int64_t)b->base, last = row + a_width - (int64_t)b->base;
        int64_t step = b->stride;
        if (step < 0) {
            int64_t turned = -first;
            first = -last;
            last = turned;
            step = -step;
        }
        if (step == 0) {
            if (first < 0 && 0 < last)
                return 1;
            continue;
        }
        int64_t number = first < 0 ? 0 : first / step + 1;
        if (number < (int64_t)m && number * step < last)
            return 1;
    }
    return 0;
}

/* Whether two arrays may stand where they do: apart, or the very same. */
static inline int orcc_may_stand(const struct orcc_placed *a, const struct orcc_placed *b, uint64_t n, uint64_t m)
{
    int same = a->array->size == b->array->size && a->base == b->base && a->stride == b->stride;
    if (same && !((a->is_dest || b->is_dest) && (a->array->far_loads || b->array->far_loads)))
        return 1;
    return n == 0 || !orcc_share(a, b, n, m);
}

/* NULL where nothing is wrong with a call by this block, or what is. */
static inline const char *orcc_wrong(const struct orcc_declared *declared, const struct orcc_block *block)
{
    const uint64_t limit = (uint64_t)1 << 31;
    const int arrays = declared->dests + declared->sources;
    const uint64_t rows = declared->rows ? block->m : 1;
    if (block->n >= limit)
        return "n isn't below 2^31";
    if (!orcc_meets(&declared->n, block->n))
        return "n isn't as .n states";
    if (rows >= limit)
        return "m isn't below 2^31";
    if (declared->rows && !orcc_meets(&declared->m, block->m))
        return "m isn't as .m states";
    for (int k = 0; k < arrays; k++) {
        struct orcc_placed a = orcc_place(declared, block, k);
        uint64_t align = a.array->align ? a.array->align : 1;
        if (a.base % align != 0)
            return "an array's address isn't a multiple of its align";
        if (a.stride % (int64_t)align != 0)
            return "an array's stride isn't a multiple of its align";
        if (block->n && rows && !orcc_is_low(&a, block->n, rows))
            return "an array ends above 2^47";
    }
    for (int k = 0; block->n && k < arrays; k++) {
        for (int j = 0; j < k; j++) {
            struct orcc_placed a = orcc_place(declared, block, j), b = orcc_place(declared, block, k);
            if (!orcc_may_stand(&a, &b, block->n, rows))
                return "two arrays share bytes, and may not be the same or aren't";
        }
    }
    return NULL;
}

#endif
