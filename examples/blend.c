/* Blends a picture over another with the kernel of kernels/blend.orc, once in one call and once cut by rows among four
 * threads, and compares the two.
 *
 * A part is a call of its own: its rows begin where those of the part before it end, so its base is the picture's plus
 * the first row times the stride; everything else is as in the whole call. Each thread has a block of its own, and its
 * stack holds the frame. No part writes a byte that another part reads or writes, so the parts are separate, and it
 * doesn't matter in which order their instructions are done.
 */
#include "orcc.h"
#include <stdio.h>
#include <stdlib.h>
#include <string.h>
#include <threads.h>

/* The kernel: blends the source over the dest by an opacity from 0 to 255. */
void blend(struct orcc_block *block);

enum { WIDTH = 639, HEIGHT = 361, STRIDE = 648, BYTES = STRIDE * HEIGHT, THREADS = 4 };

/* Rows of a picture that one thread does. */
struct part {
    unsigned char *under;
    const unsigned char *over;
    size_t first, count;
    int opacity;
};

static int blend_part(void *of)
{
    const struct part *part = of;
    struct orcc_block block;
    memset(&block, 0xa5, sizeof block); /* what a function doesn't use may hold anything */
    block.n = WIDTH;
    block.m = part->count;
    block.dests[0].base = part->under + part->first * STRIDE;
    block.dests[0].stride = STRIDE;
    block.sources[0].base = part->over + part->first * STRIDE;
    block.sources[0].stride = STRIDE;
    block.params[0] = (uint64_t)part->opacity;
    blend(&block);
    return 0;
}

/* Part k begins at row k * HEIGHT / THREADS. */
static int blend_in_parts(unsigned char *under, const unsigned char *over, int opacity)
{
    thrd_t threads[THREADS];
    struct part parts[THREADS];
    size_t begun = 0;
    int failed = 0;
    for (size_t k = 0; k < THREADS; k++) {
        size_t first = k * HEIGHT / THREADS;
        size_t end = (k + 1) * HEIGHT / THREADS;
        parts[k] = (struct part){under, over, first, end - first, opacity};
        if (thrd_create(&threads[k], blend_part, &parts[k]) != thrd_success) {
            failed = 1;
            break;
        }
        begun++;
    }
    for (size_t k = 0; k < begun; k++) {
        failed |= thrd_join(threads[k], NULL) != thrd_success;
    }
    return failed;
}

static void fill(unsigned char *bytes, uint32_t noise)
{
    for (size_t i = 0; i < BYTES; i++) {
        noise = noise * 1664525u + 1013904223u;
        bytes[i] = (unsigned char)(noise >> 24);
    }
}

int main(void)
{
    static unsigned char over[BYTES], whole[BYTES], parts[BYTES];
    for (int opacity = 0; opacity < 256; opacity++) {
        fill(over, 1);
        fill(whole, 2);
        memcpy(parts, whole, BYTES);
        blend_part(&(struct part){whole, over, 0, HEIGHT, opacity});
        if (blend_in_parts(parts, over, opacity) != 0) {
            puts("no threads");
            return EXIT_FAILURE;
        }
        if (memcmp(whole, parts, BYTES) != 0) {
            printf("different: opacity %d\n", opacity);
            return EXIT_FAILURE;
        }
    }
    printf("256 pictures in %d parts, all as in one call\n", THREADS);
    return EXIT_SUCCESS;
}
