/* Calls the kernel of kernels/volume.orc on 16-bit samples and compares with a plain loop.
 *
 * The samples begin at each of 32 addresses in a row, so most of them begin at no multiple of two or sixteen bytes, and
 * there are up to 100 of them and some longer runs. What stands before and behind them has to stay.
 */
#include "orcc.h"
#include <stdio.h>
#include <stdlib.h>
#include <string.h>

/* The kernel: scales samples in place by a volume with 11 fractional bits. */
void volume(struct orcc_block *block);

enum { MOST = 4099, MARGIN = 64, ROOM = 2 * MARGIN + 2 * MOST };

/* The same by a plain loop. memcpy reads and writes a sample at any address. */
static void plain_volume(unsigned char *samples, size_t count, int volume)
{
    for (size_t i = 0; i < count; i++) {
        int16_t sample;
        memcpy(&sample, samples + 2 * i, 2);
        sample = (int16_t)(sample * volume >> 11);
        memcpy(samples + 2 * i, &sample, 2);
    }
}

/* A tone of 441 Hz at 44,100 samples a second with some noise, and here and there the least and the greatest sample. */
static void fill(unsigned char *bytes, size_t size)
{
    uint32_t noise = 1;
    for (size_t i = 0; 2 * i + 1 < size; i++) {
        noise = noise * 1664525u + 1013904223u;
        int phase = (int)(i % 100);
        int tone = 1200 * (phase < 50 ? phase - 25 : 75 - phase) + (int)(noise >> 22) - 512;
        int16_t sample = (int16_t)(noise % 13 == 0 ? -32768 : noise % 17 == 0 ? 32767 : tone);
        memcpy(bytes + 2 * i, &sample, 2);
    }
}

/* Whether the kernel and the loop do the same with so many samples from an address on. */
static int agrees(size_t count, size_t offset, int16_t by)
{
    static unsigned char ours[ROOM];
    static unsigned char plain[ROOM];
    fill(ours, ROOM);
    memcpy(plain, ours, ROOM);

    struct orcc_block block;
    memset(&block, 0xa5, sizeof block); /* what a function doesn't use may hold anything */
    block.n = count;
    block.dests[0].base = ours + MARGIN + offset;
    block.params[0] = (uint64_t)by;
    volume(&block);

    plain_volume(plain + MARGIN + offset, count, by);
    return memcmp(ours, plain, ROOM) == 0;
}

int main(void)
{
    static const int16_t volumes[] = {0, 1, 1024, 2047, 2048, 4096, 32767, -1, -2048, -32768};
    static const size_t longer[] = {160, 441, 1023, 1024, 4099};
    size_t calls = 0;
    for (size_t v = 0; v < sizeof volumes / sizeof *volumes; v++) {
        for (size_t offset = 0; offset < 32; offset++) {
            for (size_t k = 0; k < 101 + sizeof longer / sizeof *longer; k++) {
                size_t count = k < 101 ? k : longer[k - 101];
                if (!agrees(count, offset, volumes[v])) {
                    printf("different: %zu samples, offset %zu, volume %d\n", count, offset, volumes[v]);
                    return EXIT_FAILURE;
                }
                calls++;
            }
        }
    }
    printf("%zu calls, all as the plain loop\n", calls);
    return EXIT_SUCCESS;
}
