/* Calls the kernel of kernels/volume.orc by its prototype, and compares with a plain loop.
 *
 * `orcc header` writes volume.h and `orcc lib` the object. The type of the samples is the text's own word, gint16: a
 * program with GLib includes <glib.h> before the header, and this one says what the word means.
 */
#include <stdint.h>
typedef int16_t gint16;
#include "volume.h"
#include <stdio.h>
#include <stdlib.h>
#include <string.h>

enum { MOST = 1000, MARGIN = 16, ROOM = MOST + 2 * MARGIN };

/* A sawtooth with the least and the greatest sample here and there. */
static void fill(gint16 *samples)
{
    for (int i = 0; i < ROOM; i++)
        samples[i] = (gint16)(i % 7 == 0 ? -32768 : i % 11 == 0 ? 32767 : 331 * i);
}

int main(void)
{
    static const int volumes[] = {0, 1, 1024, 2047, 2048, -1, -32768};
    static gint16 ours[ROOM], plain[ROOM];
    long calls = 0;
    for (size_t v = 0; v < sizeof volumes / sizeof *volumes; v++) {
        /* a count below 0 counts as 0 */
        for (int n = -1; n <= MOST; n++) {
            fill(ours);
            fill(plain);
            volume(ours + MARGIN, volumes[v], n);
            for (int i = 0; i < n; i++)
                plain[MARGIN + i] = (gint16)(plain[MARGIN + i] * volumes[v] >> 11);
            if (memcmp(ours, plain, sizeof ours) != 0) {
                printf("different: %d samples, volume %d\n", n, volumes[v]);
                return EXIT_FAILURE;
            }
            calls++;
        }
    }
    printf("%ld calls by prototype, all as the plain loop\n", calls);
    return EXIT_SUCCESS;
}
