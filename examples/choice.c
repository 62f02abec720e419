/* One program with two codes of each kernel, and a choice between them by the processor, made once.
 *
 * The objects of `orcc lib` and of `orcc lib41` define the same names. `objcopy --prefix-symbols` gives them a prefix each,
 * so that both can be linked. The program asks the processor before its first call, fills a table of functions, and
 * calls through the table from then on. Here it also compares each code that the processor can run with a plain loop.
 */
#include <stdint.h>
typedef int16_t gint16; /* the type word of kernels/volume.orc */
#include "volume.h"
#include <stdio.h>
#include <stdlib.h>
#include <string.h>

/* The two codes have the header's prototype, by other names. */
extern __typeof__(volume) sse2_volume;
extern __typeof__(volume) sse41_volume;

struct kernels {
    const char *target;
    __typeof__(volume) *volume;
};

static const struct kernels sse2 = {"SSE2", sse2_volume};
static const struct kernels sse41 = {"SSE4.1", sse41_volume};

/* What the program calls by. */
static struct kernels kernels;

/* Whether the processor runs code of `lib41`, which has instructions of SSSE3 too. */
static int has_sse41(void)
{
    __builtin_cpu_init();
    return __builtin_cpu_supports("ssse3") && __builtin_cpu_supports("sse4.1");
}

/* Fills the table. Call it once, before the first thread is started. */
static void choose(void)
{
    kernels = has_sse41() ? sse41 : sse2;
}

/* Whether a code does what a plain loop does. */
static int agrees(const struct kernels *code)
{
    enum { COUNT = 997 };
    static gint16 ours[COUNT + 1], plain[COUNT + 1];
    for (int n = 0; n <= COUNT; n++) {
        for (int i = 0; i <= COUNT; i++)
            ours[i] = plain[i] = (gint16)(331 * i);
        code->volume(ours, 1500, n);
        for (int i = 0; i < n; i++)
            plain[i] = (gint16)(plain[i] * 1500 >> 11);
        if (memcmp(ours, plain, sizeof ours) != 0) {
            printf("different: %s, %d samples\n", code->target, n);
            return 0;
        }
    }
    return 1;
}

int main(void)
{
    choose();
    if (!agrees(&kernels) || !agrees(&sse2))
        return EXIT_FAILURE;
    printf("%s was chosen; all as the plain loop\n", kernels.target);
    return EXIT_SUCCESS;
}
