/* Times a kernel of an object of orcc beside the ORC library's code for the same text; scripts/measure.py builds it
 * with KERNEL defined as the function's name, and with SSE41 where SSSE3 and SSE4.1 may be used too, and passes the file
 * of the text.
 *
 * With a second word it prints the library's code. Else, for each number of elements, it prints a line of the number, the least cycles of a call of the kernel and of the
 * library's code (0 where it has none), and `same` or `differs` for what both leave of the same data. Cycles are those of
 * the time-stamp counter, less what an empty measurement takes. A function with rows does ROWS of them, and a row's share
 * is printed. All arrays begin 8 bytes behind a multiple of 64.
 */
#include "orcc.h"
#include <inttypes.h>
#include <orc/orc.h>
#include <orc/orcparse.h>
#include <orc/orcsse.h>
#include <stdio.h>
#include <stdlib.h>
#include <string.h>
#include <x86intrin.h>

#define TEXT_OF(name) #name
#define NAME_OF(name) TEXT_OF(name)

void KERNEL(struct orcc_block *block);

enum { ARRAYS = 12, ROWS = 4, CALLS = 1000, BEGIN = 8 };

/* The arrays of one side and what is called on them. The library numbers dests, sources, accumulators and parameters as
 * the block does: from 0, 4, 12 and 24 on. */
struct side {
    unsigned char *arrays[ARRAYS];
    struct orcc_block block;
    OrcExecutor *executor;
};

static OrcProgram *program_of(const char *path)
{
    static char text[1 << 20];
    FILE *file = fopen(path, "rb");
    if (!file || fread(text, 1, sizeof text - 1, file) == 0)
        exit(2);
    fclose(file);
    orc_init();
    OrcProgram **programs;
    int count = orc_parse(text, &programs);
    for (int k = 0; k < count; k++)
        if (strcmp(orc_program_get_name(programs[k]), NAME_OF(KERNEL)) == 0)
            return programs[k];
    exit(2);
}

/* What the library may not use. */
enum {
    NEWEST = ORC_TARGET_SSE_SSE4_2 | ORC_TARGET_SSE_SSE4A | ORC_TARGET_SSE_SSE5,
#ifdef SSE41
    BARRED = NEWEST
#else
    BARRED = NEWEST | ORC_TARGET_SSE_SSE3 | ORC_TARGET_SSE_SSSE3 | ORC_TARGET_SSE_SSE4_1
#endif
};

/* Whether the library has code for the program. */
static int compiles(OrcProgram *program)
{
    OrcTarget *sse = orc_target_get_by_name("sse");
    unsigned flags = orc_target_get_default_flags(sse) & ~(unsigned)BARRED;
    return ORC_COMPILE_RESULT_IS_SUCCESSFUL(orc_program_compile_full(program, sse, flags));
}

static int is_declared(const OrcProgram *program, int variable)
{
    return program->vars[variable].name != NULL && program->vars[variable].size > 0;
}

static void prepare(struct side *side, OrcProgram *program, size_t n, size_t m, size_t stride)
{
    memset(&side->block, 0, sizeof side->block);
    side->block.n = n;
    side->block.m = m;
    for (int k = 0; k < ARRAYS; k++) {
        side->arrays[k] = NULL;
        if (!is_declared(program, k))
            continue;
        size_t size = stride * m + 64;
        side->arrays[k] = aligned_alloc(64, size);
        for (size_t i = 0; i < size; i++)
            side->arrays[k][i] = (unsigned char)(i * 197 + (i >> 8) * 59 + (size_t)k * 31);
        if (k < 4)
            side->block.dests[k] = (struct orcc_dest){side->arrays[k] + BEGIN, (int64_t)stride};
        else
            side->block.sources[k - 4] = (struct orcc_source){side->arrays[k] + BEGIN, (int64_t)stride};
    }
    for (int j = 0; j < 8; j++)
        side->block.params[j] = 3 + (unsigned)j;
}

/* The library's code for rows moves the arrays of an executor on, so they are set before each call. */
static void set_executor(struct side *side, const OrcProgram *program, size_t stride)
{
    orc_executor_set_n(side->executor, (int)side->block.n);
    if (program->is_2d)
        orc_executor_set_m(side->executor, (int)side->block.m);
    for (int k = 0; k < ARRAYS; k++) {
        if (!side->arrays[k])
            continue;
        orc_executor_set_array(side->executor, k, side->arrays[k] + BEGIN);
        if (program->is_2d)
            orc_executor_set_stride(side->executor, k, (int)stride);
    }
    for (int j = 0; j < 8; j++) {
        int variable = ORC_VAR_P1 + j;
        if (!is_declared(program, variable))
            continue;
        if (program->vars[variable].size == 8)
            orc_executor_set_param_int64(side->executor, variable, 3 + j);
        else
            orc_executor_set_param(side->executor, variable, 3 + j);
    }
}

static uint64_t now(void)
{
    unsigned processor;
    _mm_lfence();
    uint64_t cycles = __rdtscp(&processor);
    _mm_lfence();
    return cycles;
}

static void keep_least(uint64_t *least, uint64_t cycles)
{
    if (cycles < *least)
        *least = cycles;
}

static int are_same(const struct side *ours, const struct side *theirs, const OrcProgram *program, size_t size)
{
    for (int k = 0; k < ARRAYS; k++)
        if (ours->arrays[k] && memcmp(ours->arrays[k], theirs->arrays[k], size) != 0)
            return 0;
    for (int g = 0; g < 4; g++)
        if (is_declared(program, ORC_VAR_A1 + g)) {
            uint64_t mask = program->vars[ORC_VAR_A1 + g].size == 2 ? 0xffff : 0xffffffff;
            int sum = orc_executor_get_accumulator(theirs->executor, ORC_VAR_A1 + g);
            if (ours->block.accumulators[g] != ((uint64_t)(unsigned)sum & mask))
                return 0;
        }
    return 1;
}

static void measure(OrcProgram *program, int compiled, size_t n)
{
    size_t m = program->is_2d ? ROWS : 1;
    size_t stride = (n * 8 + 64 + 63) / 64 * 64;
    struct side ours, theirs;
    prepare(&ours, program, n, m, stride);
    prepare(&theirs, program, n, m, stride);
    theirs.executor = orc_executor_new(program);
    uint64_t least = UINT64_MAX, least_theirs = UINT64_MAX, least_empty = UINT64_MAX;
    int same = 1;
    for (int k = 0; k < CALLS; k++) {
        uint64_t begin = now();
        keep_least(&least_empty, now() - begin);
        begin = now();
        KERNEL(&ours.block);
        keep_least(&least, now() - begin);
        if (!compiled)
            continue;
        set_executor(&theirs, program, stride);
        begin = now();
        orc_executor_run(theirs.executor);
        keep_least(&least_theirs, now() - begin);
        if (k == 0)
            same = are_same(&ours, &theirs, program, stride * m + 64);
    }
    printf("%zu %" PRIu64 " %" PRIu64 " %s\n", n, (least - least_empty) / m,
        compiled ? (least_theirs - least_empty) / m : 0, same ? "same" : "differs");
    orc_executor_free(theirs.executor);
    for (int k = 0; k < ARRAYS; k++) {
        free(ours.arrays[k]);
        free(theirs.arrays[k]);
    }
}

int main(int argc, char **argv)
{
    if (argc < 2)
        return 2;
    OrcProgram *program = program_of(argv[1]);
    int compiled = compiles(program);
    if (argc > 2) {
        puts(compiled ? orc_program_get_asm_code(program) : "");
        return 0;
    }
    static const size_t counts[] = {40, 320, 1920, 16384};
    for (size_t k = 0; k < sizeof counts / sizeof *counts; k++)
        measure(program, compiled, counts[k]);
    return 0;
}
