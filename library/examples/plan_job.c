/*
 * Plans a job, checks the plan and prints it: document 01's first job, two carriers that cross in a hall of 3 by 3.
 *
 * With a system's compiler for x86-64, after `tools/build adfulmise`, in the repository:
 *     cc -std=c11 -I include library/examples/plan_job.c target/staticlib/libadfulmise.a -o plan_job
 * or, once `tools/install PREFIX` has put the library under PREFIX, with PKG_CONFIG_PATH=PREFIX/lib/pkgconfig:
 *     cc -std=c11 plan_job.c $(pkg-config --cflags --libs adfulmise) -o plan_job
 * With the kit's own compiler, which comes without headers: compare/c/headers has the two that adfulmise.h asks for, and the kit's
 * linker is given its C library; `run` beside this file does so, on any machine that has the kit.
 */
#include <adfulmise.h>

int printf(const char *format, ...); /* not from stdio.h, which the kit's compiler has not */

enum { WIDTH = 3, HEIGHT = 3, CARRIERS = 2, H = 4, N = 128, STEPS = H + 1 };

static const uint8_t hall[WIDTH * HEIGHT] = {'.', '.', '.', '.', '.', '.', '.', '.', '.'};
static const adfulmise_carrier carriers[CARRIERS] = {{3, 5, 0}, {1, 7, 0}}; /* start, goal and slip of each */

/* The tables that are lent: static, so that the stack need not hold them. */
static uint16_t columns[ADFULMISE_COLUMNS_LENGTH(N)];
static uint8_t plans[ADFULMISE_PLANS_LENGTH(N, CARRIERS, H)];
static uint8_t layers[ADFULMISE_LAYERS_LENGTH(WIDTH, HEIGHT, H)];
static uint8_t plan[ADFULMISE_OUTPUT_LENGTH(CARRIERS, H)];

#define LENGTH(array) (sizeof(array) / sizeof(array)[0])
#define LENT(array) (array), LENGTH(array)
#define JOB LENT(hall), WIDTH, HEIGHT, LENT(carriers), H

int main(void) {
    size_t told[ADFULMISE_TOLD], fault[ADFULMISE_FAULT];

    if (adfulmise_plan(JOB, N, LENT(columns), LENT(plans), LENT(layers), LENT(plan), LENT(told)) != 0) {
        printf("no plan: answer %zu, carrier %zu\n", told[ADFULMISE_NUMBER], told[ADFULMISE_CARRIER]);
        return 1;
    }
    if (adfulmise_check_routes(JOB, LENT(plan), LENT(fault)) != 0 || adfulmise_check_meetings(JOB, LENT(plan), LENT(fault)) != 0) {
        printf("a wrong plan: answer %zu, carrier %zu, step %zu\n", fault[ADFULMISE_NUMBER], fault[ADFULMISE_FAULT_CARRIER],
            fault[ADFULMISE_FAULT_STEP]);
        return 1;
    }

    printf("adfulmise " ADFULMISE_VERSION ": sum %zu with %zu records\n", told[ADFULMISE_SUM], told[ADFULMISE_RECORDS]);
    for (size_t i = 0; i < CARRIERS; i++) {
        printf("carrier %zu:", i);
        for (size_t t = 0; t < STEPS; t++) printf(" %d", plan[i * STEPS + t]);
        printf("\n");
    }
    return 0;
}
