/*
 * The stack that calls of the library use, against what adfulmise.h states: stack
 *
 * Each call is made on memory of exactly the stated size, right above a page without access: one byte more would end this program.
 * The memory is filled with one byte first, so that what was used can be told. The jobs are the shallowest there are; one that uses
 * up all records; the one with the deepest chain that a search over many thousand jobs in full rooms, of one slip for all, has found;
 * and the one with the most stack that such a search had found before P2, which left its tree as deep. A chain of 1,023, deeper than
 * any of them, is lent to the best route alone, which is the planner's own engine (libroute_bench.a).
 */
#include "adfulmise.h"

enum { PAGE = 4096, READ_AND_WRITE = 3, PRIVATE_MEMORY = 0x22, FILLED = 0xA5, MOST = 1024, DIED_OF_MEMORY = 11 };

void *mmap(void *at, size_t size, int access, int kind, int file, long offset);
int mprotect(void *at, size_t size, int access);
void *memset(void *memory, int byte, size_t size);
int printf(const char *format, ...);
int fork(void);
int waitpid(int process, int *status, int options);
_Noreturn void _exit(int status);

size_t adfulmise_best_route(
    const uint8_t *hall, size_t hall_len, size_t width, size_t height, size_t start, size_t goal, size_t h,
    const uint16_t *columns, size_t columns_len, size_t capacity, size_t node, size_t carrier,
    uint8_t *layers, size_t layers_len, uint8_t *stretch, size_t stretch_len);

/* ---- the calls */

struct job {
    const char *what;
    const char *hall;
    size_t width, height;
    adfulmise_carrier carriers[8];
    size_t count, h, n, number, records;
};

static const struct job jobs[] = {
    {"refused", "", 0, 0, {{0, 0, 0}}, 0, 0, 1, 1, 0},
    {"one cell", ".", 1, 1, {{0, 0, 0}}, 1, 0, 1, 0, 1},
    {"two that cross", ".........", 3, 3, {{3, 5, 0}, {1, 7, 0}}, 2, 4, 128, 0, 3},
    {"records used up, a chain of 217", "......", 2, 3,
     {{0, 3, 1}, {4, 1, 1}, {1, 2, 1}, {3, 4, 1}, {2, 5, 1}, {5, 0, 1}}, 6, 63, MOST, 9, MOST},
    {"a chain of 492", "....", 2, 2, {{0, 3, 1}, {1, 2, 1}, {2, 1, 1}, {3, 0, 1}}, 4, 63, MOST, 8, 493},
    {"a chain of 126, 123 of other carriers", "...#", 2, 2, {{1, 2, 0}, {0, 0, 0}, {2, 1, 0}}, 3, 63, MOST, 8, 976},
};

/* The book that document 01 prints, as P3 rewrites it. */
static const uint8_t book[] = {3,  1,  16, 0,  11, 0,  2,  27, 0,  6,  0,  3, 33, 0, 1, 0, 3,
                               3,  46, 46, 46, 46, 46, 46, 46, 46, 46, 3,  5, 0,  1, 7, 0, 4};

static const struct job *job;
static uint16_t columns[ADFULMISE_COLUMNS_LENGTH(MOST)];
static uint8_t plans[ADFULMISE_PLANS_LENGTH(MOST, 8, 63)];
static uint8_t layers[ADFULMISE_LAYERS_LENGTH(16, 16, 63)];
static uint8_t output[ADFULMISE_OUTPUT_LENGTH(8, 63)];
static size_t told[ADFULMISE_FAULT];
static size_t number;

#define LENT(array) (array), sizeof(array) / sizeof(array)[0]
#define JOB (const uint8_t *)job->hall, job->width * job->height, job->width, job->height, job->carriers, job->count, job->h

static void call_plan(void) {
    number = adfulmise_plan(JOB, job->n, LENT(columns), LENT(plans), LENT(layers), LENT(output), LENT(told));
}

static void call_check_routes(void) { number = adfulmise_check_routes(JOB, LENT(output), LENT(told)); }

static void call_check_meetings(void) { number = adfulmise_check_meetings(JOB, LENT(output), LENT(told)); }

static void call_read(void) { number = adfulmise_read(LENT(book), 3, LENT(told)); }

/* From cell 0 to cell 1 of two, for carrier 1, at the end of a chain of which only the first bar is for it: the crossing at step 0.
 * The marks of the whole chain are made below the frame of the route engine. */
static void call_best_route(void) {
    number = adfulmise_best_route((const uint8_t *)"..", 2, 2, 1, 0, 1, 63, LENT(columns), MOST, MOST - 1, 1, LENT(layers), output, 64);
}

static void make_chain(void) {
    for (size_t node = 1; node < MOST; node++) {
        columns[node] = (uint16_t)(node - 1);   /* its parent */
        columns[1 * MOST + node] = 1;           /* a stay */
        columns[2 * MOST + node] = 2;           /* of carrier 2 */
    }
    columns[1 * MOST + 1] = 2; /* a crossing */
    columns[2 * MOST + 1] = 1; /* of carrier 1, from cell 0 */
    columns[4 * MOST + 1] = 1; /* to cell 1, at step 0 */
}

/* ---- on a stack of their own */

void call_on(uint8_t *top, void (*call)(void));
__asm__(".text\n"
        "call_on: push %rbp\n"
        "mov %rsp, %rbp\n"
        "mov %rdi, %rsp\n"
        "call *%rsi\n"
        "mov %rbp, %rsp\n"
        "pop %rbp\n"
        "ret\n");

static uint8_t *lowest; /* of the memory for stacks, with a page without access below */

static void call_within(void (*call)(void), size_t stated) { call_on(lowest + stated, call); }

static size_t used_by(void (*call)(void), size_t stated) {
    memset(lowest, FILLED, stated);
    call_within(call, stated);
    size_t unused = 0;
    while (unused < stated && lowest[unused] == FILLED) unused++;
    return stated - unused;
}

static int wrong;

static size_t try(const char *what, void (*call)(void), size_t n, size_t stated, size_t expected) {
    size_t used = used_by(call, stated);
    printf("%-44s N %4zu  %5zu of %5zu bytes\n", what, n, used, stated);
    if (number != expected) {
        printf("  answer %zu, not %zu\n", number, expected);
        wrong = 1;
    }
    return used;
}

/* Does a call that has too little memory end its process? Else this program would show nothing. */
static int dies_within(void (*call)(void), size_t size) {
    int status = 0;
    int child = fork();
    if (child == 0) {
        call_within(call, size);
        _exit(0);
    }
    return child > 0 && waitpid(child, &status, 0) == child && (status & 127) == DIED_OF_MEMORY;
}

int main(void) {
    size_t room = (ADFULMISE_PLAN_STACK(MOST) + PAGE - 1) / PAGE * PAGE;
    uint8_t *all = mmap(0, PAGE + room, 0, PRIVATE_MEMORY, -1, 0);
    if (all == (uint8_t *)-1 || mprotect(all + PAGE, room, READ_AND_WRITE) != 0) return 2;
    lowest = all + PAGE;

    for (job = jobs; job < jobs + sizeof jobs / sizeof jobs[0]; job++) {
        try(job->what, call_plan, job->n, ADFULMISE_PLAN_STACK(job->n), job->number);
        if (told[ADFULMISE_RECORDS] != job->records) {
            printf("  %zu records, not %zu\n", told[ADFULMISE_RECORDS], job->records);
            wrong = 1;
        }
    }

    job = &jobs[2];
    call_plan();
    try("the route check", call_check_routes, 0, ADFULMISE_OTHER_STACK, 0);
    try("the meeting check", call_check_meetings, 0, ADFULMISE_OTHER_STACK, 0);
    try("the reader", call_read, 0, ADFULMISE_OTHER_STACK, 0);

    make_chain();
    size_t used = try("the best route under a chain of 1,023", call_best_route, MOST, ADFULMISE_PLAN_STACK(MOST), 2);
    if (!dies_within(call_best_route, used / 32 * 16)) { /* half of it, as aligned as a stack is */
        printf("  on half of that it went on\n");
        wrong = 1;
    }
    return wrong;
}
