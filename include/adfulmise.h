/*
 * Adfulmise: a planner for delayed carriers, its two plan checks and the reader of a book of a job.
 *
 * Each function takes numbers and lent memory, keeps nothing between calls, and asks nothing of the numbers: whatever they are,
 * it ends and gives back a number. Of each piece of memory the caller owes what a pointer with a length always means: the
 * pointer leads to that many elements (any pointer that is not null for a length of 0), which nothing else changes during the
 * call, and pieces that are written overlap no other piece. The library is proved for every input that keeps this.
 *
 * A call takes no memory but what is lent and the stack that it is made on. Of that it needs, below the stack pointer of its
 * caller, at most ADFULMISE_PLAN_STACK(n) bytes for adfulmise_plan and ADFULMISE_OTHER_STACK bytes for each of the others; what the
 * thread itself or a signal handler takes comes on top. Nothing looks whether the stack suffices.
 *
 * Build it with `tools/build adfulmise`, which writes target/staticlib/libadfulmise.a. A whole caller in C is
 * library/examples/plan_job.c.
 * docs/BOOK.md has jobs, books, numbers and tables on one page, with an example.
 *
 * A job, in all three functions that take one:
 *   hall, hall_len            the hall's bytes row by row from the top: 46 ('.') is an open cell, 35 ('#') a closed one;
 *                             width * height of them
 *   width, height             columns and rows, 1 to 16 each; the number of a cell is row * width + column
 *   carriers, carriers_count  a record for each carrier, its start cell, its goal cell and its slip, and how many records there
 *                             are: 1 to 8. Carriers are numbered from 0, in the order of their records. A carrier's slip is how
 *                             many steps it may be late in all, 0 to 4
 *   h                         the horizon: routes have the steps 0 to h, h from 0 to 63
 *
 * The numbers given back; where several apply, the one that stands first here:
 *    0  a plan was found; the check passed; the book is good
 *    1  width or height is 0 or above 16
 *    2  the hall has not width * height bytes, or a byte is neither 46 nor 35
 *    3  h above 63, or (planner only) n is 0 or above 1024
 *    4  no carrier, or more than 8
 *    5  a start or goal is outside the grid or closed, or a slip is above 4: carrier is the first such
 *    6  two carriers share a start: carrier is the first that does, other the first behind it that has the same start
 *   16  two carriers share a goal: carrier is the first that does, other the first behind it that has the same goal
 *    7  a lent table (checks: the plan) is too short: (planner only) table is the first such in the order of the arguments; needed
 *       is its least length, in its own entries
 *    8  no plan exists: records
 *    9  n records did not suffice: records is n
 *   11 to 15  the reader's, see adfulmise_read
 *   21  (route check) carrier's route is wrong at step
 *   22  (meeting check) carrier, the earlier of the two, and other meet or exchange cells at step
 */
#ifndef ADFULMISE_H
#define ADFULMISE_H

#include <stddef.h>
#include <stdint.h>

#ifdef __cplusplus
extern "C" {
#endif

/*
 * The version of this header and of the archive beside it; as a number, major * 10000 + minor * 100 + patch. From 0.3.0 on layers is
 * twice as long as before: a caller that lends the old length is refused with 7. From 0.4.0 on a carrier has its own slip: a record
 * has three bytes for two, and no function takes k any more.
 */
#define ADFULMISE_VERSION "0.4.0"
#define ADFULMISE_VERSION_NUMBER 400

/*
 * The least length of each lent table in its own entries, for a job that is not refused: n records, m carriers, the horizon h, a hall
 * of width by height. With constants they are constants, so that a table can be an array.
 */
#define ADFULMISE_COLUMNS_LENGTH(n) ((size_t)8 * (size_t)(n))
#define ADFULMISE_PLANS_LENGTH(n, m, h) ((size_t)(n) * ADFULMISE_OUTPUT_LENGTH(m, h))
#define ADFULMISE_LAYERS_LENGTH(width, height, h) ((size_t)2 * ((size_t)(h) + 1) * (size_t)(width) * (size_t)(height))
#define ADFULMISE_OUTPUT_LENGTH(m, h) ((size_t)(m) * ((size_t)(h) + 1))

/*
 * The stack that a call of adfulmise_plan with n records needs at most, and that each of the other three needs, in bytes. The planner
 * goes up the chain of a node's ancestors by recursion, at most n - 1 deep, for which 32 bytes a level are counted, also where the
 * compiler makes a loop of it: 42 KB for n = 1024, 14 KB for n = 128.
 * That includes what a linker takes that binds memset and memcpy, the two functions from outside, only when they are first called.
 */
#define ADFULMISE_PLAN_STACK(n) ((size_t)10240 + (size_t)32 * (size_t)(n))
#define ADFULMISE_OTHER_STACK ((size_t)1024)

/* A carrier: the cell it starts from, the cell it has to reach, and how many steps it may be late in all. Three bytes, no more. */
typedef struct adfulmise_carrier {
    uint8_t start;
    uint8_t goal;
    uint8_t slip;
} adfulmise_carrier;

/* The places of what is told. Untold numbers are 0. */
enum {
    ADFULMISE_NUMBER = 0,
    /* adfulmise_plan: seven numbers */
    ADFULMISE_SUM = 1,
    ADFULMISE_RECORDS = 2,
    ADFULMISE_CARRIER = 3,
    ADFULMISE_OTHER = 4,
    ADFULMISE_TABLE = 5,
    ADFULMISE_NEEDED = 6,
    ADFULMISE_TOLD = 7,
    /* adfulmise_check_routes and adfulmise_check_meetings: seven numbers */
    ADFULMISE_FAULT_CARRIER = 1,
    ADFULMISE_FAULT_OTHER = 2,
    ADFULMISE_FAULT_STEP = 3,
    ADFULMISE_FAULT_DISTANCE = 4,
    ADFULMISE_FAULT_SWAP = 5,
    ADFULMISE_FAULT_NEEDED = 6,
    ADFULMISE_FAULT = 7,
    /* adfulmise_read: two numbers */
    ADFULMISE_OFFSET = 0,
    ADFULMISE_LENGTH = 1,
    ADFULMISE_PLACE = 2
};

/* The lent tables as ADFULMISE_TABLE names them, where the number is 7. */
enum {
    ADFULMISE_TABLE_COLUMNS = 0,
    ADFULMISE_TABLE_PLANS = 1,
    ADFULMISE_TABLE_LAYERS = 2,
    ADFULMISE_TABLE_OUTPUT = 3
};

/*
 * The plan of least sum of costs under which no delays within the carriers' slips bring two of them together. Of the routes that the
 * bars of the search leave a carrier, it takes one of least cost, among these one of fewest moves, a stay being no move, and among
 * these the first in dictionary order of its cells.
 *
 *   n        how many records the search may use, 1 to 1024
 *   columns  at least 8 * n entries
 *   plans    at least n * m * (h + 1) bytes, for m carriers
 *   layers   at least 2 * (h + 1) * width * height bytes
 *   output   at least m * (h + 1) bytes. For 0 its first m * (h + 1) bytes become the plan: carrier by carrier, its cells for
 *            the steps 0 to h. For every other number it is left as it was
 *   told     its first seven entries become number, sum, records, carrier, other, table, needed; with fewer it is left as it was
 *
 * After 1 to 7 and 16 the first three tables are as they were. After 0, 8 and 9 the lengths named above are all zero in them. What
 * lies behind a table's named length is never changed.
 * Gives back the number.
 */
size_t adfulmise_plan(
    const uint8_t *hall, size_t hall_len,
    size_t width, size_t height,
    const adfulmise_carrier *carriers, size_t carriers_count,
    size_t h, size_t n,
    uint16_t *columns, size_t columns_len,
    uint8_t *plans, size_t plans_len,
    uint8_t *layers, size_t layers_len,
    uint8_t *output, size_t output_len,
    size_t *told, size_t told_len);

/*
 * Are the routes of a plan lawful? 0, 1 to 7, 16, or 21 with the first carrier, and its first step, at which the start, a move, a
 * cell or the goal is wrong.
 *
 *   plan  at least m * (h + 1) bytes, as adfulmise_plan writes them; bytes after that length are not read
 *   told  its first seven entries become number, carrier, other, step, distance, swap, needed; with fewer it is left as it was
 *
 * Gives back the number.
 */
size_t adfulmise_check_routes(
    const uint8_t *hall, size_t hall_len,
    size_t width, size_t height,
    const adfulmise_carrier *carriers, size_t carriers_count,
    size_t h,
    const uint8_t *plan, size_t plan_len,
    size_t *told, size_t told_len);

/*
 * Do two carriers of a plan meet? 0, 1 to 7, 16, or 22: carrier at step and other at step + distance are on one cell, and distance is
 * at most carrier's slip; or, where swap is 1, the two, both of slip 0, exchange cells between step and step + 1. Told is the one of
 * least step, then of least distance, then of least carrier, then of least other; for distance 0 and for a swap carrier is the smaller
 * number, and a swap comes after all meetings at its step. It compares any bytes as cells. Arguments as in adfulmise_check_routes.
 *
 * Gives back the number. A plan that passes both checks is safe under every pattern that delays each carrier by at most its own slip.
 */
size_t adfulmise_check_meetings(
    const uint8_t *hall, size_t hall_len,
    size_t width, size_t height,
    const adfulmise_carrier *carriers, size_t carriers_count,
    size_t h,
    const uint8_t *plan, size_t plan_len,
    size_t *told, size_t told_len);

/*
 * Where a book has the body of a kind: 1 the hall (width, height, hall bytes), 2 the carriers (their records, one after the
 * other), 3 the limits (h).
 *
 *   place  its first two entries become the offset and the length of the body in the book, 0 and 0 with a refusal; with fewer it
 *          is left as it was
 *
 * Gives back 0, 11 (shorter than 16 bytes, or byte 0 is not 3), 12 (kinds wrong), 13 (the bodies do not follow one another exactly
 * to the end), 14 (a body of a wrong length) or 15 (a kind other than 1 to 3).
 */
size_t adfulmise_read(const uint8_t *book, size_t book_len, uint8_t kind, size_t *place, size_t place_len);

#ifdef __cplusplus
}
#endif

#endif
