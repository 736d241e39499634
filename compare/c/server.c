/*
 * Calls the library for the comparer, in a process of its own: a call that reads or writes beyond what it is lent ends this one alone.
 *
 * Until standard input ends: reads a call, lends memory of exactly the lengths it names, calls the library, and writes the number
 * given back and all lent memory, read or written, to standard output. Numbers have 8 bytes, low byte first.
 *
 *   a call   a `struct call`, then the bytes of each piece
 *   a reply  the number, then the bytes of each piece
 *
 * `server` lends each piece between two pages without access: reading or writing a byte beyond the end that lies at a page ends the
 * server at once, and a byte written beside the other end is seen after the call. `server heap` lends memory from malloc, for a
 * checker that watches malloc.
 */
#include "adfulmise.h"
#include "pipes.h"

enum { PAGE = 4096, READ_AND_WRITE = 3, PRIVATE_MEMORY = 0x22 };

void *mmap(void *at, size_t size, int access, int kind, int file, long offset);
int mprotect(void *at, size_t size, int access);
int munmap(void *at, size_t size);
void *malloc(size_t size);
void free(void *memory);
int strcmp(const char *one, const char *two);

enum { NUMBERS = 4, PIECES = 7 };
enum { PLAN, CHECK_ROUTES, CHECK_MEETINGS, READ, FUNCTIONS };

struct call {
    uint64_t function;
    uint64_t at_start; /* which end of a piece lies at a page without access: 0 its end, 1 its start */
    uint64_t numbers[NUMBERS];
    uint64_t entries[PIECES];
};

/* How many bytes an entry of each piece has, in the order of the function's arguments; 0 where there is no piece. */
static const size_t ENTRY_SIZE[FUNCTIONS][PIECES] = {
    [PLAN] = {1, sizeof(adfulmise_carrier), 2, 1, 1, 1, 8},
    [CHECK_ROUTES] = {1, sizeof(adfulmise_carrier), 1, 8},
    [CHECK_MEETINGS] = {1, sizeof(adfulmise_carrier), 1, 8},
    [READ] = {1, 8},
};

struct piece {
    uint8_t *start;
    size_t size;
    size_t entries;
    uint8_t *room; /* the pages around the piece that may be used */
    size_t room_size;
};

static int on_heap;

static void lend_between_pages(struct piece *piece, int at_start) {
    piece->room_size = (piece->size + PAGE - 1) / PAGE * PAGE;
    uint8_t *all = mmap(0, piece->room_size + 2 * PAGE, 0, PRIVATE_MEMORY, -1, 0);
    if (all == (uint8_t *)-1) STOP("server: no memory");
    piece->room = all + PAGE;
    if (mprotect(piece->room, piece->room_size, READ_AND_WRITE) != 0) STOP("server: no memory");
    piece->start = piece->room + (at_start ? 0 : piece->room_size - piece->size);
}

static void lend(struct piece *piece, size_t entries, size_t entry_size, int at_start) {
    piece->entries = entries;
    piece->size = entries * entry_size;
    if (on_heap) {
        piece->start = malloc(piece->size);
    } else {
        lend_between_pages(piece, at_start);
    }
    if (piece->size > 0 && !get(piece->start, piece->size)) STOP("server: the input ends inside a call");
}

/* Memory fresh from mmap is zero. */
static void see_zeros(const uint8_t *from, const uint8_t *to) {
    for (; from < to; from++) {
        if (*from != 0) STOP("server: the library wrote beside a piece");
    }
}

static void take_back(struct piece *piece) {
    if (on_heap) {
        free(piece->start);
        return;
    }
    see_zeros(piece->room, piece->start);
    see_zeros(piece->start + piece->size, piece->room + piece->room_size);
    munmap(piece->room - PAGE, piece->room_size + 2 * PAGE);
}

static size_t *numbers_in(const struct piece *piece) { return (size_t *)piece->start; }

static const adfulmise_carrier *carriers_in(const struct piece *piece) { return (const adfulmise_carrier *)piece->start; }

static uint64_t plan(const uint64_t *numbers, const struct piece *p) {
    return adfulmise_plan(p[0].start, p[0].entries, numbers[0], numbers[1], carriers_in(&p[1]), p[1].entries, numbers[2],
                          numbers[3], (uint16_t *)p[2].start, p[2].entries, p[3].start, p[3].entries, p[4].start, p[4].entries,
                          p[5].start, p[5].entries, numbers_in(&p[6]), p[6].entries);
}

static uint64_t check(uint64_t function, const uint64_t *numbers, const struct piece *p) {
    return (function == CHECK_ROUTES ? adfulmise_check_routes : adfulmise_check_meetings)(
        p[0].start, p[0].entries, numbers[0], numbers[1], carriers_in(&p[1]), p[1].entries, numbers[2], p[2].start, p[2].entries,
        numbers_in(&p[3]), p[3].entries);
}

static uint64_t answer(const struct call *call, const struct piece *p) {
    switch (call->function) {
    case PLAN: return plan(call->numbers, p);
    case READ: return adfulmise_read(p[0].start, p[0].entries, (uint8_t)call->numbers[0], numbers_in(&p[1]), p[1].entries);
    default: return check(call->function, call->numbers, p);
    }
}

static void serve(const struct call *call) {
    const size_t *entry_size = ENTRY_SIZE[call->function];
    struct piece pieces[PIECES];
    int count = 0;
    while (count < PIECES && entry_size[count] != 0) {
        lend(&pieces[count], call->entries[count], entry_size[count], call->at_start != 0);
        count++;
    }
    uint64_t number = answer(call, pieces);
    put(&number, sizeof number);
    for (int i = 0; i < count; i++) {
        put(pieces[i].start, pieces[i].size);
        take_back(&pieces[i]);
    }
}

int main(int count, char **words) {
    on_heap = count == 2 && strcmp(words[1], "heap") == 0;
    struct call call;
    while (get(&call, sizeof call)) {
        if (call.function >= FUNCTIONS) STOP("server: no such function");
        serve(&call);
    }
    return 0;
}
