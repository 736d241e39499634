/*
 * Loaded into a program in front of its start (LD_PRELOAD), so that the program is loaded once and run on many inputs: starting it anew
 * takes far longer than a run.
 *
 * Until standard input ends: reads an input, its length and its bytes, and forks. The child goes on into the program with the input
 * as its standard input. When it has ended, its wait status, and the length and the bytes of what it wrote to standard output and to
 * standard error, are written to standard output. Numbers have 8 bytes, low byte first.
 */
#include "pipes.h"

int pipe(int ends[2]);
int dup2(int file, int as);
int close(int file);
int fork(void);
int waitpid(int child, int *status, int options);

/* An input and what is written are kept whole in a pipe, which holds 65,536 bytes; a program that writes more is never done. */
enum { MOST = 65536 };

static void make_pipe(int ends[2]) {
    if (pipe(ends) != 0) STOP("forks: no pipe");
}

static void become(int file, int as) {
    if (dup2(file, as) != as) STOP("forks: no file");
    close(file);
}

/* The bytes of a pipe whose writers have ended, behind their length. */
static void put_written(int reader) {
    static uint8_t written[MOST];
    uint64_t length = 0;
    long got;
    while (length < MOST && (got = read(reader, written + length, MOST - length)) > 0) length += (uint64_t)got;
    close(reader);
    put(&length, sizeof length);
    put(written, length);
}

static int input_pipe(uint64_t length) {
    static uint8_t input[MOST];
    int ends[2];
    if (length > MOST || (length > 0 && !get(input, length))) STOP("forks: a wrong input");
    make_pipe(ends);
    if (length > 0 && write(ends[1], input, length) != (long)length) STOP("forks: a wrong input");
    close(ends[1]);
    return ends[0];
}

/* True in the child. */
static int ran_as_child(int input) {
    int out[2], error[2], status = 0;
    make_pipe(out);
    make_pipe(error);
    int child = fork();
    if (child < 0) STOP("forks: no child");
    if (child == 0) {
        close(out[0]);
        close(error[0]);
        become(input, 0);
        become(out[1], 1);
        become(error[1], 2);
        return 1;
    }
    close(input);
    close(out[1]);
    close(error[1]);
    if (waitpid(child, &status, 0) != child) STOP("forks: a lost child");
    uint64_t told = (uint64_t)(unsigned)status;
    put(&told, sizeof told);
    put_written(out[0]);
    put_written(error[0]);
    return 0;
}

__attribute__((constructor)) static void serve(void) {
    uint64_t length;
    while (get(&length, sizeof length)) {
        if (ran_as_child(input_pipe(length))) return;
    }
    _exit(0);
}
