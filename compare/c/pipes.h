/* What both servers share: the C library's functions that they use (the kit's compiler comes without headers), and whole reads and
 * writes of standard input and output. */
#include <stddef.h>
#include <stdint.h>

long read(int file, void *bytes, size_t size);
long write(int file, const void *bytes, size_t size);
_Noreturn void _exit(int status);

static _Noreturn void stop(const char *why, size_t length) {
    write(2, why, length);
    _exit(1);
}

#define STOP(why) stop(why "\n", sizeof why)

/* False if the input ends before the first byte. */
static int get(void *bytes, size_t size) {
    size_t done = 0;
    while (done < size) {
        long got = read(0, (uint8_t *)bytes + done, size - done);
        if (got <= 0 && done == 0) return 0;
        if (got <= 0) STOP("server: the input ends inside a call");
        done += (size_t)got;
    }
    return 1;
}

static void put(const void *bytes, size_t size) {
    for (size_t done = 0; done < size;) {
        long gone = write(1, (const uint8_t *)bytes + done, size - done);
        if (gone <= 0) STOP("server: nobody reads the reply");
        done += (size_t)gone;
    }
}
