// Loaded before the C library: standard input gives at most READ_PIECE bytes a read, and its read of number READ_FAIL
// fails; standard output has room for WRITE_ROOM bytes, and its write of number WRITE_FAIL fails. With INTERRUPT each read
// and write is interrupted once before it is made. Each that is made leaves a byte in file 9. For ci/try-devices.
#define _GNU_SOURCE
#include <dlfcn.h>
#include <errno.h>
#include <stdlib.h>
#include <unistd.h>
#include <sys/syscall.h>

static long number_of(const char *name, long otherwise) {
    const char *text = getenv(name);
    return text ? atol(text) : otherwise;
}

static void mark(char kind) {
    if (syscall(SYS_write, 9, &kind, 1) != 1) _exit(99);
}

// Whether a call is interrupted: each second one is not.
static int is_interrupted(int *before) {
    if (!getenv("INTERRUPT") || (*before = !*before) == 0) return 0;
    errno = EINTR;
    return 1;
}

ssize_t read(int file, void *into, size_t count) {
    static long made;
    static int before;
    if (file == 0) {
        if (is_interrupted(&before)) return -1;
        mark('r');
        if (++made == number_of("READ_FAIL", -1)) {
            errno = EIO;
            return -1;
        }
        size_t piece = (size_t)number_of("READ_PIECE", 1L << 40);
        if (count > piece) count = piece;
    }
    return syscall(SYS_read, file, into, count);
}

ssize_t write(int file, const void *from, size_t count) {
    static long made, put;
    static int before;
    if (file == 1) {
        if (is_interrupted(&before)) return -1;
        mark('w');
        if (++made == number_of("WRITE_FAIL", -1)) {
            errno = EIO;
            return -1;
        }
        long room = number_of("WRITE_ROOM", 1L << 60) - put;
        if (room == 0 && count > 0) {
            errno = ENOSPC;
            return -1;
        }
        if ((long)count > room) count = (size_t)room;
        put += (long)count;
    }
    return syscall(SYS_write, file, from, count);
}
