// Preloaded into a program by tests/lost_bytes: has calls of its `read` or `write` fail, or move less than they are asked to. The
// variable LOST_BYTES says which, by seven words:
//
//     PROGRAM STREAM K TIMES KIND PIECE FILE
//
// From the K-th call on STREAM on, TIMES calls are of this KIND. No call moves more than PIECE bytes. FILE is told the calls and the
// bytes of each stream, and how many calls were of the kind. In a process of another name all calls are as they are without it.
#define _GNU_SOURCE
#include <errno.h>
#include <fcntl.h>
#include <signal.h>
#include <stdint.h>
#include <stdio.h>
#include <stdlib.h>
#include <string.h>
#include <sys/mman.h>
#include <sys/syscall.h>
#include <unistd.h>

// Reads of standard input; writes to standard output, to standard error, to any other descriptor; all writes; and no stream at all.
enum { INPUT, OUTPUT, ERROR, WORD, WRITES, STREAMS };

// A kind above 0 is an errno. ENDED answers 0, ONE_BYTE moves a byte, HALF moves half of the bytes and the call after it fails with
// EIO, KILLED ends the program by SIGKILL.
enum { ENDED = 0, ONE_BYTE = -1, HALF = -2, KILLED = -3 };

static struct told {
    uint64_t calls[STREAMS], bytes[STREAMS], hits;
} *told;

static int stream, kind;
static uint64_t first, times, piece;

__attribute__((constructor)) static void begin(void) {
    char program[64], file[4096];
    const char *words = getenv("LOST_BYTES");
    if (!words || sscanf(words, "%63s %d %lu %lu %d %lu %4095s", program, &stream, &first, &times, &kind, &piece, file) != 7) {
        abort();
    }
    if (strcmp(program, program_invocation_short_name)) {
        return;
    }
    int fd = open(file, O_RDWR);
    void *map = mmap(NULL, sizeof *told, PROT_READ | PROT_WRITE, MAP_SHARED, fd, 0);
    if (fd < 0 || map == MAP_FAILED) {
        abort();
    }
    close(fd);
    told = map;
}

// Whether this call on a stream, whose calls are counted here, is to be of the kind.
static int is_hit(int on) {
    told->calls[on]++;
    if (on != stream || told->calls[on] < first || told->hits >= times) {
        return 0;
    }
    told->hits++;
    return 1;
}

static ssize_t moved(int on, long number, int fd, void *bytes, size_t count) {
    ssize_t answer = syscall(number, fd, bytes, count);
    if (answer > 0) {
        told->bytes[on] += answer;
    }
    return answer;
}

static ssize_t failed(int error) {
    errno = error;
    return -1;
}

static ssize_t call(int on, long number, int fd, void *bytes, size_t count) {
    int hit = is_hit(on);
    if (on != INPUT) {
        hit |= is_hit(WRITES);
    }
    count = count < piece ? count : piece;
    if (!hit) {
        return moved(on, number, fd, bytes, count);
    }
    if (kind == KILLED) {
        raise(SIGKILL);
    }
    if (kind == ENDED) {
        return 0;
    }
    if (kind == ONE_BYTE) {
        return moved(on, number, fd, bytes, count < 1 ? count : 1);
    }
    if (kind == HALF) {
        return told->hits == 1 && count > 1 ? moved(on, number, fd, bytes, count / 2) : failed(EIO);
    }
    return failed(kind);
}

ssize_t read(int fd, void *bytes, size_t count) {
    if (!told || fd != STDIN_FILENO) {
        return syscall(SYS_read, fd, bytes, count);
    }
    return call(INPUT, SYS_read, fd, bytes, count);
}

ssize_t write(int fd, const void *bytes, size_t count) {
    if (!told) {
        return syscall(SYS_write, fd, bytes, count);
    }
    int on = fd == STDOUT_FILENO ? OUTPUT : fd == STDERR_FILENO ? ERROR : WORD;
    return call(on, SYS_write, fd, (void *)bytes, count);
}
