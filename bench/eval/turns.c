// Refuses each call of malloc and realloc behind the program's first write, each in a copy of the process: the copy goes on to its end, while
// the program itself waits for it and goes on as if nothing had been. How the copies end is said on standard error.
//
// TURNS_FROM and TURNS_STEP: only the calls with the numbers FROM, FROM + STEP, .. are refused, from 0; TURNS_STEP=0 refuses none. With
// TURNS_SHORT a copy ends with status 0 as soon as it has written something, and drops nothing.
#define _GNU_SOURCE
#include <stddef.h>
#include <stdio.h>
#include <stdlib.h>
#include <sys/uio.h>
#include <sys/wait.h>
#include <unistd.h>
#include <sys/syscall.h>

void *__libc_malloc(size_t);
void *__libc_realloc(void *, size_t);

static long calls, refusals, faults, from, step = 1;
static int is_counted, is_copy, is_short;

__attribute__((constructor)) static void begin(void) {
    if (getenv("TURNS_FROM")) from = atol(getenv("TURNS_FROM"));
    if (getenv("TURNS_STEP")) step = atol(getenv("TURNS_STEP"));
    is_short = getenv("TURNS_SHORT") != NULL;
}

// A copy ends behind its refusal as the program would.
static int refused(void) {
    if (!is_counted || is_copy) return 0;
    long number = calls++;
    if (step == 0 || number < from || (number - from) % step != 0) return 0;
    pid_t copy = fork();
    if (copy == 0) {
        is_copy = 1;
        return 1;
    }
    int status = 0;
    if (copy < 0 || waitpid(copy, &status, 0) != copy || status != 0) faults++;
    refusals++;
    return 0;
}

void *malloc(size_t size) {
    return refused() ? NULL : __libc_malloc(size);
}

void *realloc(void *old, size_t size) {
    return refused() ? NULL : __libc_realloc(old, size);
}

// Counting begins behind the first write.
static ssize_t written(ssize_t size) {
    is_counted = 1;
    if (is_copy && is_short) syscall(SYS_exit_group, 0);
    return size;
}

ssize_t write(int file, const void *bytes, size_t size) {
    return written(syscall(SYS_write, file, bytes, size));
}

ssize_t writev(int file, const struct iovec *parts, int count) {
    return written(syscall(SYS_writev, file, parts, count));
}

__attribute__((destructor)) static void end(void) {
    if (is_copy) return;
    is_counted = 0;
    char said[128];
    int size = snprintf(said, sizeof said, "%ld allocations, %ld refused, %ld copies ended by a fault\n", calls, refusals, faults);
    syscall(SYS_write, 2, said, (size_t)size);
}
