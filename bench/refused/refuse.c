// Refuses one call of malloc or realloc: the one with the number in REFUSE, from 1, and says so on standard error.
#include <stddef.h>
#include <stdlib.h>
#include <unistd.h>

void *__libc_malloc(size_t);
void *__libc_realloc(void *, size_t);

// Nothing is counted before the program itself begins.
static long left;

__attribute__((constructor)) static void begin(void) {
    const char *number = getenv("REFUSE");
    left = number ? atol(number) : 0;
}

static int refused(void) {
    if (left == 0 || --left > 0) {
        return 0;
    }
    return write(2, "refused\n", 8) > 0;
}

void *malloc(size_t size) {
    return refused() ? NULL : __libc_malloc(size);
}

void *realloc(void *old, size_t size) {
    return refused() ? NULL : __libc_realloc(old, size);
}
