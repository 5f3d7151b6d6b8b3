/* Preloaded before a program: meddles with its Nth call of one kind, N being MEDDLE_AT in the environment.

   MEDDLE_CALL is read or write. MEDDLE_WITH says what becomes of that call: a number fails it with that errno, `one` has it move one byte, `none`
   has it move none, and `size` sets the file MEDDLE_FILE to MEDDLE_SIZE bytes before it. How many calls there were is written at the end to the file
   that MEDDLE_COUNT names. */
#define _GNU_SOURCE
#include <dlfcn.h>
#include <errno.h>
#include <stdio.h>
#include <stdlib.h>
#include <string.h>
#include <unistd.h>

static long calls = 0;

static int is_here(const char *call) {
    const char *wanted = getenv("MEDDLE_CALL"), *at = getenv("MEDDLE_AT");
    if (!wanted || strcmp(wanted, call)) return 0;
    return ++calls == (at ? atol(at) : 0);
}

/* The most bytes that the call may move, or -1 where it fails. */
static ssize_t most(size_t n) {
    const char *with = getenv("MEDDLE_WITH");
    if (!with) return n;
    if (!strcmp(with, "none")) return 0;
    if (!strcmp(with, "one")) return n < 1 ? n : 1;
    if (!strcmp(with, "size")) {
        if (truncate(getenv("MEDDLE_FILE"), atol(getenv("MEDDLE_SIZE")))) abort();
        return n;
    }
    errno = atoi(with);
    return -1;
}

ssize_t read(int fd, void *to, size_t n) {
    ssize_t (*real)(int, void *, size_t) = dlsym(RTLD_NEXT, "read");
    if (!is_here("read")) return real(fd, to, n);
    ssize_t allowed = most(n);
    return allowed <= 0 ? allowed : real(fd, to, allowed);
}

ssize_t write(int fd, const void *from, size_t n) {
    ssize_t (*real)(int, const void *, size_t) = dlsym(RTLD_NEXT, "write");
    if (!is_here("write")) return real(fd, from, n);
    ssize_t allowed = most(n);
    return allowed <= 0 ? allowed : real(fd, from, allowed);
}

ssize_t __write(int fd, const void *from, size_t n) {
    return write(fd, from, n);
}

__attribute__((destructor)) static void tell(void) {
    const char *name = getenv("MEDDLE_COUNT");
    FILE *file = name ? fopen(name, "w") : 0;
    if (!file) return;
    fprintf(file, "%ld\n", calls);
    fclose(file);
}
