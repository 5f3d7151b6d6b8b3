/* Preloaded before a program: the Nth request for memory fails, N being FAIL_NTH in the environment. A request of SIGN bytes is a sign: it
   fails, and from there each request fails, up to the next sign. How many requests there were, how many blocks were held at once at most, how
   many requests came between signs, and how many signs, is written at the end to the file that COUNT_IN names. */
#define _GNU_SOURCE
#include <dlfcn.h>
#include <stdio.h>
#include <stdlib.h>

#define SIGN ((size_t)1 << 62)

static long count = 0, at = -2, held = 0, most = 0, between = 0, signs = 0;

static int fails(size_t n) {
    if (at == -2) {
        const char *given = getenv("FAIL_NTH");
        at = given ? atol(given) : -1;
    }
    ++count;
    if (n == SIGN) {
        ++signs;
        return 1;
    }
    if (signs % 2) {
        ++between;
        return 1;
    }
    return count == at;
}

static void *taken(void *block) {
    if (block && ++held > most) most = held;
    return block;
}

void *malloc(size_t n) {
    static void *(*real)(size_t);
    if (!real) real = dlsym(RTLD_NEXT, "malloc");
    return fails(n) ? 0 : taken(real(n));
}

void *realloc(void *p, size_t n) {
    static void *(*real)(void *, size_t);
    if (!real) real = dlsym(RTLD_NEXT, "realloc");
    if (fails(n)) return 0;
    return p ? real(p, n) : taken(real(p, n));
}

void *aligned_alloc(size_t a, size_t n) {
    static void *(*real)(size_t, size_t);
    if (!real) real = dlsym(RTLD_NEXT, "aligned_alloc");
    return fails(n) ? 0 : taken(real(a, n));
}

void free(void *p) {
    static void (*real)(void *);
    if (!p) return;
    if (!real) real = dlsym(RTLD_NEXT, "free");
    held--;
    real(p);
}

__attribute__((destructor)) static void tell(void) {
    long requests = count, blocks = most, refused = between, given = signs;
    const char *name = getenv("COUNT_IN");
    FILE *file = name ? fopen(name, "w") : 0;
    if (!file) return;
    fprintf(file, "%ld %ld %ld %ld\n", requests, blocks, refused, given);
    fclose(file);
}
