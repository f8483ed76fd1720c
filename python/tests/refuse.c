/* Preloaded by test_memory.py: refuses memory to the package's module alone, or else to the object in whose path REFUSE_TO
 * stands. Where `from` isn't 0, its growths (malloc, calloc, realloc) with the numbers `from` to `to` find none, counted in
 * `growths` from 1. */
#define _GNU_SOURCE
#include <dlfcn.h>
#include <stdlib.h>
#include <string.h>

extern void *__libc_malloc(size_t size);
extern void *__libc_calloc(size_t count, size_t size);
extern void *__libc_realloc(void *block, size_t size);

unsigned long from, to, growths;

static int is_refused(void *caller) {
    static int is_asking; /* dladdr may itself ask for memory */
    const char *name = getenv("REFUSE_TO");
    Dl_info place;
    if (name == NULL)
        name = "/_recfile.";
    if (from == 0 || is_asking)
        return 0;
    is_asking = 1;
    int is_ours = dladdr(caller, &place) != 0 && place.dli_fname != NULL && strstr(place.dli_fname, name);
    is_asking = 0;
    if (!is_ours)
        return 0;
    growths++;
    return growths >= from && growths <= to;
}

void *malloc(size_t size) {
    return is_refused(__builtin_return_address(0)) ? NULL : __libc_malloc(size);
}

void *calloc(size_t count, size_t size) {
    return is_refused(__builtin_return_address(0)) ? NULL : __libc_calloc(count, size);
}

void *realloc(void *block, size_t size) {
    return is_refused(__builtin_return_address(0)) ? NULL : __libc_realloc(block, size);
}
