/* Refuses one call that takes memory: the one whose number, from 1, is in REFUSED. Where that is 0, it
   writes the number of such calls to the file named by COUNTED as the program ends. */
#define _GNU_SOURCE
#include <dlfcn.h>
#include <errno.h>
#include <stdio.h>
#include <stdlib.h>

static unsigned long calls, refused;

static int is_refused(void) { return ++calls == refused; }

__attribute__((constructor)) static void start(void) {
    const char *number = getenv("REFUSED");
    calls = 0;
    refused = number ? strtoul(number, NULL, 10) : 0;
}

__attribute__((destructor)) static void end(void) {
    unsigned long counted = calls;
    const char *path = getenv("COUNTED");
    FILE *file = path ? fopen(path, "w") : NULL;
    if (file) {
        fprintf(file, "%lu\n", counted);
        fclose(file);
    }
}

#define NEXT(name) static __typeof__(name) *next; if (!next) next = (__typeof__(name) *)dlsym(RTLD_NEXT, #name)

void *malloc(size_t size) {
    NEXT(malloc);
    return is_refused() ? (errno = ENOMEM, NULL) : next(size);
}

void *realloc(void *old, size_t size) {
    NEXT(realloc);
    return is_refused() ? (errno = ENOMEM, NULL) : next(old, size);
}
