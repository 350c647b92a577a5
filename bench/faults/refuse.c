/* Refuses one allocation of a program (LD_PRELOAD): the call of malloc or realloc of the number REFUSED, counted from 1, returns
   nothing. What is asked for before `main` is not the program's, and not counted. At the end the file COUNTED gets the number of
   all calls, where it is given. */
#define _GNU_SOURCE
#include <dlfcn.h>
#include <stdio.h>
#include <stdlib.h>
#include <string.h>

extern void *__libc_malloc(size_t);
extern void *__libc_realloc(void *, size_t);

static unsigned long counted, refused;
static int begun;

static int is_refused(void) {
    return begun && ++counted == refused;
}

void *malloc(size_t size) {
    return is_refused() ? NULL : __libc_malloc(size);
}

void *realloc(void *old, size_t size) {
    return is_refused() ? NULL : __libc_realloc(old, size);
}

__attribute__((constructor)) static void begin(void) {
    const char *number = getenv("REFUSED");
    refused = number ? strtoul(number, NULL, 10) : 0;
    begun = 1;
}

__attribute__((destructor)) static void end(void) {
    const char *path = getenv("COUNTED");
    unsigned long all = counted;
    begun = 0;
    FILE *file = path ? fopen(path, "w") : NULL;
    if (file) {
        fprintf(file, "%lu\n", all);
        fclose(file);
    }
}
