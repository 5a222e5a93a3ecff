/* Refuses one request for memory of a program, by malloc or realloc: the one whose number, from 1 on, is in the
   environment's REFUSED. To the file that REQUESTS names it writes how many there were. It stands before the C library
   by LD_PRELOAD. */
#include <stdio.h>
#include <stdlib.h>

extern void *__libc_malloc(size_t size);
extern void *__libc_realloc(void *block, size_t size);

static long refused = -1, requests = 0;

static int is_refused(void) {
    if (refused < 0) {
        refused = atol(getenv("REFUSED"));
    }
    requests += 1;
    return requests == refused;
}

void *malloc(size_t size) {
    return is_refused() ? NULL : __libc_malloc(size);
}

void *realloc(void *block, size_t size) {
    return is_refused() ? NULL : __libc_realloc(block, size);
}

__attribute__((destructor)) static void tell(void) {
    FILE *file = fopen(getenv("REQUESTS"), "w");
    if (file) {
        fprintf(file, "%ld\n", requests);
        fclose(file);
    }
}
