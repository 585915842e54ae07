/* Makes one allocation of the program that it is loaded into fail: the one with the number FAIL_ALLOCATION, counted from 1. At the end it
   writes the number of allocations into the file ALLOCATION_COUNT. Several threads may allocate. Calls of calloc count only if the variable
   FAIL_CALLOC is set, because the C library makes some for its own threads. program.py and library.py build and load this library. */
#include <errno.h>
#include <stddef.h>
#include <stdio.h>
#include <stdlib.h>
#include <sys/syscall.h>
#include <unistd.h>

extern void *__libc_malloc(size_t);
extern void *__libc_calloc(size_t, size_t);
extern void *__libc_realloc(void *, size_t);

static long count, failing = -1;

/* Counts an allocation, and returns whether it fails. */
static int fails(void)
{
    if (failing < 0) {
        const char *text = getenv("FAIL_ALLOCATION");
        failing = text ? atol(text) : 0;
    }
    if (__atomic_add_fetch(&count, 1, __ATOMIC_SEQ_CST) != failing)
        return 0;
    errno = ENOMEM;
    return 1;
}

void *malloc(size_t size)
{
    return fails() ? NULL : __libc_malloc(size);
}

void *calloc(size_t count_of_elements, size_t size)
{
    return getenv("FAIL_CALLOC") && fails() ? NULL : __libc_calloc(count_of_elements, size);
}

void *realloc(void *old, size_t size)
{
    return fails() ? NULL : __libc_realloc(old, size);
}

/* Writes the number of allocations. */
__attribute__((destructor)) static void write_count(void)
{
    long allocations = count;
    const char *name = getenv("ALLOCATION_COUNT");
    FILE *file = name ? fopen(name, "w") : NULL;
    if (file) {
        fprintf(file, "%ld", allocations);
        fclose(file);
    }
}

/* A program that may start threads ends with this call, and not with `exit`. */
void _exit(int status)
{
    write_count();
    for (;;)
        syscall(SYS_exit_group, status);
}
