/* Refuses the growth of memory whose number REFUSE names, counting from 1, in the program that it is preloaded into.
   With REFUSE=0 none is refused. At the end it tells on standard error how many there were. */
#define _GNU_SOURCE
#include <errno.h>
#include <stdatomic.h>
#include <stdio.h>
#include <stdlib.h>
#include <sys/syscall.h>
#include <unistd.h>

static atomic_ulong count, refuse;
static atomic_int known;

static int is_refused(void) {
    if (!known) {
        const char *text = getenv("REFUSE");
        refuse = text ? strtoul(text, NULL, 10) : 0;
        known = 1;
    }
    return atomic_fetch_add(&count, 1) + 1 == refuse;
}

static void *none(void) {
    errno = ENOMEM;
    return NULL;
}

/* glibc's own names for what this file stands before */
extern void *__libc_malloc(size_t), *__libc_calloc(size_t, size_t);
extern void *__libc_realloc(void *, size_t), *__libc_memalign(size_t, size_t);

void *malloc(size_t size) { return is_refused() ? none() : __libc_malloc(size); }

void *calloc(size_t n, size_t size) { return is_refused() ? none() : __libc_calloc(n, size); }

void *realloc(void *old, size_t size) { return is_refused() ? none() : __libc_realloc(old, size); }

void *aligned_alloc(size_t align, size_t size) { return is_refused() ? none() : __libc_memalign(align, size); }

int posix_memalign(void **p, size_t align, size_t size) {
    if (is_refused())
        return ENOMEM;
    *p = __libc_memalign(align, size);
    return *p ? 0 : ENOMEM;
}

static void tell(void) {
    char line[64];
    int length = snprintf(line, sizeof line, "growths: %lu\n", atomic_load(&count));
    if (write(2, line, length) < 0)
        syscall(SYS_exit_group, 70);
}

/* a program may end by either */
__attribute__((destructor)) static void at_end(void) { tell(); }

void _exit(int status) {
    tell();
    for (;;)
        syscall(SYS_exit_group, status);
}
