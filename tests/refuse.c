// Put before the C library's allocator (LD_PRELOAD): counts the requests for memory, and refuses the one with the number
// that REFUSE names, from 1. Where the program ends the count goes into the file that REFUSE_COUNT names, if it names one.
#define _GNU_SOURCE
#include <dlfcn.h>
#include <errno.h>
#include <fcntl.h>
#include <stdatomic.h>
#include <stddef.h>
#include <stdio.h>
#include <stdlib.h>
#include <sys/syscall.h>
#include <unistd.h>

static atomic_long requests;

static int refused(void) {
    static long number = -1;
    if (number < 0) {
        const char *text = getenv("REFUSE");
        number = text ? atol(text) : 0;
    }
    return atomic_fetch_add(&requests, 1) + 1 == number;
}

#define REAL(name) static __typeof__(&name) real; if (!real) real = (__typeof__(&name))dlsym(RTLD_NEXT, #name)

void *malloc(size_t size) {
    REAL(malloc);
    return refused() ? (errno = ENOMEM, NULL) : real(size);
}

void *realloc(void *block, size_t size) {
    REAL(realloc);
    return refused() ? (errno = ENOMEM, NULL) : real(block, size);
}

int posix_memalign(void **block, size_t alignment, size_t size) {
    REAL(posix_memalign);
    return refused() ? ENOMEM : real(block, alignment, size);
}

void *aligned_alloc(size_t alignment, size_t size) {
    REAL(aligned_alloc);
    return refused() ? (errno = ENOMEM, NULL) : real(alignment, size);
}

// The C library's own calls of calloc, dlsym's among them, go past it by this name.
extern void *__libc_calloc(size_t, size_t);

void *calloc(size_t count, size_t size) {
    return refused() ? (errno = ENOMEM, NULL) : __libc_calloc(count, size);
}

// A program that ends by this call runs no destructors.
_Noreturn void _exit(int status) {
    const char *name = getenv("REFUSE_COUNT");
    int file = name ? open(name, O_WRONLY | O_CREAT | O_TRUNC, 0666) : -1;
    if (file >= 0) {
        dprintf(file, "%ld\n", atomic_load(&requests));
    }
    syscall(SYS_exit_group, status);
    __builtin_unreachable();
}
