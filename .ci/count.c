/* Loaded before the C library under a program: writes to the file named in TOLD how many bytes of memory it had at most
   at once, by the sizes of what it was given. A program that leaves by _exit is told of too. */
#define _GNU_SOURCE
#include <fcntl.h>
#include <malloc.h>
#include <stdatomic.h>
#include <stdio.h>
#include <stdlib.h>
#include <sys/syscall.h>
#include <unistd.h>

extern void *__libc_malloc(size_t size);
extern void *__libc_calloc(size_t count, size_t size);
extern void *__libc_realloc(void *old, size_t size);
extern void __libc_free(void *old);

static atomic_long held, most;

static void add(long size)
{
    long now = atomic_fetch_add(&held, size) + size, before = atomic_load(&most);
    while (now > before && !atomic_compare_exchange_weak(&most, &before, now))
        ;
}

static long size_of(void *memory) { return memory ? (long)malloc_usable_size(memory) : 0; }

static void *counted(void *memory)
{
    add(size_of(memory));
    return memory;
}

void *malloc(size_t size) { return counted(__libc_malloc(size)); }

void *calloc(size_t count, size_t size) { return counted(__libc_calloc(count, size)); }

void *realloc(void *old, size_t size)
{
    long before = size_of(old);
    void *memory = __libc_realloc(old, size);
    if (memory || size == 0)
        add(size_of(memory) - before);
    return memory;
}

void free(void *old)
{
    add(-size_of(old));
    __libc_free(old);
}

__attribute__((destructor)) static void tell(void)
{
    char text[32];
    const char *name = getenv("TOLD");
    int file = name ? open(name, O_WRONLY | O_CREAT | O_TRUNC, 0600) : -1;
    if (file >= 0) {
        int length = snprintf(text, sizeof text, "%ld\n", atomic_load(&most));
        if (write(file, text, length) != length)
            syscall(SYS_exit_group, 1);
        close(file);
    }
}

void _exit(int status)
{
    tell();
    for (;;)
        syscall(SYS_exit_group, status);
}
