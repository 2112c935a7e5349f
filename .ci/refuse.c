/* Loaded before the C library under a program: refuses one request for memory, the one whose number, from 1, is in
   REFUSE, with LATER also all that come after it, and one thread, the one whose number, from 1, is in REFUSE_THREAD.
   Where REFUSE_SIZE is given, only requests for so many bytes count. Writes to the file named in TOLD how many requests
   for memory there were. Threads may ask side by side: each request has a number of its own. */
#define _GNU_SOURCE
#include <dlfcn.h>
#include <errno.h>
#include <fcntl.h>
#include <pthread.h>
#include <stdatomic.h>
#include <stdio.h>
#include <stdlib.h>
#include <sys/syscall.h>
#include <unistd.h>

extern void *__libc_malloc(size_t size);
extern void *__libc_realloc(void *old, size_t size);

static atomic_ulong requests, threads;
static unsigned long refused, refused_thread, refused_size;
static int and_later;

static int is_refused(size_t size)
{
    if (refused_size && size != refused_size)
        return 0;
    unsigned long number = atomic_fetch_add(&requests, 1) + 1;
    return number == refused || (and_later && refused && number > refused);
}

void *malloc(size_t size) { return is_refused(size) ? NULL : __libc_malloc(size); }

void *realloc(void *old, size_t size) { return is_refused(size) ? NULL : __libc_realloc(old, size); }

int pthread_create(pthread_t *thread, const pthread_attr_t *attributes, void *(*start)(void *), void *argument)
{
    int (*create)(pthread_t *, const pthread_attr_t *, void *(*)(void *), void *) = dlsym(RTLD_NEXT, "pthread_create");
    if (atomic_fetch_add(&threads, 1) + 1 == refused_thread)
        return EAGAIN;
    return create(thread, attributes, start, argument);
}

static unsigned long number_in(const char *name)
{
    const char *number = getenv(name);
    return number ? strtoul(number, NULL, 10) : 0;
}

__attribute__((constructor)) static void begin(void)
{
    refused = number_in("REFUSE");
    refused_thread = number_in("REFUSE_THREAD");
    refused_size = number_in("REFUSE_SIZE");
    and_later = getenv("LATER") != NULL;
    atomic_store(&requests, 0);
}

__attribute__((destructor)) static void tell(void)
{
    char text[32];
    const char *path = getenv("TOLD");
    int length = snprintf(text, sizeof text, "%lu\n", atomic_load(&requests));
    int file = path ? open(path, O_WRONLY | O_CREAT | O_TRUNC, 0600) : -1;
    if (file >= 0 && write(file, text, length) == length)
        close(file);
}

/* A program with threads may end so, and then no destructor runs. */
void _exit(int status)
{
    tell();
    syscall(SYS_exit_group, status);
    __builtin_unreachable();
}
