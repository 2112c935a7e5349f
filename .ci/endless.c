/* Loaded before the C library under a program: a descriptor at whose end a read arrives gives one more byte at each further
   read, without end. The byte's number is in ENDLESS. */
#define _GNU_SOURCE
#include <stdlib.h>
#include <sys/socket.h>
#include <sys/syscall.h>
#include <sys/types.h>
#include <unistd.h>

static int ended = -1;
static char byte;

static ssize_t go_on(int file, void *buffer, size_t length, ssize_t got)
{
    if (got != 0 || length == 0)
        return got;
    ended = file;
    *(char *)buffer = byte;
    return 1;
}

ssize_t read(int file, void *buffer, size_t length)
{
    return go_on(file, buffer, length, file == ended ? 0 : syscall(SYS_read, file, buffer, length));
}

ssize_t recv(int file, void *buffer, size_t length, int flags)
{
    return go_on(file, buffer, length, file == ended ? 0 : syscall(SYS_recvfrom, file, buffer, length, flags, NULL, NULL));
}

__attribute__((constructor)) static void begin(void)
{
    const char *number = getenv("ENDLESS");
    byte = number ? atoi(number) : '\n';
}
