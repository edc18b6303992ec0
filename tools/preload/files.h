/* How these libraries write and read small files: by the system alone. */
#define _GNU_SOURCE
#include <fcntl.h>
#include <stdlib.h>
#include <sys/syscall.h>
#include <unistd.h>

/* Writes a text to a file, if it has a name: behind what it holds, or (O_TRUNC) in its place. */
static inline void put(const char *name, int how, const char *text, long count)
{
    long file = name ? syscall(SYS_openat, AT_FDCWD, name, O_WRONLY | O_CREAT | how, 0600) : -1;
    if (file < 0)
        return;
    syscall(SYS_write, file, text, count);
    syscall(SYS_close, file);
}

/* Reads a file, and gives how many octets it has, or -1 where it has no name or isn't there. */
static inline long get(const char *name, char *text, long room)
{
    long file = name ? syscall(SYS_openat, AT_FDCWD, name, O_RDONLY) : -1;
    long count = file < 0 ? -1 : syscall(SYS_read, file, text, room);
    if (file >= 0)
        syscall(SYS_close, file);
    return count;
}
