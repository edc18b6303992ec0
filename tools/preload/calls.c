/*
 * Tells what a server asks of its sockets: the cases of tools/serve have the loader put this before
 * the C library. To the file that CALLS names it adds a line for each call: `wait MILLIS EVENTS`; and of
 * a link, by the PORT of its other end, `nodelay PORT`, `recv PORT ROOM CAME` and `send PORT LENT
 * TAKEN`, in which CAME or TAKEN is -1 if the call failed. With TAKES a send takes that many octets
 * at most. With SWAP each file whose name ends with `.eml` is replaced, just before it is opened,
 * by a symbolic link to what SWAP names. As long as the file that GATE names is there, a wait that
 * has a higher number than the file says doesn't begin, and the file of that name with `.at` has
 * the number of the wait. It calls the system alone.
 */
#include "files.h"
#include <netinet/in.h>
#include <netinet/tcp.h>
#include <stdarg.h>
#include <stdio.h>
#include <string.h>
#include <sys/epoll.h>
#include <sys/socket.h>
#include <time.h>

static void tell(const char *line, int count)
{
    put(getenv("CALLS"), O_APPEND, line, count);
}

/* The port of a link's other end, or 0. */
static int port_of(int link)
{
    struct sockaddr_in end = {0};
    socklen_t size = sizeof end;
    return syscall(SYS_getpeername, link, &end, &size) ? 0 : ntohs(end.sin_port);
}

/* Tells of a call that was made of a link. */
static void tell_link(const char *word, int link, long first, long second)
{
    char line[80];
    tell(line, snprintf(line, sizeof line, "%s %d %ld %ld\n", word, port_of(link), first, second));
}

/* The number that the gate says, or -1 where it isn't there. */
static long gate(const char *name)
{
    char text[20] = {0};
    return get(name, text, sizeof text - 1) < 0 ? -1 : strtol(text, NULL, 10);
}

/* Keeps a wait from its beginning, as long as the gate says so. */
static void hold(void)
{
    static long waits;
    const char *name = getenv("GATE");
    char at[4096], line[20];
    struct timespec moment = {0, 5000000};
    waits++;
    while (name && gate(name) >= 0 && gate(name) < waits) {
        snprintf(at, sizeof at, "%s.at", name);
        put(at, O_TRUNC, line, snprintf(line, sizeof line, "%ld", waits));
        syscall(SYS_nanosleep, &moment, NULL);
    }
}

int epoll_wait(int poll, struct epoll_event *events, int most, int millis)
{
    char line[80];
    hold();
    int count = (int)syscall(SYS_epoll_wait, poll, events, most, millis);
    tell(line, snprintf(line, sizeof line, "wait %d %d\n", millis, count));
    return count;
}

ssize_t recv(int link, void *octets, size_t room, int flags)
{
    ssize_t came = syscall(SYS_recvfrom, link, octets, room, flags, NULL, NULL);
    tell_link("recv", link, (long)room, came);
    return came;
}

ssize_t send(int link, const void *octets, size_t lent, int flags)
{
    const char *takes = getenv("TAKES");
    size_t most = takes ? strtoul(takes, NULL, 10) : lent;
    ssize_t taken = syscall(SYS_sendto, link, octets, lent < most ? lent : most, flags, NULL, 0);
    tell_link("send", link, (long)lent, taken);
    return taken;
}

int setsockopt(int link, int level, int name, const void *value, socklen_t size)
{
    char line[80];
    if (level == IPPROTO_TCP && name == TCP_NODELAY && *(const int *)value)
        tell(line, snprintf(line, sizeof line, "nodelay %d\n", port_of(link)));
    return (int)syscall(SYS_setsockopt, link, level, name, value, size);
}

/* Puts a link to what SWAP names in the place of a file of the spool. */
static void swap(int folder, const char *path)
{
    const char *to = getenv("SWAP"), *end = strrchr(path, '.');
    if (!to || !end || strcmp(end, ".eml"))
        return;
    syscall(SYS_unlinkat, folder, path, 0);
    syscall(SYS_symlinkat, to, folder, path);
}

static int open_at(int folder, const char *path, int flags, va_list rest)
{
    swap(folder, path);
    return (int)syscall(SYS_openat, folder, path, flags, va_arg(rest, int));
}

int openat(int folder, const char *path, int flags, ...)
{
    va_list rest;
    va_start(rest, flags);
    return open_at(folder, path, flags, rest);
}

int open(const char *path, int flags, ...)
{
    va_list rest;
    va_start(rest, flags);
    return open_at(AT_FDCWD, path, flags, rest);
}
