/*
 * Tells what reaches the disk: tools/check-program and the cases of tools/serve and packaging/checks
 * have the loader put this before the C library. To the file that CALLS names it adds a line for each call: `write
 * NAME` and `sync NAME`, by the name of the open file; `rename NAME`, by the old one. A sync or
 * rename whose line fits the pattern FAILS, as `sync *.db`, fails with EIO and is left out; with
 * AFTER, the first so many that fit are done. So does a look at a path that fits, as `look *.db`,
 * while the file that GATE names is there; `refused NAME` tells of it. With BREAKS, a signal breaks
 * off the first write to standard output (EINTR). It calls the system alone.
 */
#include "files.h"
#include <errno.h>
#include <fnmatch.h>
#include <limits.h>
#include <stdio.h>
#include <sys/stat.h>

static void tell(const char *word, const char *name)
{
    char line[PATH_MAX + 16];
    put(getenv("CALLS"), O_APPEND, line, snprintf(line, sizeof line, "%s %s\n", word, name));
}

/* The name of an open file, or an empty one. */
static void name_open(int file, char name[PATH_MAX])
{
    char link[32];
    ssize_t count;
    snprintf(link, sizeof link, "/proc/self/fd/%d", file);
    count = readlink(link, name, PATH_MAX - 1);
    name[count > 0 ? count : 0] = 0;
}

/* The same of an open file. */
static void tell_open(const char *word, int file)
{
    char name[PATH_MAX];
    name_open(file, name);
    if (*name)
        tell(word, name);
}

/* Whether a call of this line is to fail. */
static int fails(const char *word, const char *name)
{
    char line[PATH_MAX + 16];
    const char *pattern = getenv("FAILS"), *after = getenv("AFTER");
    static long fitting;
    snprintf(line, sizeof line, "%s %s", word, name);
    if (!pattern || fnmatch(pattern, line, 0))
        return 0;
    if (after && fitting++ < strtol(after, NULL, 10))
        return 0;
    errno = EIO;
    return 1;
}

ssize_t write(int file, const void *octets, size_t count)
{
    static int breaks;
    if (file == STDOUT_FILENO && getenv("BREAKS") && !breaks++) {
        errno = EINTR;
        return -1;
    }
    tell_open("write", file);
    return syscall(SYS_write, file, octets, count);
}

static int sync_by(long call, int file)
{
    char name[PATH_MAX];
    name_open(file, name);
    int failed = fails("sync", name) ? -1 : (int)syscall(call, file);
    if (!failed)
        tell_open("sync", file);
    return failed;
}

int fsync(int file)
{
    return sync_by(SYS_fsync, file);
}

int fdatasync(int file)
{
    return sync_by(SYS_fdatasync, file);
}

int renameat2(int from, const char *old, int into, const char *name, unsigned flags)
{
    if (fails("rename", old))
        return -1;
    tell("rename", old);
    return (int)syscall(SYS_renameat2, from, old, into, name, flags);
}

/* Looks that succeed aren't told. */
int statx(int from, const char *restrict name, int flags, unsigned mask,
          struct statx *restrict found)
{
    const char *gate = getenv("GATE");
    int is_open = gate && !syscall(SYS_faccessat, AT_FDCWD, gate, F_OK);
    if (is_open && fails("look", name)) {
        tell("refused", name);
        return -1;
    }
    return (int)syscall(SYS_statx, from, name, flags, mask, found);
}

int rename(const char *old, const char *name)
{
    return renameat2(AT_FDCWD, old, AT_FDCWD, name, 0);
}
