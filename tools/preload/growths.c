/*
 * Refuses each growth of a program in turn. tools/check-growths compiles this and has the loader
 * put it before the C library.
 *
 * At each growth the program forks. The child's growth is refused, and it runs on to its end
 * with no other refused; then the parent's growth is done, and it goes on. So the parent's own
 * run is one in which nothing is refused. A child that ends with a status other than 0 either
 * told that its test's own memory ran out, or failed. Whenever more stands on the parent's
 * standard output, which is a file, and when it ends, it writes to the file that GROWTHS names how
 * many octets stood there till then, and how many growths there were meanwhile, how many were the
 * test's own, and how many children failed; of the first of these also at which growth and what
 * they wrote. Where ONE_OF is a number above 1, those growths alone are refused and counted whose
 * number, from 1 on, divided by it leaves FIRST.
 */
#define _GNU_SOURCE
#include <stdio.h>
#include <stdlib.h>
#include <string.h>
#include <sys/mman.h>
#include <sys/wait.h>
#include <unistd.h>
#include <fcntl.h>

extern void *__libc_malloc(size_t size);
extern void *__libc_realloc(void *block, size_t size);
extern void *__libc_memalign(size_t align, size_t size);

enum { SHOWN = 5, SECONDS = 600 };

static int is_off = 1;
static unsigned long grown, one_of = 1, first, growths, own, failed, shown;
static off_t stood;
static char said[1024];

/* Whether a child that ended by itself told that the test's own memory ran out. */
static int is_own(int status)
{
    if (!WIFEXITED(status))
        return 0;
    /* A test writes on vectors alone, so that a refused write is want of memory too. */
    static const char *const told[] = {"error: AllocError", "error: AllocFailed",
        "error: NoMemory", "error: OutOfMemory", "error: CannotWrite"};
    for (size_t i = 0; i < sizeof told / sizeof *told; i++)
        if (strstr(said, told[i]))
            return 1;
    return 0;
}

/* Puts a line behind those of the file that GROWTHS names. */
static void put(const char *line, int len)
{
    int file = open(getenv("GROWTHS"), O_WRONLY | O_APPEND | O_CREAT, 0600);
    if (write(file, line, len) < 0)
        _exit(3);
    close(file);
}

/* Tells what was counted since the last time. */
static void tell(void)
{
    char line[200];
    put(line, snprintf(line, sizeof line, "stood=%ld growths=%lu own=%lu failed=%lu\n",
        (long)stood, growths, own, failed));
    growths = own = failed = 0;
}

static void report(int status, int out)
{
    ssize_t n = pread(out, said, sizeof said - 1, 0);
    said[n > 0 ? n : 0] = 0;
    growths++;
    if (WIFEXITED(status) && WEXITSTATUS(status) == 0)
        return;
    if (is_own(status)) {
        own++;
        return;
    }
    failed++;
    if (shown++ < SHOWN) {
        char line[1200];
        int len = snprintf(line, sizeof line, "growth %lu: status %d: %s\n", grown, status, said);
        put(line, len < (int)sizeof line ? len : (int)sizeof line - 1);
    }
}

/* Whether this growth is the refused one: in a child it is. */
static int is_refused(void)
{
    if (is_off || ++grown % one_of != first)
        return 0;
    is_off = 1;
    off_t stands = lseek(1, 0, SEEK_END);
    if (stands != stood) {
        tell();
        stood = stands;
    }
    int out = memfd_create("said", 0);
    pid_t child = fork();
    if (child == 0) {
        alarm(SECONDS);
        dup2(out, 1);
        dup2(out, 2);
        return 1;
    }
    int status = -1;
    if (child < 0 || out < 0 || waitpid(child, &status, 0) != child)
        _exit(3);
    report(status, out);
    close(out);
    is_off = 0;
    return 0;
}

void *malloc(size_t size)
{
    return is_refused() ? NULL : __libc_malloc(size);
}

void *realloc(void *block, size_t size)
{
    return is_refused() ? NULL : __libc_realloc(block, size);
}

int posix_memalign(void **block, size_t align, size_t size)
{
    *block = is_refused() ? NULL : __libc_memalign(align, size);
    return *block ? 0 : 12;
}

void *aligned_alloc(size_t align, size_t size)
{
    return is_refused() ? NULL : __libc_memalign(align, size);
}

/* The number that a variable of the environment has, and this one where it has none above 0. */
static unsigned long number(const char *name, unsigned long none)
{
    const char *text = getenv(name);
    return text != NULL && atol(text) > 0 ? (unsigned long)atol(text) : none;
}

static pid_t parent;

__attribute__((constructor)) static void begin(void)
{
    parent = getpid();
    is_off = getenv("GROWTHS") == NULL;
    one_of = number("ONE_OF", 1);
    first = number("FIRST", 0);
}

__attribute__((destructor)) static void end(void)
{
    if (getpid() != parent || getenv("GROWTHS") == NULL)
        return;
    is_off = 1;
    tell();
}
