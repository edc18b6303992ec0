/*
 * A clock that can be set: the cases of tools/serve and trials/check-month have the loader put this
 * before the C library. To each moment that a program asks for are added the seconds that the file
 * named by CLOCK holds, and once a moment was told with them, the file named by SEEN holds them
 * too. To the date alone are added the seconds that the file named by DATE holds, which may begin
 * with a minus sign. With STILL, the moments that don't depend on the date stay the first one
 * otherwise, so that a slow machine loses no time. It calls the system alone, since a program may ask
 * before the C library's own parts are ready.
 */
#include "files.h"
#include <time.h>

/* The number that a text begins with. */
static long number(const char *text, long count)
{
    long at = count > 0 && text[0] == '-', found = 0, sign = at ? -1 : 1;
    for (; at < count && text[at] >= '0' && text[at] <= '9'; at++)
        found = 10 * found + text[at] - '0';
    return sign * found;
}

/* The seconds that are added to each moment. */
static long added(void)
{
    static long told;
    char text[20];
    long count = get(getenv("CLOCK"), text, sizeof text), seconds = number(text, count);
    if (seconds != told)
        put(getenv("SEEN"), O_TRUNC, text, count < 0 ? 0 : count);
    told = seconds;
    return seconds;
}

/* The seconds that are added to the date alone. */
static long date_added(void)
{
    char text[20];
    return number(text, get(getenv("DATE"), text, sizeof text));
}

/* Keeps a clock at the first moment that it told. */
static void keep(struct timespec *now)
{
    static struct timespec first;
    if (!first.tv_sec && !first.tv_nsec)
        first = *now;
    *now = first;
}

int clock_gettime(clockid_t clock, struct timespec *now)
{
    int failed = (int)syscall(SYS_clock_gettime, clock, now);
    if (!failed && clock != CLOCK_REALTIME && getenv("STILL"))
        keep(now);
    if (!failed)
        now->tv_sec += added();
    if (!failed && clock == CLOCK_REALTIME)
        now->tv_sec += date_added();
    return failed;
}
