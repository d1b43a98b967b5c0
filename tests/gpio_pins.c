/* Pins of a chip for the programs of Debian's package gpiod (libgpiod 1.6), which has none of its
 * own in a test. By LD_PRELOAD, for tests/adapters.sh.
 *
 * PINS is a folder. An edge at pin N is a byte, `r` or `f`, written into the named pipe N there; what
 * is set is a line `N VALUE` of the file `set`, and `N end` where it is set no more.
 */
#include <fcntl.h>
#include <stdio.h>
#include <stdlib.h>
#include <time.h>
#include <unistd.h>

enum { RISING = 1, FALLING = 2 };
enum { ROSE = 2, FELL = 3 };

static void say(unsigned pin, const char *what)
{
    char path[4096], line[64];
    snprintf(path, sizeof path, "%s/set", getenv("PINS"));
    int size = snprintf(line, sizeof line, "%u %s\n", pin, what);
    int file = open(path, O_WRONLY | O_APPEND | O_CREAT, 0644);
    if (file < 0 || write(file, line, size) != size)
        abort();
    close(file);
}

int gpiod_ctxless_event_monitor_multiple_ext(
    const char *chip, int kinds, const unsigned *pins, unsigned count, int low, const char *who,
    const struct timespec *wait, void *poll,
    int (*tell)(int, unsigned, const struct timespec *, void *), void *data, int flags)
{
    char path[4096], edge;
    struct timespec now;
    snprintf(path, sizeof path, "%s/%u", getenv("PINS"), pins[0]);
    /* for both ways, so that it stays open */
    int pipe = open(path, O_RDWR);
    if (pipe < 0)
        return -1;
    while (read(pipe, &edge, 1) == 1) {
        int is_rise = edge == 'r';
        clock_gettime(CLOCK_MONOTONIC, &now);
        if (kinds & (is_rise ? RISING : FALLING))
            tell(is_rise ? ROSE : FELL, pins[0], &now, data);
    }
    return 0;
}

int gpiod_ctxless_set_value_multiple_ext(
    const char *chip, const unsigned *pins, const int *values, unsigned count, int low,
    const char *who, void (*wait)(void *), void *data, int flags)
{
    say(pins[0], values[0] ? "1" : "0");
    if (wait)
        wait(data);
    say(pins[0], "end");
    return 0;
}
