/* Time, and transfers whose time is over (libusb 1.0, `libusb_transfer`, `timeout`). */
#include "bus.h"

#include <time.h>

#define SECOND 1000000000u

/* Nanoseconds of a clock that nobody sets. */
uint64_t real_time(void)
{
    struct timespec it;
    clock_gettime(CLOCK_MONOTONIC, &it);
    return (uint64_t)it.tv_sec * SECOND + (uint64_t)it.tv_nsec;
}

/* The same. With TIRNOUCH_TIME=virtual they pass where nothing else is to be done. */
uint64_t now(void)
{
    struct timespec it;
    if (process.bus.is_virtual)
        return process.bus.moment;
    clock_gettime(CLOCK_MONOTONIC, &it);
    return (uint64_t)it.tv_sec * SECOND + (uint64_t)it.tv_nsec;
}

/* A wait of more than some hundred years is one of so many: all sums stay within 64 bits. */
static inline uint64_t nanoseconds_of(const struct timeval *wait)
{
    const uint64_t most = 10000000000u;
    uint64_t seconds = (uint64_t)wait->tv_sec < most ? (uint64_t)wait->tv_sec : most;
    return seconds * SECOND + (uint64_t)wait->tv_usec * 1000u;
}

uint64_t end_of(const struct timeval *wait)
{
    return now() + nanoseconds_of(wait);
}

struct timespec moment_of(uint64_t nanoseconds)
{
    return (struct timespec){ .tv_sec = (time_t)(nanoseconds / SECOND), .tv_nsec = (long)(nanoseconds % SECOND) };
}

/* So many nanoseconds from now on, by the clock itself. */
struct timespec moment_in(uint64_t nanoseconds)
{
    struct timespec it;
    clock_gettime(CLOCK_MONOTONIC, &it);
    return moment_of((uint64_t)it.tv_sec * SECOND + (uint64_t)it.tv_nsec + nanoseconds);
}

struct timespec moment_behind(const struct timeval *wait)
{
    return moment_in(nanoseconds_of(wait));
}

/* Those end whose time is over. There is a deadline. */
void expire(struct libusb_context *context)
{
    uint64_t moment = now();
    if (moment >= context->earliest && !(process.bus.seed && is_late_by_dice(context->earliest)))
        catch_up(moment);
}

/* Never one: the descriptor of libusb_get_pollfds tells of timeouts too, as on Linux. */
int libusb_get_next_timeout(libusb_context *context, struct timeval *wait)
{
    (void)context, (void)wait;
    return 0;
}
