/* Three threads at one device. */
#include "again.h"

#include <pthread.h>
#include <stdio.h>

static unsigned char got[ROUNDS];
static int failures;

static void *reads(void *unused)
{
    int moved;
    for (int i = 0; i < ROUNDS; i++)
        if (libusb_bulk_transfer(handle, FROM_DEVICE, got + i, 1, &moved, 10 * SECOND))
            __atomic_add_fetch(&failures, 1, __ATOMIC_RELAXED);
    return unused;
}

static void *writes(void *unused)
{
    int moved;
    for (unsigned char i = 0; i < ROUNDS; i++) {
        unsigned char byte = i;
        flip(&byte);
        if (libusb_bulk_transfer(handle, TO_DEVICE, &byte, 1, &moved, 10 * SECOND))
            __atomic_add_fetch(&failures, 1, __ATOMIC_RELAXED);
    }
    return unused;
}

static void *requests_some(void *unused)
{
    unsigned char data[1];
    for (unsigned char i = 0; i < ROUNDS; i++)
        if (libusb_control_transfer(handle, VENDOR_IN, 1, i, 0, data, 1, 10 * SECOND) != 1 || data[0] != 0x11 * i)
            __atomic_add_fetch(&failures, 1, __ATOMIC_RELAXED);
    return unused;
}

/* Three threads, of which one reads, one writes, and one makes requests. */
int threads(void)
{
    static void *(*const all[])(void *) = { reads, writes, requests_some };
    pthread_t running[3];
    begin(0x0001);
    for (int i = 0; i < 3; i++)
        if (pthread_create(&running[i], NULL, all[i], NULL))
            return 13;
    for (int i = 0; i < 3; i++)
        pthread_join(running[i], NULL);
    show("read", 0, got, ROUNDS);
    printf("failures: %d\n", failures);
    return finish();
}
