/* Devices are pulled out and plugged in again. A handle that was opened before a pull is told that its device has left; one that was opened
 * behind it isn't. So pulls are counted as they begin and as they are done, and an open keeps both counts. */
#include "fuzz.h"

/* One more, since the hub is opened too. `shown` is how many pulls were done as the device was plugged in. */
static atomic_int begun[DEVICES + 1], done[DEVICES + 1], shown[DEVICES + 1];
static pthread_mutex_t hand = PTHREAD_MUTEX_INITIALIZER;
static bool is_out;

/* Before the open. */
void begin_plugs(int device, struct plugs *seen)
{
    seen->device = device;
    seen->done = atomic_load(&done[device]);
}

/* Behind the open. */
void end_plugs(struct plugs *seen)
{
    seen->begun = atomic_load(&begun[seen->device]);
}

bool may_have_left(const struct plugs *seen)
{
    return atomic_load(&begun[seen->device]) > seen->done;
}

bool has_left(const struct plugs *seen)
{
    return atomic_load(&done[seen->device]) > seen->begun;
}

bool was_replaced(const struct plugs *seen)
{
    return atomic_load(&shown[seen->device]) > seen->begun;
}

void pull_one(int device)
{
    atomic_fetch_add(&begun[device], 1);
    int r = tirnouch_pull(device);
    if (r && (r != LIBUSB_ERROR_NO_DEVICE || device == REPLUGGED))
        fail("a pull of device %d: %s", device, libusb_error_name(r));
    atomic_fetch_add(&done[device], 1);
}

/* It is pulled out, and soon it is plugged in. */
void replug(void)
{
    if (pthread_mutex_trylock(&hand))
        return;
    if (is_out) {
        int r = tirnouch_show(REPLUGGED);
        if (r)
            fail("show: %s", libusb_error_name(r));
        atomic_store(&shown[REPLUGGED], atomic_load(&done[REPLUGGED]));
        is_out = false;
    } else if (!roll(12)) {
        pull_one(REPLUGGED);
        is_out = true;
    }
    pthread_mutex_unlock(&hand);
}
