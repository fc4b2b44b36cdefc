/* libusb's own functions, and programs that load libusb by themselves. */
#include "record.h"

#include <dlfcn.h>
#include <pthread.h>
#include <string.h>

static struct real functions;

/* A name's function that stands behind this library's. libusb's names have no versions; where a system gives them some, this is the default
 * one, as for a program that asks by name. */
static void find(const char *name, void *function)
{
    void *found = dlsym(RTLD_NEXT, name);
    memcpy(function, &found, sizeof found);
}

static void find_all(void)
{
    find("libusb_submit_transfer", &functions.submit_transfer);
    find("libusb_free_transfer", &functions.free_transfer);
    find("libusb_control_transfer", &functions.control_transfer);
    find("libusb_bulk_transfer", &functions.bulk_transfer);
    find("libusb_interrupt_transfer", &functions.interrupt_transfer);
    find("libusb_clear_halt", &functions.clear_halt);
    find("libusb_set_configuration", &functions.set_configuration);
    find("libusb_set_interface_alt_setting", &functions.set_interface_alt_setting);
    find("libusb_reset_device", &functions.reset_device);
    find("libusb_open", &functions.open);
    find("libusb_open_device_with_vid_pid", &functions.open_device_with_vid_pid);
    find("libusb_wrap_sys_device", &functions.wrap_sys_device);
    find("dlopen", &functions.dlopen);
}

const struct real *real(void)
{
    static pthread_once_t once = PTHREAD_ONCE_INIT;
    pthread_once(&once, find_all);
    return &functions;
}

/* Whether this is a file of libusb 1.0, in whatever folder. */
static bool is_libusb(const char *name)
{
    const char *last = strrchr(name, '/');
    return !strncmp(last ? last + 1 : name, "libusb-1.0.so", strlen("libusb-1.0.so"));
}

/* A program that loads libusb, as Python's ctypes does, gets this library, behind which libusb is found as what it needs: so its functions
 * are those of a program that is linked with libusb. Other names go on with the caller's own return address, by which dlopen knows whose
 * run path counts: the call is the last thing here. */
void *dlopen(const char *name, int flags)
{
    Dl_info here;
    if (name && is_recording() && is_libusb(name) && dladdr(&functions, &here))
        return real()->dlopen(here.dli_fname, flags);
    return real()->dlopen(name, flags);
}
