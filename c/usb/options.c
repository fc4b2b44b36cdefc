/* What is set of contexts, those of now and those to come (libusb 1.0, `libusb_set_option`, `libusb_set_log_cb`). */
#include "bus.h"

#include <stdarg.h>

static void set_level(struct libusb_context *context, int level)
{
    if (!context->log_is_fixed)
        context->log_level = level;
    set_told_level(context);
    watch_for(context->log_level);
}

/* Each level but those of the enumeration is the nearest one. */
void libusb_set_debug(libusb_context *context, int level)
{
    if (level < LIBUSB_LOG_LEVEL_NONE)
        level = LIBUSB_LOG_LEVEL_NONE;
    if (level > LIBUSB_LOG_LEVEL_DEBUG)
        level = LIBUSB_LOG_LEVEL_DEBUG;
    lock();
    set_level(context_of(context), level);
    unlock();
}

void libusb_set_log_cb(libusb_context *context, libusb_log_cb callback, int mode)
{
    lock();
    if (mode & LIBUSB_LOG_CB_GLOBAL)
        process.log = callback;
    if (mode & LIBUSB_LOG_CB_CONTEXT)
        context_of(context)->log = callback;
    unlock();
}

/* With the lock. Without a context an option is every later one's too. */
static int set_option(libusb_context *context, enum libusb_option option, int level, libusb_log_cb callback)
{
    struct libusb_context *x = context || process.default_context || process.fallback ? context_of(context) : NULL;
    switch (option) {
    case LIBUSB_OPTION_LOG_LEVEL:
        if (level < LIBUSB_LOG_LEVEL_NONE || level > LIBUSB_LOG_LEVEL_DEBUG)
            return LIBUSB_ERROR_INVALID_PARAM;
        if (!context)
            process.defaults.log_level = level;
        if (x)
            set_level(x, level);
        return 0;
    case LIBUSB_OPTION_LOG_CB:
        if (!context)
            process.defaults.log = callback;
        if (x)
            x->log = callback;
        return 0;
    case LIBUSB_OPTION_NO_DEVICE_DISCOVERY:
        /* A context that was begun has looked already. */
        if (!context)
            process.defaults.is_blind = true;
        return 0;
    case LIBUSB_OPTION_USE_USBDK: return LIBUSB_ERROR_NOT_SUPPORTED;
    default: return LIBUSB_ERROR_INVALID_PARAM;
    }
}

int libusb_set_option(libusb_context *context, enum libusb_option option, ...)
{
    va_list rest;
    int level = 0;
    libusb_log_cb callback = NULL;
    va_start(rest, option);
    if (option == LIBUSB_OPTION_LOG_LEVEL)
        level = va_arg(rest, int);
    if (option == LIBUSB_OPTION_LOG_CB)
        callback = va_arg(rest, libusb_log_cb);
    va_end(rest);
    if (!lock_unless_asked())
        return LIBUSB_ERROR_BUSY;
    int r = set_option(context, option, level, callback);
    unlock();
    return r;
}
