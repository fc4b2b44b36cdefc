/* What libgusb's build makes of gusb-version.h.in, as far as it is used. */
#pragma once
#include <glib.h>
#define G_USB_MAJOR_VERSION 0
#define G_USB_MINOR_VERSION 4
#define G_USB_MICRO_VERSION 9
const gchar *g_usb_version_string(void);
