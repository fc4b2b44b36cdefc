/* What libgusb's build finds out of libusb 1.0.28 (meson.build), and where Debian has the names of vendors. */
#define USB_IDS "/usr/share/misc/usb.ids"
#define HAVE_LIBUSB_CAP_HAS_HOTPLUG 1
#define HAVE_LIBUSB_HAS_CAPABILITY 1
#define HAVE_LIBUSB_SET_OPTION 1
#define HAVE_LIBUSB_GET_PARENT 1
#define HAVE_LIBUSB_GET_PORT_NUMBER 1
