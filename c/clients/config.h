/* libusb's examples and tests ask for a config.h. Of its words they need one, and PLATFORM_POSIX, which is said by -D. */
#define PRINTF_FORMAT(a, b) __attribute__((__format__(__printf__, a, b)))
