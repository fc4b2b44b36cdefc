/* What the library is, for `libusb_get_version` and whoever holds the core: CORE_BUILD says how the core was built, in a word of
 * tools/program.py (proved, unproved, or trusted: unproved, without checks). */
#include "tirnouch_core.h"

const char tirnouch_description[] = "tirnouch, " CORE_BUILD " core";
