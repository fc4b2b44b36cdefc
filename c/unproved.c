/* What an unproved build of the core does where one of its checks fails (`make c-try`): it says so, and ends the program. The proved
 * build has no checks, since a proof shows of each that it can't fail. */
#include <stdio.h>
#include <stdlib.h>

_Noreturn void rattle_check_failed(const char *check);

_Noreturn void rattle_check_failed(const char *check)
{
    fprintf(stderr, "tirnouch: a check failed in the unproved core: %s. The library is at fault, not the program: please report it, with the "
                    "devices and the trace\n", check);
    abort();
}
