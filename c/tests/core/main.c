/* All subjects, one behind the other, as `expected` has them. */
#include "core.h"

struct tirnouch_slot slot;
struct answers last;

int main(void)
{
    begin_desk();
    transfers();
    requests();
    descriptions();
    end_desk();
    plain_requests();
    other_descriptions();
    complaints();
    lending();
    feeding();
    return 0;
}
