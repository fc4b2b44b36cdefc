/* The calls that several subjects make. */
#include "core.h"

/* Memory of so many bytes to be lent, each of them ee; and memory of none, which has an address too. */
struct tirnouch_memory filled_with_ee(uint8_t *at, size_t len)
{
    memset(at, 0xee, len);
    return (struct tirnouch_memory){ .at = at, .len = len };
}

struct tirnouch_memory no_memory(void)
{
    static uint8_t nowhere[1];
    return filled_with_ee(nowhere, 0);
}

int32_t create(const char *from)
{
    return tirnouch_create(&slot, (const uint8_t *)from, strlen(from), &last.complaint);
}

int32_t call(uint8_t verb, uint8_t h, uint8_t a, uint64_t n)
{
    return tirnouch_call(&slot, verb, h, a, n, &last.reply);
}

int32_t read_at(uint8_t ep, uint32_t room, uint64_t payload)
{
    return tirnouch_submit(&slot, 1, ep, 2, 0, 0, room, (const uint8_t *)"", 0, payload, &last.reply);
}

/* A result for which no memory was lent. */
int32_t take(void)
{
    struct tirnouch_memory back = no_memory();
    int32_t answer = tirnouch_take(&slot, &back, &last.result);
    if (back.len)
        show("memory of nobody", &back, NULL);
    return answer;
}

int32_t turn(uint8_t dev, uint8_t ep)
{
    struct tirnouch_memory back = no_memory();
    return tirnouch_turn(&slot, dev, ep, 10, 100, &back, &last.result);
}
