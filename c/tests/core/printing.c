/* A call, and what it was answered, as a line. */
#include "core.h"

void say(const char *call, int32_t answer)
{
    printf("%s: %" PRId32 "\n", call, answer);
}

void tell_reply(const char *call, int32_t answer)
{
    const struct tirnouch_reply *it = &last.reply;
    printf("%s: %" PRId32 ", kind %u handle %u endpoint %02x code %u bytes %" PRIu32 " packets %" PRIu32 " number %" PRIu64 "\n", call, answer,
           it->kind, it->handle, it->endpoint, it->code, it->bytes, it->packets, it->number);
}

void tell_progress(const char *call, int32_t answer)
{
    printf("%s: %" PRId32 ", steps %" PRIu32 " settled %u\n", call, answer, last.progress.steps, last.progress.is_settled);
}

void tell_next(const char *call, int32_t answer)
{
    const struct tirnouch_next *it = &last.next;
    printf("%s: %" PRId32 ", packet %u device %u endpoint %02x waiting %u\n", call, answer, it->has_packet, it->device, it->endpoint, it->waiting);
}

void tell_view(const char *call, int32_t answer)
{
    const struct tirnouch_view *it = &last.view;
    printf("%s: %" PRId32 ", packet %u waiting %u halted %u answers %" PRIu64 "\n", call, answer, it->has_packet, it->waiting, it->is_halted,
           it->answers_left);
}

void tell_result(const char *call, int32_t answer)
{
    const struct tirnouch_result *it = &last.result;
    printf("%s: %" PRId32 ", handle %u endpoint %02x status %u length %" PRIu32 " number %" PRIu64 " payload %" PRIu64 "\n", call, answer,
           it->handle, it->endpoint, it->status, it->actual_length, it->number, it->payload);
}

void tell_offer(const char *call, int32_t answer)
{
    const struct tirnouch_offer *it = &last.offer;
    printf("%s: %" PRId32 ", packet %u asked %u handle %u length %" PRIu32 " number %" PRIu64 "\n", call, answer, it->has_packet, it->is_asked,
           it->handle, it->length, it->number);
}

void tell_response(const char *call, int32_t answer)
{
    const struct tirnouch_response *it = &last.response;
    printf("%s: %" PRId32 ", ready %u status %u line %u length %" PRIu32 "\n", call, answer, it->is_ready, it->status, it->by_line,
           it->actual_length);
}

void tell_needed(const char *call, int32_t answer)
{
    printf("%s: %" PRId32 ", kind %u interface %u endpoint %02x\n", call, answer, last.needed.kind, last.needed.interface, last.needed.endpoint);
}

void bytes(const char *call, int32_t answer, const uint8_t *data, size_t count)
{
    printf("%s: %" PRId32 ",", call, answer);
    for (size_t i = 0; i < count; i++)
        printf(" %02x", data[i]);
    printf("\n");
}

/* What lies there, lent or not. */
void show_bytes(const uint8_t *at, size_t count)
{
    printf("its bytes:");
    for (size_t i = 0; i < count; i++)
        printf(" %02x", at[i]);
    printf("\n");
}

void show(const char *whose, const struct tirnouch_memory *memory, const uint8_t *place)
{
    printf("%s: len %zu filled %zu %s\n", whose, memory->len, memory->filled, memory->at == place ? "at its place" : "elsewhere");
}
