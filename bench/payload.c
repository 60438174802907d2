/* Payloads, written from text. */
#include "payload.h"

#include <assert.h>
#include <stdlib.h>
#include <string.h>

struct writer {
    struct payload *to;
    size_t bits;
};

static void put(struct writer *writer, unsigned long width, uint64_t value)
{
    while (width-- > 0) {
        assert(writer->bits / 8 < MOST_BYTES);
        writer->to->bytes[writer->bits / 8] |= (uint8_t)((value >> width & 1) << (7 - writer->bits % 8));
        writer->bits++;
    }
}

static void put_ue(struct writer *writer, uint64_t meaning)
{
    unsigned zeros = 0;
    while ((meaning + 1) >> (zeros + 1) != 0)
        zeros++;
    put(writer, 2 * zeros + 1, meaning + 1);
}

static void put_tail(struct writer *writer)
{
    put(writer, 1, 1);
    while (writer->bits % 8 != 0)
        put(writer, 1, 0);
}

static void fill_up(struct writer *writer, size_t size)
{
    size_t at = (writer->bits + 7) / 8;
    assert(at <= size && size <= MOST_BYTES);
    memset(writer->to->bytes + at, 0x80, size - at);
    writer->bits = 8 * size;
}

static const char *past_blanks(const char *text)
{
    return text + strspn(text, " ");
}

/* Writes one element or group and answers what follows it. */
static const char *put_item(struct writer *writer, const char *text)
{
    char *after;
    if (*text == '$') {
        put_tail(writer);
        return text + 1;
    }
    if (*text == '+') {
        fill_up(writer, strtoul(text + 1, &after, 10));
        return after;
    }
    if (*text == '[') {
        text = past_blanks(text + 1);
        while (*text != ']')
            text = past_blanks(put_item(writer, text));
        return text + 1;
    }
    if (strncmp(text, "ue:", 3) == 0) {
        put_ue(writer, strtoull(text + 3, &after, 10));
        return after;
    }
    unsigned long count = strtoul(text, &after, 10);
    const char *rest = after + 1;
    if (*after == ':') {
        put(writer, count, strtoull(rest, &after, 10));
        return after;
    }
    assert(*after == '*' && count > 0);
    while (count-- > 1)
        put_item(writer, rest);
    return put_item(writer, rest);
}

void write_payload(struct payload *payload, const char *text)
{
    struct writer writer = {payload, 0};
    memset(payload, 0, sizeof *payload);
    for (text = past_blanks(text); *text != '\0'; text = past_blanks(text))
        text = put_item(&writer, text);
    payload->size = (writer.bits + 7) / 8;
}
