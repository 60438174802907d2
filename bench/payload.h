/* Payloads, written from text. */
#ifndef PAYLOAD_H
#define PAYLOAD_H

#include <stddef.h>
#include <stdint.h>

enum { MOST_BYTES = 8193 };

struct payload {
    size_t size;
    uint8_t bytes[MOST_BYTES];
};

/*
 * Writes what the text lists, with blanks between: "7:3" is u(7) of 3, "ue:3" is ue(v) of 3, "16*ue:3" or "16*[7:3 ue:3]" is that sixteen
 * times, "$" is a one bit and zeros to the end of its byte, and "+8192" is bytes 80 hex up to a size of 8192.
 */
void write_payload(struct payload *payload, const char *text);

#endif
