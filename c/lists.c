/* Set-up lists that the test and the benchmark make up. */
#include "lists.h"

#include <stdio.h>
#include <string.h>

/* A remark's line of 3 to 63 bytes. */
static void put_remark(uint8_t *out, size_t length)
{
    memset(out, 'r', length);
    out[0] = '#';
    out[1] = ' ';
    out[length - 1] = '\n';
}

static void put_write(uint8_t *out, size_t nth)
{
    char line[32];

    snprintf(line, sizeof line, "w %02X %02X %02X\n", 0x28 + (unsigned)(nth % 8), (unsigned)(nth / 8 % 256),
             (unsigned)(nth * 37 % 256));
    memcpy(out, line, 11);
}

void put_trailer(uint8_t *out, size_t count)
{
    char line[32];

    snprintf(line, sizeof line, "t %04X", (unsigned)count & 0xffff);
    memcpy(out, line, TRAILER_LENGTH);
}

void put_full_list(uint8_t *out, size_t length, enum filling filling, int newline)
{
    size_t body = length - TRAILER_LENGTH - (newline ? 1 : 0);
    size_t line = filling == WRITES ? 11 : 63;
    size_t at = 0, nth = 0;

    /* The last line of the body is a remark that fills the rest, so at least 3 bytes stay for it. */
    for (; body - at >= line + 3; at += line) {
        if (filling == WRITES)
            put_write(out + at, nth++);
        else
            put_remark(out + at, line);
    }
    if (body - at > 63) {
        put_remark(out + at, 3);
        at += 3;
    }
    put_remark(out + at, body - at);
    put_trailer(out + body, body);
    if (newline)
        out[length - 1] = '\n';
}
