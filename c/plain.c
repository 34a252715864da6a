/* The rules of a set-up list and of a control loop in ordinary C. Shares no code with the library. */
#include "plain.h"

#include <stdbool.h>
#include <string.h>

enum { LONGEST = 24576, LONGEST_REMARK = 60 };

enum { GOOD = 0, LIST_TOO_LONG = 7, NO_FORM = 8, NO_TRAILER = 9, TRAILER_COUNT = 10 };

static int hex_digit(uint8_t c)
{
    if (c >= '0' && c <= '9')
        return c - '0';
    if (c >= 'A' && c <= 'F')
        return c - 'A' + 10;
    return -1;
}

static bool is_hex_byte(const uint8_t *s)
{
    return hex_digit(s[0]) >= 0 && hex_digit(s[1]) >= 0;
}

static bool is_write(const uint8_t *line, size_t length)
{
    return length == 10 && line[1] == ' ' && is_hex_byte(line + 2) && line[4] == ' ' &&
           is_hex_byte(line + 5) && line[7] == ' ' && is_hex_byte(line + 8);
}

static bool is_fan_count(const uint8_t *line, size_t length)
{
    return length == 6 && line[1] == ' ' && is_hex_byte(line + 2) && line[4] == ' ' &&
           line[5] >= '0' && line[5] <= '9';
}

static bool is_remark(const uint8_t *line, size_t length)
{
    size_t i;

    if (length < 2 || length > 2 + LONGEST_REMARK || line[1] != ' ')
        return false;
    for (i = 2; i < length; i++)
        if (line[i] < 0x20 || line[i] > 0x7e)
            return false;
    return true;
}

/* A line that may stand before the trailer. */
static bool is_entry(const uint8_t *line, size_t length)
{
    if (length == 0)
        return false;
    switch (line[0]) {
    case 'w':
        return is_write(line, length);
    case 'f':
        return is_fan_count(line, length);
    case '#':
        return is_remark(line, length);
    default:
        return false;
    }
}

/* The trailer's count, or -1 for a line that is no trailer. */
static long trailer_count(const uint8_t *line, size_t length)
{
    long count = 0;
    size_t i;

    if (length != 6 || line[0] != 't' || line[1] != ' ')
        return -1;
    for (i = 2; i < 6; i++) {
        int digit = hex_digit(line[i]);

        if (digit < 0)
            return -1;
        count = count * 16 + digit;
    }
    return count;
}

int32_t plain_check_list(const uint8_t *list, size_t length)
{
    size_t at, end, last;
    long count;

    if (length > LONGEST)
        return LIST_TOO_LONG;
    if (length == 0)
        return NO_TRAILER;

    end = list[length - 1] == '\n' ? length - 1 : length;
    last = end;
    while (last > 0 && list[last - 1] != '\n')
        last--;
    count = trailer_count(list + last, end - last);
    if (count < 0)
        return NO_TRAILER;
    if ((size_t)count != last)
        return TRAILER_COUNT;

    /* Each line before the last has its newline. */
    for (at = 0; at < last;) {
        const uint8_t *line = list + at;
        const uint8_t *newline = memchr(line, '\n', last - at);
        size_t line_length = (size_t)(newline - line);

        if (!is_entry(line, line_length))
            return NO_FORM;
        at += line_length + 1;
    }
    return GOOD;
}

int32_t plain_loop_level(int32_t on, int8_t t, int8_t t_min, uint8_t code, uint8_t m)
{
    int range, rise;

    if (code > 4)
        return -4;
    if (on == 0)
        return 0;
    if (t <= t_min)
        return m;
    range = 5 << code;
    rise = t - t_min;
    if (rise >= range)
        return 255;
    return m + (255 - m) * rise / range;
}
