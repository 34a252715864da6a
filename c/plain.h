/* The two functions of the library once more, in ordinary C: what it is tested against and measured by. */
#ifndef PLAIN_H
#define PLAIN_H

#include <stddef.h>
#include <stdint.h>

int32_t plain_check_list(const uint8_t *list, size_t length);

int32_t plain_loop_level(int32_t on, int8_t t, int8_t t_min, uint8_t code, uint8_t m);

#endif
