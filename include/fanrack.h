/* The fan rack's check of a set-up list and its control loop, for C and C++. Link with libfanrack.a.
 *
 * Both functions answer for every argument that is described here. They allocate nothing, keep no state
 * between calls and call nothing outside the library, so any thread may call them at any time.
 */
#ifndef FANRACK_H
#define FANRACK_H

#include <stddef.h>
#include <stdint.h>

#ifdef __cplusplus
extern "C" {
#endif

/* Answers of fanrack_check_list. */
#define FANRACK_GOOD_LIST 0
#define FANRACK_LIST_TOO_LONG 7
#define FANRACK_NO_FORM 8
#define FANRACK_NO_TRAILER 9
#define FANRACK_TRAILER_COUNT 10

/* Answer of fanrack_loop_level for a range code above 4. */
#define FANRACK_NO_RANGE (-4)

/* Whether a set-up list is well made, whatever units it is for: its length, the form of each line, its trailer.
 *
 * Lines end with a newline (0Ah), which the last line may lack. Each is one of
 *
 *     w AA RR VV    write the byte VV to register RR of the unit at address AA
 *     f AA N        the unit at address AA has exactly N fans
 *     # TEXT        a remark: 0 to 60 bytes from 20h to 7Eh after `# `
 *     t LLLL        the trailer: the number of bytes before this line; the last line, and only there
 *
 * with single spaces, hexadecimal digits in upper case, one decimal digit N, and nothing else in the line.
 *
 * Answers 0 for a good list, else the number of the first fault, looked for in this order:
 *
 *      7   the list has more than 24,576 bytes
 *      9   the last line is no trailer, or the list is empty
 *     10   the trailer's count is not the number of bytes before it
 *      8   a line before the last has none of the forms, or is a trailer
 *
 * and no other number.
 *
 * `list` points to `length` bytes that nothing writes during the call. Any byte may stand in them; no 0 byte
 * ends them. The function reads no byte past them, writes none, and does not keep the pointer. With a length
 * of 0 nothing is read, and `list` may be a null pointer; with any other length it may not.
 */
int32_t fanrack_check_list(const uint8_t *list, size_t length);

/* The level that a control loop asks of its fan: 0 is at rest, 255 full duty.
 *
 *     on       0 while the loop is off, any other number while it is on
 *     t        the reading, in degrees
 *     t_min    the start of the loop, in degrees
 *     code     the range: 0 to 4 for 5, 10, 20, 40 and 80 degrees
 *     m        the level at the start, the least while the loop is on
 *
 * Answers, by the first line that fits,
 *
 *     -4                                           if code is above 4
 *      0                                           if the loop is off
 *      m                                           if t <= t_min
 *      255                                         if t >= t_min + range
 *      m + (255 - m) * (t - t_min) / range         otherwise, with the fraction dropped
 *
 * So each answer is -4 or from 0 to 255.
 */
int32_t fanrack_loop_level(int32_t on, int8_t t, int8_t t_min, uint8_t code, uint8_t m);

#ifdef __cplusplus
}
#endif

#endif
