/* Lozghemi for hosts in C: one call. Link target/staticlib/libhost.a, which tests/host/run builds. */
#ifndef LOZGHEMI_H
#define LOZGHEMI_H

#include <stddef.h>
#include <stdint.h>

/* Does the filter hit the message, by the vocabulary?
 *
 * Each byte string is a pointer and a length; a null pointer is fine where the length is 0. Nothing is kept, written or
 * allocated. The answer is 1 for a hit and 0 for none. Else it is the first fault of the vocabulary, the filter or the
 * message, in this order: its number times 4,294,967,296, and its place. docs/RULES.md has the numbers. */
uint64_t lozghemi_hit(const uint8_t *vocabulary, size_t vocabulary_len,
                      const uint8_t *filter, size_t filter_len,
                      const uint8_t *message, size_t message_len);

/* The number and the place of a fault in an answer; the number is 0 where it is none. */
#define LOZGHEMI_NUMBER(answer) ((unsigned)((answer) >> 32))
#define LOZGHEMI_PLACE(answer) ((unsigned)((answer) & 0xffffffffu))

#endif
