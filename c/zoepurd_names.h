/*
 * Note names for programs in C: read and written by plain numbers.
 *
 * `c/build.sh` proves and makes the library, target/c/libnames.a.
 *
 * namings      0 English, 1 German
 * steps        0 to 6: C D E F G A B
 * alterations  -2 to 2: double flat, flat, natural, sharp, double sharp
 *
 * Each function answers 0, or the number of a refusal:
 *
 *   21  the naming, the step or the alteration is none of these
 *   22  the bytes are no name of the naming
 *   54  the buffer is too short for the name
 *
 * Where several apply, the first of them is given. After a refusal the caller's
 * variables and buffer are as they were.
 *
 * Names are bytes with a length, with no zero byte at their end. The longest
 * has 5 bytes.
 *
 * What the caller owes: every pointer is valid for what it points to, and what
 * a function writes to overlaps with nothing else that it is given. A pointer
 * to bytes may be null where their length is 0; no other pointer may be null.
 */
#ifndef ZOEPURD_NAMES_H
#define ZOEPURD_NAMES_H

#include <stddef.h>
#include <stdint.h>

#ifdef __cplusplus
extern "C" {
#endif

/* Reads a name, and puts its step and alteration into the caller's variables. Refuses with 21 or 22. */
uint8_t zoepurd_read_name(uint8_t naming, const uint8_t *name, size_t name_len, uint8_t *step, int8_t *alteration);

/*
 * Writes the name of a step and alteration at the start of a buffer, and puts
 * its length into the caller's variable. The buffer beyond the name is as it
 * was. Refuses with 21 or 54.
 */
uint8_t zoepurd_write_name(uint8_t naming, uint8_t step, int8_t alteration, uint8_t *out, size_t out_len, size_t *count);

#ifdef __cplusplus
}
#endif

#endif
