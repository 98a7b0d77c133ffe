/* The check of a sheet, for C. The library is target/staticlib/libsheet.a, which c/run.sh makes of the crate sheet_c. */
#ifndef RAUPSILO_H
#define RAUPSILO_H

#include <stddef.h>
#include <stdint.h>

#ifdef __cplusplus
extern "C" {
#endif

/*
 * What the bytes come to: 0 where they are a sheet, else 256 * refusal + row, with the refusal
 *   1  under 2 bytes, a number of facts that is not 1 to 16 or of rows that is not 1 to 32, or not 2 + 4 * rows bytes (row 0)
 *   2  a kind above 7
 *   3  a nonzero operand where the kind has none, a fact that there is not, a named row that is not lower, or a window that begins after its end
 *   4  a length above 255
 *   5  a row, not the last, that no row names
 *   6  an inner row that is a not, or an either with sides of unequal length
 * Refusal 1 comes first, then 2, 3 and 4 at each row in rising order, then 5 and then 6, each at the lowest such row.
 *
 * Reads the `length` bytes from `bytes` on and no other, and writes nothing. `bytes` is not null, also where `length` is 0.
 */
uint32_t check(const uint8_t *bytes, size_t length);

#ifdef __cplusplus
}
#endif

#endif
