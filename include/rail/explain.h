/* Why an order would be refused: the number that rail_deliver would give, and the place of the field at fault in the order's bytes.
 * Nothing is delivered or changed. Included by rail.h. */
#ifndef RAIL_EXPLAIN_H
#define RAIL_EXPLAIN_H

#include <stddef.h>
#include <stdint.h>

#ifdef __cplusplus
extern "C" {
#endif

/* Answers the number (rail_number) that rail_deliver would answer to this order on this memory, 0 to 12 or 17, and where that is not 0
 * the offset of the field at fault (rail_offset). Every condition that comes before the number in the list is false, and its own is
 * true. rail_number_words has the words. A refused delivery changes nothing, so the call may also follow it. */
uint32_t rail_explain(RAIL_READ_STATE, RAIL_READ(order));

#ifdef __cplusplus
}
#endif

/* The offset in the order of the field at fault, counted from its byte 2E on, which is 0. Each single number is a field, and so is the
 * whole run of a string's bytes, of a mask, of a color table and of a color.
 *   1, 2                   0
 *   3                      1: OrderSize
 *   4                      0 where the first byte is not 2E, else 3
 *   5, 6                   3: FieldsPresentFlags
 *   7                      the first field that does not fit whole, or the first byte left over; may be the order's length
 *   8                      the first field in carried order outside its set: of a string its length, of a list its count, and the color
 *                          length where only all three runs of an icon together are too long
 *   9, 10, 11, 17, 12      7: what follows the flags
 * 0 where the number is 0: an accepted order has no such field. */
static inline size_t rail_offset(uint32_t explanation) { return explanation >> 16; }

#endif
