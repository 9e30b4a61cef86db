/* The session record for support: the orders that stand after the mark, in one piece of bytes. Layout: count (2); for each order its
 * offset from the record's start (4) and its size (4); then the orders' bytes, touching, and nothing after them. A list of orders has
 * one record. Delivering its bodies in turn to the state as it stood at the mark gives the present state. Included by rail.h. */
#ifndef RAIL_SESSION_RECORD_H
#define RAIL_SESSION_RECORD_H

#include <stddef.h>
#include <stdint.h>

#define RAIL_RECORD_MAX 33794 /* the longest record: 128 orders of 32,768 bytes in all; rail_size tells it too */

#ifdef __cplusplus
extern "C" {
#endif

/* Writes the record of the orders since the mark to the start of `out`, and no byte past it. Refuses with 1, and then with 14 where
 * `out` is smaller than the record; RAIL_RECORD_MAX bytes are always enough. Answers as the state calls do; rail_record_length tells
 * the bytes written. */
uint32_t rail_record_write(RAIL_READ_STATE, RAIL_WRITE(out));

/* Checks a whole record: rail_number, and where that is 0 how many bodies it has (rail_count) and their bytes (rail_bytes). Refuses
 * with 18, then 19. The bodies are whatever the record holds: an order is judged when it is delivered. */
uint32_t rail_record_check(const uint8_t *record, size_t record_size);

/* Where the body of that index (from 0) lies in `record`: rail_record_offset and rail_record_size of the answer. 0 where there is
 * none, as in a record that rail_record_check refuses: each call checks the whole record. */
uint32_t rail_record_body(const uint8_t *record, size_t record_size, uint32_t index);

#ifdef __cplusplus
}
#endif

static inline size_t rail_record_offset(uint32_t place) { return place & 65535u; }
static inline size_t rail_record_size(uint32_t place) { return place >> 16; }

/* The bytes of the record that rail_record_write wrote, by its answer; 0 where it refused. */
static inline size_t rail_record_length(uint32_t answer) {
    return (answer & 255u) != 0 ? 0 : 2 + 8 * (size_t)(answer >> 8 & 255u) + (answer >> 16);
}

#endif
