/* Control messages in the counter profile, for terminals at registry counters, which may start published programs only. Both calls do
 * as rail_pdu_read and rail_pdu_write do, and after their refusals have two more. Included by rail.h. */
#ifndef RAIL_COUNTER_H
#define RAIL_COUNTER_H

#include <stddef.h>
#include <stdint.h>

#ifdef __cplusplus
extern "C" {
#endif

/* Reads what a server sends: both handshakes, Move/Size, Min Max Info, Application ID Response, Execute Result, and the settings
 * SPI_SETSCREENSAVEACTIVE and SPI_SETSCREENSAVESECURE. All else meets 20, after 2, 3, 4, 7 and 8, and then no word is written. A
 * message that came in chunks was read by the plain rules: give its bytes, rail_bytes() of the chunk memory, to this call. */
uint32_t rail_counter_read(const uint8_t *message, size_t message_size, uint32_t words[12]);

/* Writes Handshake and all that the call above does not read. 8 and 14 come first. Then a kind that a server sends meets 20; so does
 * HandshakeEx, also as the answer to one: answer with Handshake. Then an Execute meets 21 whose flags have TRANSLATE_FILES, FILE or
 * APP_USER_MODEL_ID (0002, 0004, 0010), or whose program name does not begin with "||" (7C 00 7C 00) or is no longer than that. No
 * refusal changes a byte of `out`. */
uint32_t rail_counter_write(const uint32_t words[12], const uint8_t *strings, size_t strings_size, uint8_t *out, size_t out_size);

#ifdef __cplusplus
}
#endif

#endif
