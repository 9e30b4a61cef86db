/* Control messages that arrive in chunks, as a static virtual channel carries them (MS-RDPBCGR 2.2.6.1): the length of the whole
 * message (4), flags (4), then a piece of it. Each chunk is given to rail_chunk, which keeps the unfinished message in lent memory
 * of its own and hands the message out with the last chunk. Included by rail.h. */
#ifndef RAIL_CHUNK_H
#define RAIL_CHUNK_H

#include <stddef.h>
#include <stdint.h>

#define RAIL_CHUNK_SIZE 17060 /* chunk memory, in bytes; a longer one is fine, and rail_size tells it too */
#define RAIL_CHUNK_HEAD_SIZE 8 /* length and flags */

/* The flags that matter, spelled as FreeRDP has them. */
#ifndef RAIL_NO_PROTOCOL_NAMES
#define CHANNEL_FLAG_FIRST 0x01
#define CHANNEL_FLAG_LAST 0x02
#define CHANNEL_PACKET_COMPRESSED 0x00200000
#endif

#ifdef __cplusplus
extern "C" {
#endif

/* Empties: nothing is begun. Takes memory with any contents. Refuses with 1, and only where the memory is too short. */
uint32_t rail_chunk_reset(uint8_t *memory, size_t memory_size);

/* Takes one chunk. The answer is taken apart by rail_number, rail_count and rail_bytes:
 *
 *   0, count 0   more is awaited; so many bytes of the message have come.
 *   0, count 1   a message of so many bytes: they stand at the start of `memory`, and the words are those of its record. Its strings
 *                are places in `memory`. Both hold until the next call on that memory.
 *   a refusal    count and bytes are 0, and no word is written: 1 where `memory` is too short or not well formed, then 15, 16, and
 *                then what rail_pdu_read refuses a whole message with (2, 3, 4, 7, 8).
 *
 * 1 and 15 change no byte. 16 drops what was begun and changes nothing else. A whole message, read or refused, leaves nothing
 * begun. A first chunk in the middle of a message drops the unfinished one and starts afresh. Of the flags only the three above
 * matter. A message of 1 to RAIL_MESSAGE_MAX bytes answers the same however it is cut; chunks may be empty. */
uint32_t rail_chunk(uint8_t *memory, size_t memory_size, const uint8_t *chunk, size_t chunk_size, uint32_t words[12]);

#ifdef __cplusplus
}
#endif

#endif
