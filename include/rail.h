/* The terminal's end of RDP Remote Programs (RAIL): the library librail.a for C11 and C++17, on x86-64 Linux.
 * docs/GUIDE.md leads through it; `make install` puts the documents named here into share/doc/rail.
 *
 * The library keeps the table that a server's windowing orders describe (32 windows, 16 notification icons, an icon cache of
 * 2 x 6 cells, the pictures that all these show, and the desktop state) with a history that can be stepped back, and reads and
 * writes the control messages of MS-RDPERP, whole or in the chunks of the channel. An order or a message is used whole or refused whole; a refusal changes no byte
 * of what was lent, but for what rail/chunk.h says of an unfinished message.
 *
 * Rules for the caller
 *   Pointers   None may be NULL, also where the length is 0. Bytes need no alignment, words that of uint32_t.
 *   Overlap    No two parts given to one call may overlap where one of them is written.
 *   Lifetimes  Nothing is kept: what a call was given may be freed or moved once it has returned.
 *   Threads    The library has no state of its own and allocates nothing. Calls on different memory may run in parallel, and so
 *              may lookups on the same memory. A call that writes has its memory for itself: serialize those.
 *   Stack      A call takes less than 16 KB of stack.
 *   State      rail_reset comes first: memory of zeros is no state, and meets RAIL_BAD_STATE. The bytes may be stored and copied,
 *              those of the store with the others, but only rail_ calls should write them. Whatever they are, every call ends with
 *              a number of its list: memory that describes no state meets RAIL_BAD_STATE, and rail_reset mends it. Damage that
 *              happens to describe another state is not seen.
 *   Store      rail_reset fixes how many places it has, 12 to 64, by what is lent to it. Later calls need as many, in the same
 *              cut; one that is lent fewer meets RAIL_BAD_STATE.
 *   Secrets    No call erases: after rail_reset, rail_undo and a delete the bytes of titles and icons still stand in the
 *              parts. rail_wipe erases.
 *
 * What is proved of each call (docs/STATEMENTS.md) speaks of the library's source. These are not proved: this header with its
 * macros and inline functions (tests/c tries them), the compiler's back end, the linker, and that the rules above are kept.
 */
#ifndef RAIL_H
#define RAIL_H

#include <stddef.h>
#include <stdint.h>

#include "rail/version.h"

/* ---- Measures, in bytes. A longer part is fine; what lies past the measure is never changed. rail_size tells them too. */

#define RAIL_INDEX_SIZE 729       /* state memory: the index, */
#define RAIL_BODIES_SIZE 61012    /* the bodies, */
#define RAIL_PLACE_SIZE 4224      /* the store of pictures, of which this is one place, */
#define RAIL_JOURNAL_SIZE 32770   /* and the journal */
#define RAIL_WINDOW_SIZE 14103    /* records handed out by lookups: rail/records.h has their fields */
#define RAIL_NOTIFICATION_SIZE 5151
#define RAIL_DESKTOP_SIZE 275
#define RAIL_PICTURE_SIZE 4235
#define RAIL_LIST_SIZE 132        /* lists of ids handed out: a count of 4 bytes, room for all ids, zeros past the last */
#define RAIL_SHARED_SIZE 1        /* what rail_shared hands out */

/* What rail_size is asked for. */
enum rail_measure {
    RAIL_MEASURE_INDEX = 0,
    RAIL_MEASURE_BODIES = 1,
    RAIL_MEASURE_PLACE = 2,
    RAIL_MEASURE_JOURNAL = 3,
    RAIL_MEASURE_WINDOW = 4,
    RAIL_MEASURE_NOTIFICATION = 5,
    RAIL_MEASURE_DESKTOP = 6,
    RAIL_MEASURE_PICTURE = 7,
    RAIL_MEASURE_CHUNK = 8,
    RAIL_MEASURE_RECORD = 9, /* the longest session record */
    RAIL_MEASURE_LIST = 10,
    RAIL_MEASURE_FIGURE = 11
};

/* ---- Limits of the table and of its history. */

#define RAIL_WINDOWS_MAX 32
#define RAIL_NOTIFICATIONS_MAX 16
#define RAIL_ICON_CACHES 2        /* to be announced as NumIconCaches */
#define RAIL_ICON_CACHE_ENTRIES 6 /* to be announced as NumIconCacheEntries */
#define RAIL_STORE_PARTS 5        /* the store is lent in so many */
#define RAIL_PLACES_MIN 12        /* of the store */
#define RAIL_PLACES_MAX 64
#define RAIL_HISTORY_ORDERS_MAX 128
#define RAIL_HISTORY_BYTES_MAX 32768
#define RAIL_TITLE_MAX 520        /* bytes, as the four below */
#define RAIL_OVERLAY_DESCRIPTION_MAX 520
#define RAIL_TOOL_TIP_MAX 256
#define RAIL_INFO_TIP_TEXT_MAX 510
#define RAIL_INFO_TIP_TITLE_MAX 126
#define RAIL_RECTANGLES_MAX 16    /* of each of a window's two lists */
#define RAIL_WINDOW_IDS_MAX 64    /* of the z-order */
#define RAIL_ICON_SIDE_MAX 32
#define RAIL_ICON_BITS_MAX 4224   /* BitsMask, ColorTable and BitsColor together */

/* ---- The number of an answer. Of all conditions that hold the first in this list is given. */

enum rail_numbers {
    RAIL_DONE = 0,
    RAIL_BAD_STATE = 1,        /* lent state memory is shorter than needed, or not well formed */
    RAIL_TOO_SHORT = 2,        /* fewer than 4 bytes (message) or 7 bytes (order) */
    RAIL_LENGTH_DIFFERS = 3,   /* declared length differs from the bytes given */
    RAIL_UNKNOWN_TYPE = 4,     /* unknown message type; first order byte is not 2E; not exactly one of the type bits */
    RAIL_UNKNOWN_FLAG = 5,     /* order has a flag bit outside its kind's closed list */
    RAIL_FLAGS_CLASH = 6,      /* order flags clash */
    RAIL_FIELDS_MISFIT = 7,    /* the fields do not fill the declared length exactly */
    RAIL_BAD_VALUE = 8,        /* a field's number is outside its allowed set */
    RAIL_UNKNOWN_ID = 9,       /* the id must be in the table and is not, or must not be and is */
    RAIL_TABLE_FULL = 10,      /* a new record is asked for and its table is full */
    RAIL_NO_CELL = 11,         /* cached icon naming an empty cell */
    RAIL_NO_PLACE = 17,        /* the order brings an icon, and every place of the store is pointed at */
    RAIL_HISTORY_FULL = 12,    /* history room would be passed: rail_checkpoint makes room */
    RAIL_TOO_MANY_STEPS = 13,  /* more steps back than stand after the mark */
    RAIL_OUTPUT_TOO_SMALL = 14, /* output memory too small */
    RAIL_CHUNK_TOO_SHORT = 15, /* chunk under 8 bytes */
    RAIL_BAD_CHUNK = 16,       /* chunk compressed, not first with nothing begun, or not what its total says */
    RAIL_RECORD_CUT = 18,      /* session record: no whole count or table of contents, or a body past the end */
    RAIL_RECORD_DIFFERS = 19,  /* session record over its limits, or not laid out as one */
    RAIL_WRONG_END = 20,       /* counter profile: a kind from the wrong end */
    RAIL_NOT_PERMITTED = 21    /* counter profile: a program not permitted */
};

/* ---- Answers, all in one packing: the number; where that is 0, a state call's count of orders that stand after the mark and their
 * bytes in all, or the bytes that rail_pdu_write or rail_counter_write wrote. What a call does not answer is 0. */

static inline uint32_t rail_number(uint32_t answer) { return answer & 255u; }
static inline uint32_t rail_count(uint32_t answer) { return answer >> 8 & 255u; }
static inline uint32_t rail_bytes(uint32_t answer) { return answer >> 16; }

/* The condition of a number, in words. */
static inline const char *rail_number_words(uint32_t number) {
    static const char *const words[] = {
        "done",
        "lent state memory is shorter than needed, or not well formed",
        "fewer than 4 bytes (PDU) or 7 bytes (order)",
        "declared length differs from the bytes given",
        "unknown PDU type; or first order byte isn't 2E; or not the case that exactly one of the three type bits is set",
        "order has a flag bit outside its kind's closed list",
        "order flags clash",
        "the fields don't fill the declared length exactly",
        "a field's number is outside its allowed set",
        "the id must be in the table and isn't, or must not be and is",
        "a new record is asked for and its table is full",
        "cached icon naming an empty cell",
        "history room would be passed",
        "more steps back than stand after the mark",
        "output memory too small",
        "chunk under 8 bytes",
        "chunk is compressed; not first with nothing begun; a total of 0 or over 17,052; a total differing from the first's; or data past the total or, in a last chunk, short of it",
        "every place is pointed at",
        "fewer than 2 bytes, or than 2 plus 8 for each counted order, or an offset plus size past the end",
        "count over 128, sizes over 32,768 in all, offsets not those of the layout, or bytes left over",
        "a kind from the wrong end",
        "a program not permitted",
    };
    return number < sizeof words / sizeof words[0] ? words[number] : "no number of this library";
}

/* ---- State calls. State memory is lent in eight parts, always in this order: index, bodies, the five parts of the store, journal.
 * rail/state.h has them in one struct, and the same calls on it with all parts put in: rail_state_reset and so on. A part of the store
 * may have any length, 0 too, and counts the places of RAIL_PLACE_SIZE bytes that fit it whole; places are numbered through the
 * parts. The table that the memory describes is the one at the mark with the orders since then applied in turn. A window is known by
 * its id, a notification icon by the id of its window and its own; the two kinds of ids are separate, and one never serves for the
 * other.
 *
 * Pictures. A window or notification icon keeps the picture it was given, small, big and overlay apart, until it is given another or
 * is removed, and the overlay icon until an order says that there is none: filling a cell again changes what no other shows. An icon
 * takes a place that nothing but its cell and its pointer then points at, and with cache id FF (sent once) nothing but its pointer,
 * and no cell changes; a cached icon shares the place of its cell. A place is used while a cell, window or notification icon points
 * at it, and free again after. What steps back need is kept in the journal and takes no place. */

/* The parameters of a part, read or written, and of those that most calls only read. Undefined again below. */
#define RAIL_READ(part) const uint8_t *part, size_t part##_size
#define RAIL_WRITE(part) uint8_t *part, size_t part##_size
#define RAIL_READ_STORE RAIL_READ(store_a), RAIL_READ(store_b), RAIL_READ(store_c), RAIL_READ(store_d), RAIL_READ(store_e)
#define RAIL_WRITE_STORE RAIL_WRITE(store_a), RAIL_WRITE(store_b), RAIL_WRITE(store_c), RAIL_WRITE(store_d), RAIL_WRITE(store_e)
#define RAIL_READ_TABLE RAIL_READ(index), RAIL_READ(bodies), RAIL_READ_STORE
#define RAIL_READ_STATE RAIL_READ_TABLE, RAIL_READ(journal)

#ifdef __cplusplus
extern "C" {
#endif

/* The measure `what` (enum rail_measure) in bytes, and 0 for any other number. */
uint32_t rail_size(uint32_t what);

/* Empties: no window, no icon, no filled cell, not hooked, not syncing, nothing after the mark. Fixes the number of places: those that
 * the store lent here has, and 64 where it has more. Takes memory with any contents, and erases none of it (rail_wipe does). Refuses
 * with 1, and only where a part is too short or the store has fewer than 12 places. */
uint32_t rail_reset(RAIL_WRITE(index), RAIL_WRITE(bodies), RAIL_READ_STORE, RAIL_WRITE(journal));

/* Delivers one windowing order as the server sends it, from its byte 2E on, cut to its OrderSize. Where it is granted the order
 * stands after the mark, and the table has exactly its flagged fields changed. Refuses with 1 to 12, and with 17 after 11 and before
 * 12: the order brings an icon, and every place is still pointed at once the cell, if it names one, and the pointer it sets have let
 * go. Only the journal is written. */
uint32_t rail_deliver(RAIL_READ_TABLE, RAIL_WRITE(journal), RAIL_READ(order));

/* Delivers the orders of a whole update, which stand in it back to back, one by one until `limit` are granted, none is left or one is
 * refused. Each is cut by its OrderSize; where that is missing, under 7 or past the end, all that is left is delivered as one, and refused.
 * The state memory is looked at once. Orders granted before a refusal stay, the refused one changes nothing. Its lower half
 * (rail_update_answer) is the last number with what then stands after the mark, told whatever the number is, but for RAIL_BAD_STATE, where
 * all else is 0; the upper one has the orders that this call granted and their bytes, so the next order begins at
 * update + rail_update_bytes(). A limit of 0 or no bytes: nothing is delivered, and the number is 0. Refuses as rail_deliver does. Only
 * the journal is written. */
uint64_t rail_update(RAIL_READ_TABLE, RAIL_WRITE(journal), uint32_t limit, RAIL_READ(update));
static inline uint32_t rail_update_answer(uint64_t report) { return (uint32_t)(report & 0xFFFFFFFFu); }
static inline uint32_t rail_update_orders(uint64_t report) { return (uint32_t)(report >> 32 & 0xFFFFu); }
static inline uint32_t rail_update_bytes(uint64_t report) { return (uint32_t)(report >> 48); }

/* Sets the mark to the present table: nothing stands after it, all history room is free, and no step back goes over it. The pictures
 * that orders brought since the last mark go into the store; no other call writes there. Refuses with 1. */
uint32_t rail_checkpoint(RAIL_WRITE(index), RAIL_WRITE(bodies), RAIL_WRITE_STORE, RAIL_WRITE(journal));

/* Takes the last `steps` granted orders back; the table, its cells and what each record shows are as before them. 0 steps are granted
 * and change nothing. Refuses with 1 and 13. Only the journal is written. */
uint32_t rail_undo(RAIL_READ_TABLE, RAIL_WRITE(journal), uint64_t steps);

/* Lookups: the whole record as the present table has it, in the first RAIL_.._SIZE bytes of `out`; no other byte is written. A window
 * and a notification icon come with the pictures that they show, a window also with how many of its pixels are visible, the desktop
 * with how many windows are shown and their pixels (rail/figure.h). Refuse with 1, with 9 where there is no such record (an absent id,
 * an empty cell or one outside the caches; never for the desktop), and then with 14 where `out` is smaller than the record. */
uint32_t rail_window(RAIL_READ_STATE, uint32_t window_id, RAIL_WRITE(out));
uint32_t rail_notification(RAIL_READ_STATE, uint32_t window_id, uint32_t notify_icon_id, RAIL_WRITE(out));
uint32_t rail_cell(RAIL_READ_STATE, uint8_t cache_id, uint16_t cache_entry, RAIL_WRITE(out));
uint32_t rail_desktop(RAIL_READ_STATE, RAIL_WRITE(out));

/* Lists: the ids of all listed windows, or of all notification icons, each once and ascending (notification icons by window id and
 * then by notify-icon id), in the first RAIL_LIST_SIZE bytes of `out`; no other byte is written. rail/records.h has the structs.
 * Refuse with 1, and then with 14 where `out` is smaller than a list. */
uint32_t rail_windows(RAIL_READ_STATE, RAIL_WRITE(out));
uint32_t rail_notifications(RAIL_READ_STATE, RAIL_WRITE(out));

/* Whether two holders share a place, and so show one picture that was sent once: 1 or 0 in the first byte of `out`. A holder is its
 * kind and two numbers, as enum rail_holder_kind says. Refuses with 1, with 9 where a holder is absent, outside the caches or points
 * at nothing, and then with 14 where `out` has no byte. Pictures of equal bytes that came in two orders share no place. */
enum rail_holder_kind {
    RAIL_HOLDER_CELL = 0,         /* cache id, cache entry; so is every kind that is not listed */
    RAIL_HOLDER_SMALL_ICON = 1,   /* window id, 0 */
    RAIL_HOLDER_BIG_ICON = 2,     /* window id, 0 */
    RAIL_HOLDER_NOTIFICATION = 3, /* window id, notify-icon id */
    RAIL_HOLDER_OVERLAY_ICON = 4  /* window id, 0 */
};
uint32_t rail_shared(RAIL_READ_STATE, uint8_t kind, uint32_t first, uint32_t second, uint8_t other_kind, uint32_t other_first,
                     uint32_t other_second, RAIL_WRITE(out));

/* ---- A list of calls in one. Empties the state memory and does the calls of `script` on it, in turn. A call is its kind (1 byte), the
 * size of what it carries (2 bytes) and so many bytes: an order, 8 bytes of steps, a limit of 4 bytes and an update, or the ids of a lookup as
 * its function takes them, in 4 bytes each (a cell: 1 and 2 bytes; of two holders the kinds in 1 byte each). What is missing of them
 * counts 0. Each answer takes a block of `out`: the 4 bytes that the call itself answers (an update: 8), and for a lookup RAIL_.._SIZE
 * bytes more (for the session record RAIL_RECORD_MAX), zeros where it is refused. Numbers are little-endian.
 * Answers how many calls were done and why no further one: RAIL_DONE at the end of the script; RAIL_BAD_STATE where a part is too short, and
 * then no byte is changed; before an item that is not done RAIL_TOO_SHORT (fewer than 3 bytes are left), RAIL_LENGTH_DIFFERS (it is cut),
 * RAIL_UNKNOWN_TYPE (no such kind), RAIL_OUTPUT_TOO_SMALL (`out` has no room for its block). Of these the first that applies is given; the
 * calls before it are done, and their blocks stand in `out`. */
enum rail_call {
    RAIL_CALL_RESET = 0,
    RAIL_CALL_DELIVER = 1,
    RAIL_CALL_CHECKPOINT = 2,
    RAIL_CALL_UNDO = 3,
    RAIL_CALL_WINDOW = 4,
    RAIL_CALL_NOTIFICATION = 5,
    RAIL_CALL_CELL = 6,
    RAIL_CALL_DESKTOP = 7,
    RAIL_CALL_UPDATE = 8,
    RAIL_CALL_RECORD = 9, /* carries nothing; its block has RAIL_RECORD_MAX bytes, zeros behind the record */
    RAIL_CALL_WINDOWS = 10,
    RAIL_CALL_NOTIFICATIONS = 11,
    RAIL_CALL_SHARED = 12 /* two holders of 9 bytes */
};
uint64_t rail_run(RAIL_WRITE(index), RAIL_WRITE(bodies), RAIL_WRITE_STORE, RAIL_WRITE(journal), RAIL_READ(script), RAIL_WRITE(out));
static inline uint32_t rail_run_number(uint64_t answer) { return (uint32_t)(answer & 255u); }
static inline uint64_t rail_run_calls(uint64_t answer) { return answer >> 8; }

/* ---- Control messages, as 12 words: rail/messages.h has the words of each kind. */

/* Reads one message, from its header on. The answer is the number; where it is 0 the words are those of the record. Refuses with
 * 2, 3, 4, 7 and 8, and then no word is written. */
uint32_t rail_pdu_read(const uint8_t *message, size_t message_size, uint32_t words[12]);

/* Writes the message of a record whose strings lie in `strings`. An Application ID of fewer than 520 bytes is filled with zeros.
 * Refuses with 8 words that are no record (unknown type, a number too great for its field or outside its set, a nonzero word after
 * the last, a string, also an empty one, that does not lie whole in `strings`), and then with 14. A granted call writes rail_bytes()
 * bytes of `out` and no other. What was written reads back as the same record, with the strings at their places in the message. */
uint32_t rail_pdu_write(const uint32_t words[12], const uint8_t *strings, size_t strings_size, uint8_t *out, size_t out_size);

#ifdef __cplusplus
}
#endif

#include "rail/chunk.h"
#include "rail/counter.h"
#include "rail/explain.h"
#include "rail/figure.h"
#include "rail/session_record.h"
#undef RAIL_READ
#undef RAIL_WRITE
#undef RAIL_READ_STORE
#undef RAIL_WRITE_STORE
#undef RAIL_READ_TABLE
#undef RAIL_READ_STATE
#include "rail/messages.h"
#include "rail/records.h"
#include "rail/orders.h"
#include "rail/state.h"

/* The names of MS-RDPERP, also beside FreeRDP's headers: rail/protocol.h tells how. Where another header has them otherwise, define
 * this before the include to do without. */
#ifndef RAIL_NO_PROTOCOL_NAMES
#include "rail/protocol.h"
#endif

#endif
