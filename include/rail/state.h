/* State memory in one struct, and the state calls on it: a caller gives the struct and what the call needs. Static or from the heap, it
 * is too big for a stack: 94,511 bytes and 4,224 for each place of the store, 364,847 with 64. rail_state_reset comes first: zeroed
 * memory is no state. Included by rail.h. */
#ifndef RAIL_STATE_H
#define RAIL_STATE_H

#include <stddef.h>
#include <stdint.h>

/* How many places the store of a struct has. 12 to 64 may be chosen, alike in all files of a program (-DRAIL_PLACES=24): one for each
 * of the 12 cells, and one more for each picture that a window or notification icon keeps after its cell was filled again. Where
 * every place is pointed at a further icon meets RAIL_NO_PLACE. With 64 this takes 64 different pictures at once. */
#ifndef RAIL_PLACES
#define RAIL_PLACES RAIL_PLACES_MAX
#endif
#if RAIL_PLACES < RAIL_PLACES_MIN || RAIL_PLACES > RAIL_PLACES_MAX
#error "RAIL_PLACES is 12 to 64"
#endif

struct rail_state {
    uint8_t index[RAIL_INDEX_SIZE];
    uint8_t bodies[RAIL_BODIES_SIZE];
    uint8_t store[RAIL_PLACES * RAIL_PLACE_SIZE];
    uint8_t journal[RAIL_JOURNAL_SIZE];
};

/* The store is lent in parts of 15 places, which are less than 64 KiB; the last ones are shorter, or empty. */
#define RAIL_PLACES_BEFORE(part) ((part) * 15 < RAIL_PLACES ? (part) * 15 : RAIL_PLACES)
#define RAIL_STATE_STORE(s, part)                                                                                 \
    (s)->store + RAIL_PLACES_BEFORE(part) * RAIL_PLACE_SIZE,                                                      \
        (size_t)(RAIL_PLACES_BEFORE((part) + 1) - RAIL_PLACES_BEFORE(part)) * RAIL_PLACE_SIZE
#define RAIL_STATE_PARTS(s)                                                                                       \
    (s)->index, sizeof(s)->index, (s)->bodies, sizeof(s)->bodies, RAIL_STATE_STORE(s, 0), RAIL_STATE_STORE(s, 1), \
        RAIL_STATE_STORE(s, 2), RAIL_STATE_STORE(s, 3), RAIL_STATE_STORE(s, 4), (s)->journal, sizeof(s)->journal

/* Empties, and fixes RAIL_PLACES places. */
static inline uint32_t rail_state_reset(struct rail_state *s) {
    return rail_reset(RAIL_STATE_PARTS(s));
}

/* Makes every byte zero, also where the compiler sees that none is read again. State memory so erased is to be emptied before use. */
static inline void rail_wipe(uint8_t *part, size_t size) {
    volatile uint8_t *p = part;
    while (size-- != 0)
        *p++ = 0;
}

/* Erases what the state held, so that nothing of the session before can be read from it, and empties it. */
static inline uint32_t rail_state_wipe(struct rail_state *s) {
    rail_wipe(s->index, sizeof s->index);
    rail_wipe(s->bodies, sizeof s->bodies);
    rail_wipe(s->store, sizeof s->store);
    rail_wipe(s->journal, sizeof s->journal);
    return rail_state_reset(s);
}

/* `order` may be NULL where `order_size` is 0. */
static inline uint32_t rail_state_deliver(struct rail_state *s, const uint8_t *order, size_t order_size) {
    return rail_deliver(RAIL_STATE_PARTS(s), order_size != 0 ? order : s->index, order_size);
}

/* The same of a whole update. */
static inline uint64_t rail_state_update(struct rail_state *s, uint32_t limit, const uint8_t *update, size_t update_size) {
    return rail_update(RAIL_STATE_PARTS(s), limit, update_size != 0 ? update : s->index, update_size);
}

/* What rail_state_deliver would answer to the order, and where the fault is. `order` may be NULL where `order_size` is 0. */
static inline uint32_t rail_state_explain(const struct rail_state *s, const uint8_t *order, size_t order_size) {
    return rail_explain(RAIL_STATE_PARTS(s), order_size != 0 ? order : s->index, order_size);
}

static inline uint32_t rail_state_checkpoint(struct rail_state *s) {
    return rail_checkpoint(RAIL_STATE_PARTS(s));
}

static inline uint32_t rail_state_undo(struct rail_state *s, uint64_t steps) {
    return rail_undo(RAIL_STATE_PARTS(s), steps);
}

/* How many orders stand after the mark and their bytes; changes nothing. */
static inline uint32_t rail_state_history(struct rail_state *s) {
    return rail_undo(RAIL_STATE_PARTS(s), 0);
}

static inline uint32_t rail_state_window(const struct rail_state *s, uint32_t window_id, uint8_t out[RAIL_WINDOW_SIZE]) {
    return rail_window(RAIL_STATE_PARTS(s), window_id, out, RAIL_WINDOW_SIZE);
}

static inline uint32_t rail_state_notification(const struct rail_state *s, uint32_t window_id, uint32_t notify_icon_id,
                                               uint8_t out[RAIL_NOTIFICATION_SIZE]) {
    return rail_notification(RAIL_STATE_PARTS(s), window_id, notify_icon_id, out, RAIL_NOTIFICATION_SIZE);
}

static inline uint32_t rail_state_cell(const struct rail_state *s, uint8_t cache_id, uint16_t cache_entry,
                                       uint8_t out[RAIL_PICTURE_SIZE]) {
    return rail_cell(RAIL_STATE_PARTS(s), cache_id, cache_entry, out, RAIL_PICTURE_SIZE);
}

static inline uint32_t rail_state_desktop(const struct rail_state *s, uint8_t out[RAIL_DESKTOP_SIZE]) {
    return rail_desktop(RAIL_STATE_PARTS(s), out, RAIL_DESKTOP_SIZE);
}

static inline uint32_t rail_state_windows(const struct rail_state *s, uint8_t out[RAIL_LIST_SIZE]) {
    return rail_windows(RAIL_STATE_PARTS(s), out, RAIL_LIST_SIZE);
}

static inline uint32_t rail_state_notifications(const struct rail_state *s, uint8_t out[RAIL_LIST_SIZE]) {
    return rail_notifications(RAIL_STATE_PARTS(s), out, RAIL_LIST_SIZE);
}

static inline uint32_t rail_state_record(const struct rail_state *s, uint8_t *out, size_t out_size) {
    return rail_record_write(RAIL_STATE_PARTS(s), out, out_size);
}

static inline uint32_t rail_state_figure(const struct rail_state *s, struct rail_figure *figure) {
    uint8_t out[RAIL_FIGURE_SIZE];
    const uint32_t answer = rail_figure(RAIL_STATE_PARTS(s), out, RAIL_FIGURE_SIZE);
    if (rail_number(answer) == RAIL_DONE)
        rail_figure_decode(figure, out);
    return answer;
}

/* ---- Whether two holders share a place */

struct rail_holder {
    enum rail_holder_kind kind;
    uint32_t first, second;
};

static inline struct rail_holder rail_holder_of(enum rail_holder_kind kind, uint32_t first, uint32_t second) {
    struct rail_holder holder;
    holder.kind = kind;
    holder.first = first;
    holder.second = second;
    return holder;
}

static inline struct rail_holder rail_cell_holder(uint8_t cache_id, uint16_t cache_entry) {
    return rail_holder_of(RAIL_HOLDER_CELL, cache_id, cache_entry);
}

static inline struct rail_holder rail_small_icon_holder(uint32_t window_id) {
    return rail_holder_of(RAIL_HOLDER_SMALL_ICON, window_id, 0);
}

static inline struct rail_holder rail_big_icon_holder(uint32_t window_id) {
    return rail_holder_of(RAIL_HOLDER_BIG_ICON, window_id, 0);
}

static inline struct rail_holder rail_overlay_icon_holder(uint32_t window_id) {
    return rail_holder_of(RAIL_HOLDER_OVERLAY_ICON, window_id, 0);
}

static inline struct rail_holder rail_notification_holder(uint32_t window_id, uint32_t notify_icon_id) {
    return rail_holder_of(RAIL_HOLDER_NOTIFICATION, window_id, notify_icon_id);
}

/* Where it is granted `*shared` is 1 or 0. */
static inline uint32_t rail_state_shared(const struct rail_state *s, struct rail_holder one, struct rail_holder other, uint8_t *shared) {
    return rail_shared(RAIL_STATE_PARTS(s), (uint8_t)one.kind, one.first, one.second, (uint8_t)other.kind, other.first, other.second,
                       shared, RAIL_SHARED_SIZE);
}

#endif
