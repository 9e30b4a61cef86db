/* What the tests share: counting, memory with a fence behind it, orders built field by field. C11 and C++17. */
#ifndef CHECK_H
#define CHECK_H

#include "rail.h"

/* One test: counted, and printed where it fails. */
void check(int holds, const char *what, const char *file, int line);
#define CHECK(holds) check((holds) ? 1 : 0, #holds, __FILE__, __LINE__)

/* `size` bytes that end where a page begins that may not be touched: a read or write past them ends the program. */
uint8_t *fenced(size_t size);

/* Every byte of the `size` ones is `value`. */
int filled(const uint8_t *p, size_t size, uint8_t value);

/* The state that the tests use, each part before a fence of its own. The store has 64 places, cut as struct rail_state cuts it. */
struct parts {
    uint8_t *index, *bodies, *store[RAIL_STORE_PARTS], *journal;
    size_t store_size[RAIL_STORE_PARTS];
};
extern struct parts now;
#define PARTS(index_size, bodies_size, journal_size)                                                                \
    now.index, index_size, now.bodies, bodies_size, now.store[0], now.store_size[0], now.store[1],                  \
        now.store_size[1], now.store[2], now.store_size[2], now.store[3], now.store_size[3], now.store[4],          \
        now.store_size[4], now.journal, journal_size
#define NOW PARTS(RAIL_INDEX_SIZE, RAIL_BODIES_SIZE, RAIL_JOURNAL_SIZE)

struct parts new_parts(const size_t store_size[RAIL_STORE_PARTS], uint8_t value); /* filled with that value */
void empty_state(void);  /* empties it and checks that this is granted */
void remember(void);     /* keeps a copy of all its bytes */
int unchanged(void);     /* all its bytes are those kept */

/* The bytes of an order or a message. */
struct bytes {
    uint8_t *at;
    size_t size;
};
extern struct bytes order;

void put8(uint32_t number);
void put16(uint32_t number);
void put32(uint32_t number);
void put_run(size_t size, uint8_t first); /* first, first + 1, .. */
void put_string(size_t size, uint8_t first); /* its length before the run */
void put_rectangles(uint32_t count, uint8_t first);

void begin_window(uint32_t flags, uint32_t window_id); /* the type bit is added, here and below */
void begin_notification(uint32_t flags, uint32_t window_id, uint32_t notify_icon_id);
void begin_desktop(uint32_t flags);
void begin_message(uint32_t type);
void put_icon(uint32_t entry, uint32_t cache, uint32_t bpp, size_t mask, size_t table, size_t color, uint8_t first);

uint32_t deliver(void);  /* sets OrderSize and delivers the order */
void grant(void);        /* delivers it and checks that it is granted */
void refuse(uint32_t number); /* delivers it and checks the number, and that no byte of the state changed */

void test_constants(void);
void test_window(void);
void test_notification(void);
void test_desktop(void);
void test_pictures(void);
void test_kept_pictures(void);
void test_sent_once(void);
void test_newer(void);
void test_store(void);
void test_lookups(void);
void test_orders(void);
void test_memory(void);
void test_state_refusals(void);
void test_order_refusals(void);
void test_table_refusals(void);
void test_longer_parts(void);
void test_history(void);
void test_wrappers(void);
void test_decoders(void);
void test_reading(void);
void test_writing(void);
void test_counter(void);
void test_chunks(void);
void test_session_record(void);
void test_explanations(void);
void test_lists(void);
void test_figure(void);
void test_script(void);
void test_updates(void);
void test_stack(void);

#endif
