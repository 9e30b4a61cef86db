/* The session record: what is written, to outputs of each size that matters; reading, good and damaged; delivered again. */
#include "check.h"

static uint8_t *out, *room; /* each ends before a fence */
static struct rail_state again;

static void put_number(uint8_t *at, size_t size, uint32_t number) {
    size_t i;
    for (i = 0; i < size; i++)
        at[i] = (uint8_t)(number >> 8 * i & 255u);
}

/* Three orders, of which the second is a mark's. */
static void three_orders(void) {
    empty_state();
    begin_window(WINDOW_ORDER_STATE_NEW | WINDOW_ORDER_FIELD_TITLE, 7);
    put_string(4, 0x41);
    grant();
    CHECK(rail_number(rail_checkpoint(NOW)) == RAIL_DONE);
    begin_window(WINDOW_ORDER_FIELD_SHOW, 7);
    put8(5);
    grant();
    begin_desktop(WINDOW_ORDER_FIELD_DESKTOP_HOOKED);
    grant();
}

/* Writes to `size` bytes that end before the fence. */
static uint32_t write_to(size_t size) {
    memset(room, 0xEE, RAIL_RECORD_MAX);
    remember();
    return rail_record_write(NOW, room + RAIL_RECORD_MAX - size, size);
}

static void writing(void) {
    const uint8_t head[18] = {2, 0, 18, 0, 0, 0, 12, 0, 0, 0, 30, 0, 0, 0, 7, 0, 0, 0};
    uint32_t answer;
    three_orders();
    answer = write_to(RAIL_RECORD_MAX);
    CHECK(rail_number(answer) == RAIL_DONE && rail_count(answer) == 2 && rail_bytes(answer) == 19);
    CHECK(rail_record_length(answer) == 37 && unchanged());
    CHECK(memcmp(room, head, sizeof head) == 0 && room[18] == 0x2E && room[30] == 0x2E);
    CHECK(filled(room + 37, RAIL_RECORD_MAX - 37, 0xEE));
    memcpy(out, room, 37);
    CHECK(write_to(37) == answer && unchanged() && memcmp(room + RAIL_RECORD_MAX - 37, out, 37) == 0);
    CHECK(write_to(36) == RAIL_OUTPUT_TOO_SMALL && unchanged() && filled(room, RAIL_RECORD_MAX, 0xEE));
    CHECK(write_to(0) == RAIL_OUTPUT_TOO_SMALL && filled(room, RAIL_RECORD_MAX, 0xEE));
    CHECK(rail_record_length(RAIL_OUTPUT_TOO_SMALL) == 0);
    CHECK(rail_record_write(PARTS(RAIL_INDEX_SIZE - 1, RAIL_BODIES_SIZE, RAIL_JOURNAL_SIZE), room, 0) == RAIL_BAD_STATE);
}

/* The record in `out` has this answer, with no body to be had where that is a refusal. */
static int answers(size_t size, uint32_t answer) {
    uint8_t *record = room + RAIL_RECORD_MAX - size;
    memcpy(record, out, size);
    if (rail_record_check(record, size) != answer)
        return 0;
    return rail_number(answer) == RAIL_DONE || (rail_record_body(record, size, 0) == 0 && rail_record_body(record, size, 1) == 0);
}

static void reading(void) {
    uint32_t place;
    CHECK(answers(37, 2u * 256u + 19u * 65536u));
    place = rail_record_body(out, 37, 0);
    CHECK(rail_record_offset(place) == 18 && rail_record_size(place) == 12);
    place = rail_record_body(out, 37, 1);
    CHECK(rail_record_offset(place) == 30 && rail_record_size(place) == 7);
    CHECK(rail_record_body(out, 37, 2) == 0 && rail_record_body(out, 37, UINT32_MAX) == 0);
    CHECK(answers(0, RAIL_RECORD_CUT) && answers(1, RAIL_RECORD_CUT) && answers(17, RAIL_RECORD_CUT));
    CHECK(answers(36, RAIL_RECORD_CUT));
    out[37] = 0;
    CHECK(answers(38, RAIL_RECORD_DIFFERS));
    put_number(out + 2, 4, 19); /* an offset by one */
    CHECK(answers(37, RAIL_RECORD_DIFFERS));
    put_number(out + 2, 4, 0xFFFFFFFFu); /* a sum that wraps */
    CHECK(answers(37, RAIL_RECORD_CUT));
    put_number(out + 2, 4, 18);
    put_number(out, 2, 65535);
    CHECK(answers(37, RAIL_RECORD_CUT));
    put_number(out, 2, 0);
    CHECK(answers(2, RAIL_DONE) && answers(37, RAIL_RECORD_DIFFERS));
    put_number(out, 2, 2);
    CHECK(answers(37, 2u * 256u + 19u * 65536u));
}

/* The bodies, delivered to a state with the same table at its mark, give the same table. */
static void delivering(void) {
    uint8_t *before = fenced(RAIL_WINDOW_SIZE), *after = fenced(RAIL_WINDOW_SIZE);
    const size_t size = rail_record_length(rail_record_write(NOW, out, RAIL_RECORD_MAX));
    uint32_t i, count = rail_count(rail_record_check(out, size));
    CHECK(count == 2 && rail_number(rail_window(NOW, 7, before, RAIL_WINDOW_SIZE)) == RAIL_DONE);
    CHECK(rail_number(rail_state_reset(&again)) == RAIL_DONE);
    begin_window(WINDOW_ORDER_STATE_NEW | WINDOW_ORDER_FIELD_TITLE, 7);
    put_string(4, 0x41);
    put_number(order.at + 1, 2, (uint32_t)order.size);
    CHECK(rail_number(rail_state_deliver(&again, order.at, order.size)) == RAIL_DONE);
    CHECK(rail_number(rail_state_checkpoint(&again)) == RAIL_DONE);
    for (i = 0; i < count; i++) {
        const uint32_t place = rail_record_body(out, size, i);
        CHECK(rail_number(rail_state_deliver(&again, out + rail_record_offset(place), rail_record_size(place))) == RAIL_DONE);
    }
    CHECK(rail_number(rail_state_window(&again, 7, after)) == RAIL_DONE && memcmp(before, after, RAIL_WINDOW_SIZE) == 0);
    CHECK(rail_record_length(rail_state_record(&again, room, RAIL_RECORD_MAX)) == size && memcmp(room, out, size) == 0);
}

/* The longest record there is. */
static void longest(void) {
    uint32_t answer;
    unsigned i;
    empty_state();
    for (i = 0; i < RAIL_HISTORY_ORDERS_MAX - 9; i++) {
        begin_desktop(WINDOW_ORDER_FIELD_DESKTOP_HOOKED);
        grant();
    }
    begin_window(WINDOW_ORDER_STATE_NEW, 7);
    grant();
    for (i = 0; i < 8; i++) {
        const size_t left = RAIL_HISTORY_BYTES_MAX - (RAIL_HISTORY_ORDERS_MAX - 9) * 7 - 11 - 7 * (RAIL_ICON_BITS_MAX + 23);
        begin_window(WINDOW_ORDER_ICON, 7);
        put_icon(0, 0, 32, 100, 0, (i < 7 ? RAIL_ICON_BITS_MAX : left - 23) - 100, 1);
        grant();
    }
    answer = write_to(RAIL_RECORD_MAX);
    CHECK(rail_count(answer) == RAIL_HISTORY_ORDERS_MAX && rail_bytes(answer) == RAIL_HISTORY_BYTES_MAX);
    CHECK(rail_record_length(answer) == RAIL_RECORD_MAX && rail_record_check(room, RAIL_RECORD_MAX) == answer);
    CHECK(write_to(RAIL_RECORD_MAX - 1) == RAIL_OUTPUT_TOO_SMALL && filled(room, RAIL_RECORD_MAX, 0xEE));
}

void test_session_record(void) {
    out = fenced(RAIL_RECORD_MAX);
    room = fenced(RAIL_RECORD_MAX);
    CHECK(rail_size(RAIL_MEASURE_RECORD) == RAIL_RECORD_MAX);
    writing();
    reading();
    delivering();
    longest();
}
