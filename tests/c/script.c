/* rail_run: a list of calls in one gives what the calls give one by one. */
#include "check.h"

#include <string.h>

static uint8_t script[4096], expected[65536 + 2 * RAIL_RECORD_MAX];
static size_t script_size, expected_size, calls;

/* The block of a call that was answered so, with `size` bytes for a record. */
static uint8_t *block(uint32_t answer, size_t size) {
    uint8_t *const at = expected + expected_size;
    unsigned i;
    for (i = 0; i < 4; i++)
        at[i] = (uint8_t)(answer >> 8 * i & 255u);
    memset(at + 4, 0, size);
    expected_size += 4 + size;
    return at + 4;
}

static void add(uint8_t kind, const uint8_t *arg, size_t size) {
    script[script_size] = kind;
    script[script_size + 1] = (uint8_t)(size & 255u);
    script[script_size + 2] = (uint8_t)(size >> 8 & 255u);
    if (size != 0)
        memcpy(script + script_size + 3, arg, size);
    script_size += 3 + size;
    calls++;
}

static void add_order(void) {
    block(deliver(), 0);
    add(RAIL_CALL_DELIVER, order.at, order.size);
}

static void add_undo(uint8_t steps, uint8_t highest) {
    const uint8_t arg[8] = {steps, 0, 0, 0, 0, 0, 0, highest};
    block(rail_undo(NOW, steps | (uint64_t)highest << 56), 0);
    add(RAIL_CALL_UNDO, arg, sizeof arg);
}

/* The answer is put before what was written behind it. */
static void answered(uint8_t *record, uint32_t answer) {
    unsigned i;
    for (i = 0; i < 4; i++)
        (record - 4)[i] = (uint8_t)(answer >> 8 * i & 255u);
}

static void add_window(uint8_t id) {
    uint8_t *const record = block(0, RAIL_WINDOW_SIZE);
    answered(record, rail_window(NOW, id, record, RAIL_WINDOW_SIZE));
    add(RAIL_CALL_WINDOW, &id, 1); /* bytes that are missing count 0 */
}

static void add_notification(uint8_t id, uint8_t icon) {
    const uint8_t arg[8] = {id, 0, 0, 0, icon, 0, 0, 0};
    uint8_t *const record = block(0, RAIL_NOTIFICATION_SIZE);
    answered(record, rail_notification(NOW, id, icon, record, RAIL_NOTIFICATION_SIZE));
    add(RAIL_CALL_NOTIFICATION, arg, sizeof arg);
}

static void add_cell(uint8_t cache, uint8_t entry) {
    const uint8_t arg[3] = {cache, entry, 0};
    uint8_t *const record = block(0, RAIL_PICTURE_SIZE);
    answered(record, rail_cell(NOW, cache, entry, record, RAIL_PICTURE_SIZE));
    add(RAIL_CALL_CELL, arg, sizeof arg);
}

static void add_desktop(void) {
    uint8_t *const record = block(0, RAIL_DESKTOP_SIZE);
    answered(record, rail_desktop(NOW, record, RAIL_DESKTOP_SIZE));
    add(RAIL_CALL_DESKTOP, script, 0);
}

/* Its report takes 8 bytes. */
static void add_update(uint8_t limit) {
    static uint8_t arg[4 + 3 * 7] = {0, 0, 0, 0, 0x2E, 7, 0, 2, 0, 0, 4, 0x2E, 7, 0, 4, 0, 0, 4, 0x2E, 7, 0, 0x80, 0, 0, 4};
    const uint64_t report = rail_update(NOW, limit, arg + 4, sizeof arg - 4);
    uint8_t *const more = block(rail_update_answer(report), 4);
    unsigned i;
    for (i = 0; i < 4; i++)
        more[i] = (uint8_t)(report >> (32 + 8 * i) & 255u);
    arg[0] = limit;
    add(RAIL_CALL_UPDATE, arg, sizeof arg);
}

static void add_record(void) {
    uint8_t *const record = block(0, RAIL_RECORD_MAX);
    answered(record, rail_record_write(NOW, record, RAIL_RECORD_MAX));
    add(RAIL_CALL_RECORD, script, 0);
}

static void add_lists(void) {
    uint8_t *list = block(0, RAIL_LIST_SIZE);
    answered(list, rail_windows(NOW, list, RAIL_LIST_SIZE));
    add(RAIL_CALL_WINDOWS, script, 0);
    list = block(0, RAIL_LIST_SIZE);
    answered(list, rail_notifications(NOW, list, RAIL_LIST_SIZE));
    add(RAIL_CALL_NOTIFICATIONS, script, 0);
}

static void add_shared(uint8_t cache, uint8_t entry, uint8_t window) {
    const uint8_t arg[18] = {RAIL_HOLDER_CELL, cache, 0, 0, 0, entry, 0, 0, 0, RAIL_HOLDER_SMALL_ICON, window, 0, 0, 0, 0, 0, 0, 0};
    uint8_t *const shared = block(0, RAIL_SHARED_SIZE);
    answered(shared, rail_shared(NOW, RAIL_HOLDER_CELL, cache, entry, RAIL_HOLDER_SMALL_ICON, window, 0, shared, RAIL_SHARED_SIZE));
    add(RAIL_CALL_SHARED, arg, sizeof arg);
}

static void add_calls(void) {
    begin_window(WINDOW_ORDER_STATE_NEW | WINDOW_ORDER_FIELD_TITLE, 7);
    put_string(40, 0x41);
    add_order();
    add_order(); /* 9 */
    begin_window(WINDOW_ORDER_ICON, 7);
    put_icon(2, 1, 24, 4, 0, 8, 0x10);
    add_order();
    add_window(7);
    add_window(8); /* 9 */
    add_cell(1, 2);
    add_cell(2, 0); /* 9 */
    add_shared(1, 2, 7);
    add_shared(1, 2, 8); /* 9 */
    block(rail_checkpoint(NOW), 0);
    add(RAIL_CALL_CHECKPOINT, script, 0);
    begin_notification(WINDOW_ORDER_STATE_NEW | WINDOW_ORDER_FIELD_NOTIFY_TIP, 7, 3);
    put_string(20, 0x61);
    add_order();
    add_notification(7, 3);
    add_lists();
    begin_desktop(WINDOW_ORDER_FIELD_DESKTOP_ACTIVEWND);
    put32(7);
    add_order();
    add_desktop();
    add_record();
    add_undo(1, 0);
    add_undo(1, 1); /* 13: more than 32 bits of steps */
    add_desktop();
    add_undo(1, 0);
    add_update(0);
    add_update(1);
    add_update(9); /* the third meets 5 */
    add_notification(7, 3); /* 9 */
}

static int ends(uint64_t answer, uint32_t number, uint64_t done) {
    return rail_run_number(answer) == number && rail_run_calls(answer) == done;
}

void test_script(void) {
    static struct rail_state other;
    static uint8_t out[sizeof expected];
    size_t last;
    script_size = expected_size = calls = 0;
    empty_state();
    add_calls();
    last = expected_size;
    memset(&other, 0xA5, sizeof other);
    memset(out, 0xA5, sizeof out);
#define OTHER                                                                                                       \
    other.index, RAIL_INDEX_SIZE, other.bodies, RAIL_BODIES_SIZE, RAIL_STATE_STORE(&other, 0),                      \
        RAIL_STATE_STORE(&other, 1), RAIL_STATE_STORE(&other, 2), RAIL_STATE_STORE(&other, 3),                      \
        RAIL_STATE_STORE(&other, 4), other.journal
    CHECK(rail_run(OTHER, RAIL_JOURNAL_SIZE - 1, script, script_size, out, sizeof out) == RAIL_BAD_STATE);
    CHECK(filled((const uint8_t *)&other, sizeof other, 0xA5) && filled(out, sizeof out, 0xA5));
    CHECK(ends(rail_run(OTHER, RAIL_JOURNAL_SIZE, script, script_size, out, last), RAIL_DONE, calls));
    CHECK(memcmp(out, expected, last) == 0);
    CHECK(filled(out + last, sizeof out - last, 0xA5));
    CHECK(memcmp(other.index, now.index, RAIL_INDEX_SIZE) == 0);
    /* no script at all: emptied, and nothing done */
    CHECK(ends(rail_run(OTHER, RAIL_JOURNAL_SIZE, script, 0, out, 0), RAIL_DONE, 0));
    CHECK(rail_number(rail_window(OTHER, RAIL_JOURNAL_SIZE, 7, out, sizeof out)) == RAIL_UNKNOWN_ID);
    /* a cut script and an output that is a byte short do all but the last call */
    memset(out, 0xA5, sizeof out);
    CHECK(ends(rail_run(OTHER, RAIL_JOURNAL_SIZE, script, script_size - 1, out, sizeof out), RAIL_LENGTH_DIFFERS, calls - 1));
    CHECK(ends(rail_run(OTHER, RAIL_JOURNAL_SIZE, script, script_size, out, last - 1), RAIL_OUTPUT_TOO_SMALL, calls - 1));
    last -= 4 + RAIL_NOTIFICATION_SIZE;
    CHECK(memcmp(out, expected, last) == 0);
    CHECK(filled(out + last, sizeof out - last, 0xA5));
    /* an emptying, and then an item that is no call: less than its head, cut, of an unknown kind, and in this order */
    add(RAIL_CALL_RESET, script, 0);
    add(RAIL_CALL_WINDOW, script, 0);
    script[script_size] = RAIL_CALL_SHARED + 1;
    script[script_size + 1] = script[script_size + 2] = 0;
    CHECK(ends(rail_run(OTHER, RAIL_JOURNAL_SIZE, script, script_size + 2, out, sizeof out), RAIL_TOO_SHORT, calls));
    CHECK(ends(rail_run(OTHER, RAIL_JOURNAL_SIZE, script, script_size + 3, out, sizeof out), RAIL_UNKNOWN_TYPE, calls));
    script[script_size + 1] = 1;
    CHECK(ends(rail_run(OTHER, RAIL_JOURNAL_SIZE, script, script_size + 3, out, sizeof out), RAIL_LENGTH_DIFFERS, calls));
    CHECK(ends(rail_run(OTHER, RAIL_JOURNAL_SIZE, script, script_size, out, sizeof out), RAIL_DONE, calls));
    CHECK(rail_undo(OTHER, RAIL_JOURNAL_SIZE, 0) == RAIL_DONE);
    CHECK(rail_number(rail_window(OTHER, RAIL_JOURNAL_SIZE, 7, out, sizeof out)) == RAIL_UNKNOWN_ID);
}
