/* The figure at the mark and at any moment: what counts, what does not, totals past 32 bits, outputs of each size that matters, and
 * stored figures that are wrong. */
#include "check.h"

static uint8_t *room; /* ends before a fence */

static void put_rectangle(uint32_t left, uint32_t top, uint32_t right, uint32_t bottom) {
    put16(left);
    put16(top);
    put16(right);
    put16(bottom);
}

static void show(uint32_t window_id, uint32_t state) {
    begin_window(WINDOW_ORDER_FIELD_SHOW, window_id);
    put8(state);
    grant();
}

/* A new window with this show state and one rectangle. */
static void new_window(uint32_t window_id, uint32_t state, uint32_t left, uint32_t top, uint32_t right, uint32_t bottom) {
    begin_window(WINDOW_ORDER_STATE_NEW | WINDOW_ORDER_FIELD_SHOW | WINDOW_ORDER_FIELD_VISIBILITY, window_id);
    put8(state);
    put16(1);
    put_rectangle(left, top, right, bottom);
    grant();
}

/* Document 02's window: 0,0,10,10 and 5,5,15,15. */
static void two_rectangles(void) {
    begin_window(WINDOW_ORDER_STATE_NEW | WINDOW_ORDER_FIELD_SHOW | WINDOW_ORDER_FIELD_VISIBILITY, 1);
    put8(5);
    put16(2);
    put_rectangle(0, 0, 10, 10);
    put_rectangle(5, 5, 15, 15);
    grant();
}

/* The figure at the mark is this one; neither the state nor a byte past the figure changes. */
static int is(uint32_t windows, uint64_t pixels) {
    struct rail_figure f;
    memset(room, 0xEE, RAIL_FIGURE_SIZE);
    remember();
    if (rail_number(rail_figure(NOW, room, RAIL_FIGURE_SIZE)) != RAIL_DONE || !unchanged())
        return 0;
    rail_figure_decode(&f, room);
    return f.windows == windows && f.pixels == pixels;
}

/* The present figure, which the desktop state has, and what this window has of it. */
static int present_is(uint32_t windows, uint64_t pixels, uint32_t window_id, uint32_t of_window) {
    static uint8_t record[RAIL_WINDOW_SIZE];
    struct rail_desktop d;
    struct rail_window w;
    remember();
    if (rail_number(rail_desktop(NOW, record, RAIL_DESKTOP_SIZE)) != RAIL_DONE)
        return 0;
    rail_desktop_decode(&d, record);
    if (rail_number(rail_window(NOW, window_id, record, RAIL_WINDOW_SIZE)) != RAIL_DONE || !unchanged())
        return 0;
    rail_window_decode(&w, record);
    return d.shown == windows && d.pixels == pixels && w.pixels == of_window;
}

/* The totals alone, where no window is looked up. */
static int totals_are(uint32_t windows, uint64_t pixels) {
    uint8_t record[RAIL_DESKTOP_SIZE];
    struct rail_desktop d;
    if (rail_number(rail_desktop(NOW, record, sizeof record)) != RAIL_DONE)
        return 0;
    rail_desktop_decode(&d, record);
    return d.shown == windows && d.pixels == pixels;
}

static int marked_is(uint32_t windows, uint64_t pixels) {
    return rail_checkpoint(NOW) == RAIL_DONE && is(windows, pixels);
}

static void counting(void) {
    empty_state();
    CHECK(is(0, 0));
    two_rectangles();
    CHECK(is(0, 0)); /* the mark is before it */
    CHECK(marked_is(1, 175));
    show(1, 0);
    CHECK(is(1, 175) && marked_is(0, 0));
    show(1, 2); /* minimized */
    CHECK(marked_is(1, 175));
    new_window(2, 5, 3, 3, 4, 4);
    CHECK(rail_number(rail_undo(NOW, 1)) == RAIL_DONE && marked_is(1, 175));
    new_window(2, 5, 0, 0, 10, 10); /* what two windows have in common counts twice */
    CHECK(marked_is(2, 275));
    new_window(3, 5, 10, 0, 9, 10);
    new_window(4, 5, 0, 10, 10, 10);
    new_window(5, 0, 0, 0, 100, 100);
    CHECK(marked_is(4, 275));
    begin_window(WINDOW_ORDER_STATE_DELETED, 1);
    grant();
    CHECK(marked_is(3, 100));
    begin_desktop(WINDOW_ORDER_FIELD_DESKTOP_NONE);
    grant();
    CHECK(marked_is(0, 0));
}

/* A window's rectangles alone: this one. */
static void move(uint32_t window_id, uint32_t right, uint32_t bottom) {
    begin_window(WINDOW_ORDER_FIELD_VISIBILITY, window_id);
    put16(1);
    put_rectangle(0, 0, right, bottom);
    grant();
}

static void at_any_moment(void) {
    empty_state();
    CHECK(totals_are(0, 0));
    two_rectangles();
    CHECK(is(0, 0) && present_is(1, 175, 1, 175));
    show(1, 0); /* the show state alone: what its rectangles have is kept and not counted */
    CHECK(present_is(0, 0, 1, 0));
    CHECK(rail_checkpoint(NOW) == RAIL_DONE && present_is(0, 0, 1, 0));
    show(1, 3);
    CHECK(is(0, 0) && present_is(1, 175, 1, 175));
    move(1, 2, 3); /* rectangles alone */
    CHECK(present_is(1, 6, 1, 6));
    show(1, 0);
    move(1, 7, 7);
    CHECK(present_is(0, 0, 1, 0));
    CHECK(rail_number(rail_undo(NOW, 2)) == RAIL_DONE && present_is(1, 6, 1, 6));
    new_window(2, 5, 0, 0, 10, 10);
    CHECK(present_is(2, 106, 2, 100) && present_is(2, 106, 1, 6));
    begin_window(WINDOW_ORDER_STATE_DELETED, 1);
    grant();
    CHECK(present_is(1, 100, 2, 100));
    begin_window(WINDOW_ORDER_STATE_NEW, 1); /* what was deleted left nothing */
    grant();
    show(1, 5);
    CHECK(present_is(2, 100, 1, 0));
    begin_window(WINDOW_ORDER_FIELD_SHOW, 3);
    put8(5);
    refuse(RAIL_UNKNOWN_ID);
    CHECK(present_is(2, 100, 2, 100));
    begin_desktop(WINDOW_ORDER_FIELD_DESKTOP_NONE);
    grant();
    CHECK(totals_are(0, 0));
    CHECK(rail_number(rail_undo(NOW, 1)) == RAIL_DONE && present_is(2, 100, 2, 100));
    empty_state();
    CHECK(totals_are(0, 0));
}

/* The figures stand behind the index: 4 bytes for each window, 4 and 8 for the totals. */
#define FIGURES (4 * RAIL_WINDOWS_MAX + RAIL_FIGURE_SIZE)

/* Whichever byte of them is another, every call but an emptying answers 1 and changes nothing. */
static void wrong_figures(void) {
    static uint8_t record[RAIL_WINDOW_SIZE];
    size_t i;
    int found = 0;
    empty_state();
    two_rectangles();
    new_window(2, 0, 0, 0, 10, 10);
    CHECK(rail_checkpoint(NOW) == RAIL_DONE);
    show(2, 5);
    for (i = RAIL_INDEX_SIZE - FIGURES; i < RAIL_INDEX_SIZE; i++) {
        now.index[i] ^= 1;
        remember();
        found += deliver() == RAIL_BAD_STATE && rail_undo(NOW, 0) == RAIL_BAD_STATE && rail_checkpoint(NOW) == RAIL_BAD_STATE &&
                 rail_window(NOW, 1, record, sizeof record) == RAIL_BAD_STATE && rail_desktop(NOW, record, sizeof record) == RAIL_BAD_STATE &&
                 rail_figure(NOW, room, RAIL_FIGURE_SIZE) == RAIL_BAD_STATE && unchanged();
        now.index[i] ^= 1;
    }
    CHECK(found == FIGURES);
    CHECK(present_is(2, 275, 2, 100));
    now.index[RAIL_INDEX_SIZE - 1] ^= 1;
    empty_state();
    CHECK(totals_are(0, 0));
}

static void most(void) {
    uint32_t i;
    empty_state();
    for (i = 0; i < RAIL_WINDOWS_MAX; i++)
        new_window(i, 5, 0, 0, 65535, 65535);
    CHECK(present_is(RAIL_WINDOWS_MAX, (uint64_t)32 * 65535 * 65535, 0, 65535u * 65535u));
    CHECK(marked_is(RAIL_WINDOWS_MAX, (uint64_t)32 * 65535 * 65535));
}

static void refusals(void) {
    static struct rail_state state;
    struct rail_figure f;
    uint32_t answer;
    empty_state();
    two_rectangles();
    memset(room, 0xEE, RAIL_FIGURE_SIZE);
    CHECK(rail_figure(NOW, room + 1, RAIL_FIGURE_SIZE - 1) == RAIL_OUTPUT_TOO_SMALL);
    CHECK(rail_figure(NOW, room + RAIL_FIGURE_SIZE, 0) == RAIL_OUTPUT_TOO_SMALL);
    CHECK(rail_figure(PARTS(RAIL_INDEX_SIZE - 1, RAIL_BODIES_SIZE, RAIL_JOURNAL_SIZE), room, 0) == RAIL_BAD_STATE);
    CHECK(filled(room, RAIL_FIGURE_SIZE, 0xEE));
    answer = rail_figure(NOW, room, RAIL_FIGURE_SIZE);
    CHECK(rail_number(answer) == RAIL_DONE && rail_count(answer) == 1 && rail_bytes(answer) == 30);
    now.journal[0] = 200;
    CHECK(rail_figure(NOW, room, RAIL_FIGURE_SIZE) == RAIL_BAD_STATE);
    CHECK(rail_state_reset(&state) == RAIL_DONE && rail_number(rail_state_deliver(&state, order.at, order.size)) == RAIL_DONE);
    CHECK(rail_state_checkpoint(&state) == RAIL_DONE && rail_state_figure(&state, &f) == RAIL_DONE && f.windows == 1 && f.pixels == 175);
}

void test_figure(void) {
    room = fenced(RAIL_FIGURE_SIZE);
    CHECK(rail_size(RAIL_MEASURE_FIGURE) == RAIL_FIGURE_SIZE);
    counting();
    at_any_moment();
    wrong_figures();
    most();
    refusals();
}
