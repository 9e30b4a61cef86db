/* How much stack the calls take: each is made in a thread whose stack was painted before. */
#ifndef _DEFAULT_SOURCE
#define _DEFAULT_SOURCE
#endif
#include "check.h"

#include <pthread.h>

#define STACK 524288
#define OUT_SIZE 65536
#define STACK_MAX 16384 /* rail.h says so */
#define CALLS 22

static uint8_t *out;
/* A window with an icon, both lookups of it, whether they share, and a mark. */
static const uint8_t script[] = {
    RAIL_CALL_DELIVER, 11, 0, 0x2E, 11, 0, 0, 0, 0, 0x11, 7, 0, 0, 0,
    RAIL_CALL_DELIVER, 24, 0, 0x2E, 24, 0, 0, 0, 0, 0x41, 7, 0, 0, 0, 2, 0, 1, 32, 1, 0, 1, 0, 0, 0, 1, 0, 9,
    RAIL_CALL_WINDOW, 1, 0, 7, RAIL_CALL_CELL, 3, 0, 1, 2, 0,
    RAIL_CALL_SHARED, 14, 0, RAIL_HOLDER_CELL, 1, 0, 0, 0, 2, 0, 0, 0, RAIL_HOLDER_SMALL_ICON, 7, 0, 0, 0,
    RAIL_CALL_CHECKPOINT, 0, 0,
};

static void *call(void *argument) {
    static const uint32_t handshake[RAIL_WORDS] = {TS_RAIL_ORDER_HANDSHAKE, 7601, 0, 0, 0, 0, 0, 0, 0, 0, 0, 0};
    uint32_t words[RAIL_WORDS];
    switch (*(const int *)argument) {
    case 0: rail_size(0); break;
    case 1: rail_deliver(NOW, order.at, order.size); break;
    case 2: rail_undo(NOW, 1); break;
    case 3: rail_window(NOW, 7, out, OUT_SIZE); break;
    case 4: rail_notification(NOW, 7, 9, out, OUT_SIZE); break;
    case 5: rail_cell(NOW, 1, 2, out, OUT_SIZE); break;
    case 6: rail_desktop(NOW, out, OUT_SIZE); break;
    case 7: rail_checkpoint(NOW); break;
    case 8: rail_reset(NOW); break;
    case 9: rail_pdu_read(order.at, order.size, words); break;
    case 10: rail_chunk(out, OUT_SIZE, order.at, order.size, words); break;
    case 11: rail_update(NOW, 9, order.at, order.size); break;
    case 12: rail_record_write(NOW, out, OUT_SIZE); break;
    case 13: rail_windows(NOW, out, OUT_SIZE); break;
    case 14: rail_notifications(NOW, out, OUT_SIZE); break;
    case 15: rail_counter_read(order.at, order.size, words); break;
    case 16: rail_counter_write(handshake, order.at, 0, out, OUT_SIZE); break;
    case 17: rail_shared(NOW, RAIL_HOLDER_CELL, 1, 2, RAIL_HOLDER_SMALL_ICON, 7, 0, out, OUT_SIZE); break;
    case 18: rail_run(NOW, script, sizeof script, out, OUT_SIZE); break;
    case 19: rail_figure(NOW, out, OUT_SIZE); break;
    case 20: rail_explain(NOW, order.at, order.size); break;
    default: rail_pdu_write(handshake, order.at, 0, out, OUT_SIZE);
    }
    return NULL;
}

/* The bytes of stack that a thread takes with this call. */
static size_t used(uint8_t *stack, int which) {
    pthread_attr_t attributes;
    pthread_t thread;
    size_t untouched = 0;
    memset(stack, 0xA5, STACK);
    if (pthread_attr_init(&attributes) != 0 || pthread_attr_setstack(&attributes, stack, STACK) != 0 ||
        pthread_create(&thread, &attributes, call, &which) != 0)
        return STACK;
    pthread_join(thread, NULL);
    pthread_attr_destroy(&attributes);
    while (untouched < STACK && stack[untouched] == 0xA5)
        untouched++;
    return STACK - untouched;
}

/* A window that is shown, with 15 visibility rectangles one below the other and one over them all: each is cut around the one before it,
 * so that every call counts its pixels as deep as it can. */
static void put_deep_window(void) {
    uint32_t i;
    begin_window(WINDOW_ORDER_STATE_NEW | WINDOW_ORDER_FIELD_SHOW | WINDOW_ORDER_FIELD_VISIBILITY, 7);
    put8(RAIL_SHOW_NORMAL);
    put16(RAIL_RECTANGLES_MAX);
    for (i = 0; i < RAIL_RECTANGLES_MAX; i++) {
        const int last = i + 1 == RAIL_RECTANGLES_MAX;
        put16(0);
        put16(last ? 0 : 10 * i + 5);
        put16(1000);
        put16(last ? 1000 : 10 * i + 10);
    }
    grant();
}

/* Such a window at the mark; a notification icon and an icon after it. The order is the icon's. */
static void prepare_state(void) {
    empty_state();
    put_deep_window();
    CHECK(rail_checkpoint(NOW) == RAIL_DONE);
    begin_notification(WINDOW_ORDER_STATE_NEW, 7, 9);
    grant();
    begin_window(WINDOW_ORDER_ICON, 7);
    put_icon(2, 1, 32, 100, 0, 4000, 0);
    grant();
}

/* The longest message with one string. */
static void prepare_message(void) {
    begin_message(TS_RAIL_ORDER_GET_APPID_RESP);
    put_run(4 + RAIL_APPLICATION_ID_SIZE, 1);
    order.at[2] = 0x10;
    order.at[3] = 0x02;
}

/* The same in one chunk. */
static void prepare_chunk(void) {
    prepare_message();
    memmove(order.at + RAIL_CHUNK_HEAD_SIZE, order.at, order.size);
    order.size = 0;
    put32(0x210);
    put32(CHANNEL_FLAG_FIRST | CHANNEL_FLAG_LAST);
    order.size += 0x210;
}

void test_stack(void) {
    uint8_t *stack = fenced(STACK);
    size_t least;
    int which;
    out = fenced(OUT_SIZE);
    least = used(stack, 0);
    CHECK(least > 0 && least < STACK);
    for (which = 1; which < CALLS; which++) {
        prepare_state();
        CHECK(rail_chunk_reset(out, OUT_SIZE) == RAIL_DONE);
        if (which == 9 || which == 15)
            prepare_message();
        if (which == 10)
            prepare_chunk();
        CHECK(used(stack, which) < least + STACK_MAX);
    }
}
