/* struct rail_state with RAIL_PLACES as the compiler is told: so many pictures fit, and the next meets 17. The exit status is 0 where
 * they do. */
#include "rail.h"

static struct rail_state state;

/* A window's new order, or an icon of one pixel for its small or big icon, by way of cell 0/0. */
static uint32_t new_window(uint8_t id) {
    const uint8_t order[] = {RAIL_ORDER_FIRST_BYTE, 11, 0, 0, 0, 0, 0x11, id, 0, 0, 0};
    return rail_number(rail_state_deliver(&state, order, sizeof order));
}

static uint32_t give_icon(uint8_t id, int big) {
    const uint8_t order[] = {RAIL_ORDER_FIRST_BYTE, 24, 0, 0, (uint8_t)(big ? 0x20 : 0), 0, 0x41, id, 0, 0, 0, 0, 0, 0, 32, 1, 0, 1, 0, 0, 0, 1, 0, id};
    return rail_number(rail_state_deliver(&state, order, sizeof order));
}

/* A notification icon, which every window leaves without a place. */
static uint32_t give_notification_icon(void) {
    static const uint8_t order[] = {RAIL_ORDER_FIRST_BYTE, 28, 0, 0, 0, 0, 0x52, 1, 0, 0, 0, 1, 0, 0, 0, 0, 0, 0, 32, 1, 0, 1, 0, 0, 0, 1, 0, 9};
    return rail_number(rail_state_deliver(&state, order, sizeof order));
}

int main(void) {
    static uint8_t record[RAIL_WINDOW_SIZE];
    struct rail_picture p;
    uint8_t i;
    if (sizeof state != RAIL_INDEX_SIZE + RAIL_BODIES_SIZE + RAIL_JOURNAL_SIZE + RAIL_PLACES * RAIL_PLACE_SIZE)
        return 1;
    if (rail_state_history(&state) != RAIL_BAD_STATE || rail_state_reset(&state) != RAIL_DONE)
        return 1;
    for (i = 0; i < RAIL_WINDOWS_MAX; i++)
        if (new_window(i) != RAIL_DONE)
            return 1;
    for (i = 0; i < RAIL_PLACES; i++)
        if (give_icon(i / 2, i % 2) != RAIL_DONE)
            return 1;
    if (give_notification_icon() != RAIL_NO_PLACE || rail_number(rail_state_checkpoint(&state)) != RAIL_DONE)
        return 1;
    for (i = 0; i < RAIL_PLACES; i++) {
        if (rail_number(rail_state_window(&state, i / 2, record)) != RAIL_DONE)
            return 1;
        p = i % 2 == 0 ? rail_window_small_icon(record) : rail_window_big_icon(record);
        if (!p.present || p.cb_bits_color != 1 || p.bits_color[0] != i / 2)
            return 1;
    }
    return give_notification_icon() == RAIL_NO_PLACE ? 0 : 1;
}
