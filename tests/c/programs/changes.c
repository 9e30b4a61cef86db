/* Reads a call script and prints for each delivery, granted or not, what rail_change_of tells of its bytes: kind, flags, window id,
 * notify-icon id and the cell filled. rust/rail/examples/changes.rs prints the same of Changed. */
#include <stdlib.h>

#include "script.h"

static void print_change(const uint8_t *order, size_t size) {
    const struct rail_change c = rail_change_of(order, size);
    printf("%d %08X %u %u ", (int)c.kind, (unsigned)c.flags, (unsigned)c.window_id, (unsigned)c.notify_icon_id);
    if (c.filled.present)
        printf("%u/%u", c.filled.cache_id, c.filled.cache_entry);
    printf("%s\n", rail_begins_sync(order, size) ? " sync" : "");
}

int main(void) {
    static struct item item;
    while (next_item(&item) == 1) {
        uint8_t *order = malloc(item.size != 0 ? item.size : 1); /* of its size, so that a read past it is seen */
        if (order == NULL)
            return 1;
        memcpy(order, item.payload, item.size);
        if (item.kind == 'D')
            print_change(order, item.size);
        free(order);
    }
    return 0;
}
