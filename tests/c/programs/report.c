/* The report over rail.h, as the program rail_report prints it: items of a length (2 bytes) and that many bytes to deliver on
 * standard input, length 0 a mark, and a line for each mark. */
#include <stdio.h>

#include "rail.h"

static struct rail_state state;
static uint8_t bytes[65536];

int main(void) {
    struct rail_figure figure;
    unsigned long long mark = 0;
    uint8_t head[2];
    if (rail_state_reset(&state) != RAIL_DONE)
        return 1;
    puts("mark windows pixels");
    while (fread(head, 1, sizeof head, stdin) == sizeof head) {
        const size_t size = rail_get16(head);
        if (fread(bytes, 1, size, stdin) != size)
            break;
        if (size != 0) {
            rail_state_deliver(&state, bytes, size); /* a refused order is passed over */
            continue;
        }
        if (rail_state_checkpoint(&state) != RAIL_DONE || rail_state_figure(&state, &figure) != RAIL_DONE)
            return 1;
        printf("%llu %lu %llu\n", ++mark, (unsigned long)figure.windows, (unsigned long long)figure.pixels);
    }
    return 0;
}
