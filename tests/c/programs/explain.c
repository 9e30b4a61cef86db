/* What rail_explain prints, over rail.h: a state and an order in files named as the arguments; one that cannot be read is empty. */
#include "rail.h"

#include <stdio.h>

static uint8_t part[8][RAIL_PLACE_SIZE * 15];
static uint8_t order[65536];

/* As much of a file as there is room for. */
static size_t fill(FILE *file, uint8_t *to, size_t room) {
    return file != NULL ? fread(to, 1, room, file) : 0;
}

int main(int count, char **names) {
    /* in the file: index, bodies, journal, then places */
    static const size_t room[8] = {RAIL_INDEX_SIZE, RAIL_BODIES_SIZE, RAIL_JOURNAL_SIZE, RAIL_PLACE_SIZE * 15, RAIL_PLACE_SIZE * 15,
                                   RAIL_PLACE_SIZE * 15, RAIL_PLACE_SIZE * 15, RAIL_PLACE_SIZE * 4};
    FILE *files[2] = {NULL, NULL};
    size_t size[8], order_size;
    uint32_t told;
    int i;
    for (i = 0; i < 2 && i + 1 < count; i++)
        files[i] = fopen(names[i + 1], "rb");
    for (i = 0; i < 8; i++)
        size[i] = fill(files[0], part[i], room[i]);
    order_size = fill(files[1], order, sizeof order);
    told = rail_explain(part[0], size[0], part[1], size[1], part[3], size[3], part[4], size[4], part[5], size[5], part[6], size[6], part[7],
                        size[7], part[2], size[2], order, order_size);
    printf("%u\n%s\n", rail_number(told), rail_number_words(rail_number(told)));
    if (rail_number(told) != RAIL_DONE)
        printf("%u\n", (unsigned)rail_offset(told));
    for (i = 0; i < 2; i++)
        if (files[i] != NULL)
            fclose(files[i]);
    return 0;
}
