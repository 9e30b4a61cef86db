/* How much was visible at the mark, and of each window and in all at any moment: the figure that an officer reads. Windows: those
 * with a show state other than 0, minimized ones too. Pixels: of each such window the points in its visibility rectangles, added up.
 * Right and bottom are outside; a rectangle whose left is not below its right, or whose top is not below its bottom, counts nothing;
 * points in several rectangles of one window count once. Windows are counted one by one, wherever they lie. The present figure stands
 * in what rail_window and rail_desktop hand out (`pixels`; `shown` and `pixels`, rail/records.h), and after rail_checkpoint it is this
 * one. rail_desktop counts it anew, window by window through the orders since the mark; rail_figure reads it. Included by rail.h. */
#ifndef RAIL_FIGURE_H
#define RAIL_FIGURE_H

#include <stddef.h>
#include <stdint.h>

#define RAIL_FIGURE_SIZE 12 /* windows (4), pixels (8); rail_size tells it too */

#ifdef __cplusplus
extern "C" {
#endif

/* Writes the figure of the table at the mark to the first RAIL_FIGURE_SIZE bytes of `out`; no other byte is written. The orders since
 * the mark do not count: after rail_checkpoint it is the figure of the present table. Refuses with 1, and then with 14 where `out` is
 * smaller. Answers as the state calls do. */
uint32_t rail_figure(RAIL_READ_STATE, RAIL_WRITE(out));

#ifdef __cplusplus
}
#endif

struct rail_figure {
    uint32_t windows;
    uint64_t pixels; /* up to 137,434,759,200: more than 32 bits */
};

static inline void rail_figure_decode(struct rail_figure *f, const uint8_t bytes[RAIL_FIGURE_SIZE]) {
    int i;
    f->windows = 0;
    f->pixels = 0;
    for (i = 3; i >= 0; i--)
        f->windows = f->windows << 8 | bytes[i];
    for (i = 11; i >= 4; i--)
        f->pixels = f->pixels << 8 | bytes[i];
}

#endif
