/* The records that lookups hand out: where each field stands in the bytes, and plain structs with functions that fill them.
 * All numbers are little-endian. A field has room for the most it may take, with zeros after its end. Included by rail.h. */
#ifndef RAIL_RECORDS_H
#define RAIL_RECORDS_H

#include <stddef.h>
#include <stdint.h>
#include <string.h>

/* ---- Places: a window (RAIL_WINDOW_SIZE bytes) */

#define RAIL_WINDOW_AT_SMALL_ICON 0           /* 1 byte: 1 where it shows a small picture, else 0 */
#define RAIL_WINDOW_AT_BIG_ICON 1             /* 1, as above */
#define RAIL_WINDOW_AT_OWNER_WINDOW_ID 2      /* 4 */
#define RAIL_WINDOW_AT_STYLE 6                /* 4 */
#define RAIL_WINDOW_AT_EXTENDED_STYLE 10      /* 4 */
#define RAIL_WINDOW_AT_SHOW_STATE 14          /* 1: RAIL_SHOW_... */
#define RAIL_WINDOW_AT_TITLE_BYTES 15         /* 2 */
#define RAIL_WINDOW_AT_TITLE 17               /* up to 520: UTF-16LE, no zero at the end */
#define RAIL_WINDOW_AT_CLIENT_OFFSET_X 537    /* 4, signed */
#define RAIL_WINDOW_AT_CLIENT_OFFSET_Y 541    /* 4, signed */
#define RAIL_WINDOW_AT_CLIENT_AREA_WIDTH 545  /* 4 */
#define RAIL_WINDOW_AT_CLIENT_AREA_HEIGHT 549 /* 4 */
#define RAIL_WINDOW_AT_RP_CONTENT 553         /* 1: 0 or 1 */
#define RAIL_WINDOW_AT_ROOT_PARENT_HANDLE 554 /* 4 */
#define RAIL_WINDOW_AT_WINDOW_OFFSET_X 558    /* 4, signed */
#define RAIL_WINDOW_AT_WINDOW_OFFSET_Y 562    /* 4, signed */
#define RAIL_WINDOW_AT_CLIENT_DELTA_X 566     /* 4, signed */
#define RAIL_WINDOW_AT_CLIENT_DELTA_Y 570     /* 4, signed */
#define RAIL_WINDOW_AT_WINDOW_WIDTH 574       /* 4 */
#define RAIL_WINDOW_AT_WINDOW_HEIGHT 578      /* 4 */
#define RAIL_WINDOW_AT_NUM_WINDOW_RECTS 582   /* 2 */
#define RAIL_WINDOW_AT_WINDOW_RECTS 584       /* up to 16 of RAIL_RECTANGLE_SIZE: left, top, right, bottom, 2 each */
#define RAIL_WINDOW_AT_VISIBLE_OFFSET_X 712   /* 4, signed */
#define RAIL_WINDOW_AT_VISIBLE_OFFSET_Y 716   /* 4, signed */
#define RAIL_WINDOW_AT_NUM_VISIBILITY_RECTS 720 /* 2 */
#define RAIL_WINDOW_AT_VISIBILITY_RECTS 722   /* as WINDOW_RECTS */
#define RAIL_WINDOW_AT_SMALL_PICTURE 850      /* RAIL_PICTURE_SIZE, zeros where there is none */
#define RAIL_WINDOW_AT_BIG_PICTURE 5085       /* as above */
/* Newer servers' fields stand behind all others, which are where they were before these. */
#define RAIL_WINDOW_AT_OVERLAY_ICON 9320      /* 1, as SMALL_ICON; byte 9321 is 0 */
#define RAIL_WINDOW_AT_LEFT_RESIZE_MARGIN 9322 /* 4 */
#define RAIL_WINDOW_AT_RIGHT_RESIZE_MARGIN 9326 /* 4 */
#define RAIL_WINDOW_AT_TOP_RESIZE_MARGIN 9330 /* 4 */
#define RAIL_WINDOW_AT_BOTTOM_RESIZE_MARGIN 9334 /* 4 */
#define RAIL_WINDOW_AT_OVERLAY_DESCRIPTION_BYTES 9338 /* 2 */
#define RAIL_WINDOW_AT_OVERLAY_DESCRIPTION 9340 /* up to 520, as TITLE */
#define RAIL_WINDOW_AT_TASKBAR_BUTTON 9860    /* 1: 0 or 1 */
#define RAIL_WINDOW_AT_ENFORCE_SERVER_Z_ORDER 9861 /* 1: 0 or 1 */
#define RAIL_WINDOW_AT_APP_BAR_STATE 9862     /* 1: 0 or 1 */
#define RAIL_WINDOW_AT_APP_BAR_EDGE 9863      /* 1: 0 to 3 */
#define RAIL_WINDOW_AT_OVERLAY_PICTURE 9864   /* as SMALL_PICTURE */
#define RAIL_WINDOW_AT_PIXELS (RAIL_WINDOW_SIZE - 4) /* 4, behind all others: what of it is visible (rail/figure.h), 0 where not shown */
#define RAIL_RECTANGLE_SIZE 8

/* ---- Places: a notification icon (RAIL_NOTIFICATION_SIZE) */

#define RAIL_NOTIFICATION_AT_ICON 0           /* 1, as a window's; byte 1 is 0 */
#define RAIL_NOTIFICATION_AT_VERSION 2        /* 4 */
#define RAIL_NOTIFICATION_AT_TOOL_TIP_BYTES 6 /* 2 */
#define RAIL_NOTIFICATION_AT_TOOL_TIP 8       /* up to 256 */
#define RAIL_NOTIFICATION_AT_TIMEOUT 264      /* 4, of the balloon, as the next five */
#define RAIL_NOTIFICATION_AT_INFO_FLAGS 268   /* 4: NIIF_... */
#define RAIL_NOTIFICATION_AT_INFO_TIP_TEXT_BYTES 272 /* 2 */
#define RAIL_NOTIFICATION_AT_INFO_TIP_TEXT 274 /* up to 510 */
#define RAIL_NOTIFICATION_AT_TITLE_BYTES 784  /* 2 */
#define RAIL_NOTIFICATION_AT_TITLE 786        /* up to 126 */
#define RAIL_NOTIFICATION_AT_STATE 912        /* 4 */
#define RAIL_NOTIFICATION_AT_PICTURE 916      /* as a window's */

/* ---- Places: the desktop state (RAIL_DESKTOP_SIZE) */

#define RAIL_DESKTOP_AT_HOOKED 0              /* 1: 0 or 1 */
#define RAIL_DESKTOP_AT_SYNCING 1             /* 1: 1 after ..._ARC_BEGAN, until ..._ARC_COMPLETED */
#define RAIL_DESKTOP_AT_ACTIVE_WINDOW_ID 2    /* 4 */
#define RAIL_DESKTOP_AT_NUM_WINDOW_IDS 6      /* 1 */
#define RAIL_DESKTOP_AT_WINDOW_IDS 7          /* up to 64 of 4 bytes: the z-order as the server sent it */
#define RAIL_DESKTOP_AT_SHOWN (RAIL_DESKTOP_SIZE - 12) /* 4, behind all others: the windows with a show state other than 0, */
#define RAIL_DESKTOP_AT_PIXELS (RAIL_DESKTOP_SIZE - 8) /* 8: and their pixels added up */

/* ---- Places: a picture (RAIL_PICTURE_SIZE), which is a TS_ICON_INFO from Bpp on. Then come, each of 2 bytes, CbColorTable (only
 * where Bpp is 1, 4 or 8), CbBitsMask and CbBitsColor, and then BitsMask, ColorTable and BitsColor. */

#define RAIL_PICTURE_AT_BPP 0                 /* 1 */
#define RAIL_PICTURE_AT_WIDTH 1               /* 2 */
#define RAIL_PICTURE_AT_HEIGHT 3              /* 2 */
#define RAIL_PICTURE_AT_LENGTHS 5

/* ---- Places: a list of ids (RAIL_LIST_SIZE) */

#define RAIL_LIST_AT_COUNT 0                  /* 4 */
#define RAIL_LIST_AT_IDS 4                    /* windows: up to 32 ids of 4 bytes; notification icons: up to 16 times WindowId 4, NotifyIconId 4 */

/* ---- Structs. A pointer in them points into the bytes that were decoded: keep those as long as the struct is used. The functions
 * take what a granted lookup wrote. They read no byte past the record, whatever it holds, and cut a length that is over its limit.
 * In C++ say `struct rail_window` too: the calls rail_window, rail_notification, rail_desktop, rail_windows and rail_notifications
 * have the same names. */

struct rail_string {
    const uint8_t *at; /* UTF-16LE, no zero at the end */
    uint32_t bytes;
};

/* What a window, notification icon or cell shows. */
struct rail_picture {
    uint8_t present; /* 0: none, and all below is 0 or NULL */
    uint8_t bpp;
    uint16_t width, height;
    const uint8_t *bits_mask, *color_table, *bits_color;
    uint32_t cb_bits_mask, cb_color_table, cb_bits_color;
};

struct rail_rectangle {
    uint16_t left, top, right, bottom;
};

struct rail_window {
    struct rail_picture small_icon, big_icon;
    uint32_t owner_window_id, style, extended_style;
    uint8_t show_state;
    struct rail_string title;
    int32_t client_offset_x, client_offset_y;
    uint32_t client_area_width, client_area_height;
    uint8_t rp_content;
    uint32_t root_parent_handle;
    int32_t window_offset_x, window_offset_y;
    int32_t window_client_delta_x, window_client_delta_y;
    uint32_t window_width, window_height;
    uint32_t num_window_rects;
    struct rail_rectangle window_rects[RAIL_RECTANGLES_MAX];
    int32_t visible_offset_x, visible_offset_y;
    uint32_t num_visibility_rects;
    struct rail_rectangle visibility_rects[RAIL_RECTANGLES_MAX];
    /* of newer servers */
    struct rail_picture overlay_icon;
    uint32_t left_resize_margin, right_resize_margin, top_resize_margin, bottom_resize_margin;
    struct rail_string overlay_description;
    uint8_t taskbar_button, enforce_server_z_order, app_bar_state, app_bar_edge;
    uint32_t pixels; /* of its visibility rectangles; 0 where show_state is 0 */
};

struct rail_notification {
    struct rail_picture icon;
    uint32_t version;
    struct rail_string tool_tip;
    uint32_t timeout, info_flags;
    struct rail_string info_tip_text, title;
    uint32_t state;
};

struct rail_desktop {
    uint8_t hooked, syncing;
    uint32_t active_window_id;
    uint32_t num_window_ids;
    uint32_t window_ids[RAIL_WINDOW_IDS_MAX];
    uint32_t shown; /* the present figure: windows with a show state other than 0, */
    uint64_t pixels; /* and their pixels, up to 137,434,759,200 */
};

struct rail_windows {
    uint32_t count;
    uint32_t window_ids[RAIL_WINDOWS_MAX];
};

struct rail_notification_ids {
    uint32_t window_id, notify_icon_id;
};

struct rail_notifications {
    uint32_t count;
    struct rail_notification_ids ids[RAIL_NOTIFICATIONS_MAX];
};

/* ---- Numbers in bytes */

static inline uint32_t rail_get16(const uint8_t *p) { return p[0] + 256u * p[1]; }
static inline uint32_t rail_get32(const uint8_t *p) { return rail_get16(p) + 65536u * rail_get16(p + 2); }

static inline uint64_t rail_get64(const uint8_t *p) { return rail_get32(p) + ((uint64_t)rail_get32(p + 4) << 32); }

static inline int32_t rail_get_signed(const uint8_t *p) {
    const uint32_t bits = rail_get32(p);
    int32_t number;
    memcpy(&number, &bits, sizeof number);
    return number;
}

static inline uint32_t rail_at_most(uint32_t number, uint32_t limit) { return number < limit ? number : limit; }

/* A string: its length at `p`, its bytes behind. */
static inline struct rail_string rail_get_string(const uint8_t *p, uint32_t limit) {
    struct rail_string string;
    string.at = p + 2;
    string.bytes = rail_at_most(rail_get16(p), limit);
    return string;
}

static inline struct rail_rectangle rail_get_rectangle(const uint8_t *p) {
    struct rail_rectangle rectangle;
    rectangle.left = (uint16_t)rail_get16(p);
    rectangle.top = (uint16_t)rail_get16(p + 2);
    rectangle.right = (uint16_t)rail_get16(p + 4);
    rectangle.bottom = (uint16_t)rail_get16(p + 6);
    return rectangle;
}

/* Rectangles: their count at `p`, all 16 places behind. */
static inline uint32_t rail_get_rectangles(const uint8_t *p, struct rail_rectangle out[RAIL_RECTANGLES_MAX]) {
    uint32_t i;
    for (i = 0; i < RAIL_RECTANGLES_MAX; i++)
        out[i] = rail_get_rectangle(p + 2 + RAIL_RECTANGLE_SIZE * i);
    return rail_at_most(rail_get16(p), RAIL_RECTANGLES_MAX);
}

/* ---- Pictures */

/* A picture, also one that rail_cell handed out. */
static inline void rail_picture_decode(struct rail_picture *p, const uint8_t record[RAIL_PICTURE_SIZE]) {
    const uint8_t bpp = record[RAIL_PICTURE_AT_BPP];
    const int indexed = bpp == 1 || bpp == 4 || bpp == 8;
    const uint8_t *at = record + RAIL_PICTURE_AT_LENGTHS;
    uint32_t room = RAIL_ICON_BITS_MAX;
    p->present = 1;
    p->bpp = bpp;
    p->width = (uint16_t)rail_get16(record + RAIL_PICTURE_AT_WIDTH);
    p->height = (uint16_t)rail_get16(record + RAIL_PICTURE_AT_HEIGHT);
    p->cb_color_table = indexed ? rail_get16(at) : 0;
    at += indexed ? 2 : 0;
    p->cb_bits_mask = rail_at_most(rail_get16(at), room);
    room -= p->cb_bits_mask;
    p->cb_color_table = rail_at_most(p->cb_color_table, room);
    room -= p->cb_color_table;
    p->cb_bits_color = rail_at_most(rail_get16(at + 2), room);
    p->bits_mask = at + 4;
    p->color_table = p->bits_mask + p->cb_bits_mask;
    p->bits_color = p->color_table + p->cb_color_table;
}

/* What a record shows: `present` is its byte that says whether, `picture` where it then stands. */
static inline struct rail_picture rail_get_picture(const uint8_t *present, const uint8_t *picture) {
    struct rail_picture p = {0, 0, 0, 0, NULL, NULL, NULL, 0, 0, 0};
    if (*present != 0)
        rail_picture_decode(&p, picture);
    return p;
}

/* The pictures of a window and of a notification icon alone, where the rest is not needed. */
static inline struct rail_picture rail_window_small_icon(const uint8_t record[RAIL_WINDOW_SIZE]) {
    return rail_get_picture(record + RAIL_WINDOW_AT_SMALL_ICON, record + RAIL_WINDOW_AT_SMALL_PICTURE);
}

static inline struct rail_picture rail_window_big_icon(const uint8_t record[RAIL_WINDOW_SIZE]) {
    return rail_get_picture(record + RAIL_WINDOW_AT_BIG_ICON, record + RAIL_WINDOW_AT_BIG_PICTURE);
}

static inline struct rail_picture rail_window_overlay_icon(const uint8_t record[RAIL_WINDOW_SIZE]) {
    return rail_get_picture(record + RAIL_WINDOW_AT_OVERLAY_ICON, record + RAIL_WINDOW_AT_OVERLAY_PICTURE);
}

static inline struct rail_picture rail_notification_icon(const uint8_t record[RAIL_NOTIFICATION_SIZE]) {
    return rail_get_picture(record + RAIL_NOTIFICATION_AT_ICON, record + RAIL_NOTIFICATION_AT_PICTURE);
}

/* ---- Records */

static inline void rail_window_decode(struct rail_window *w, const uint8_t record[RAIL_WINDOW_SIZE]) {
    w->small_icon = rail_window_small_icon(record);
    w->big_icon = rail_window_big_icon(record);
    w->owner_window_id = rail_get32(record + RAIL_WINDOW_AT_OWNER_WINDOW_ID);
    w->style = rail_get32(record + RAIL_WINDOW_AT_STYLE);
    w->extended_style = rail_get32(record + RAIL_WINDOW_AT_EXTENDED_STYLE);
    w->show_state = record[RAIL_WINDOW_AT_SHOW_STATE];
    w->title = rail_get_string(record + RAIL_WINDOW_AT_TITLE_BYTES, RAIL_TITLE_MAX);
    w->client_offset_x = rail_get_signed(record + RAIL_WINDOW_AT_CLIENT_OFFSET_X);
    w->client_offset_y = rail_get_signed(record + RAIL_WINDOW_AT_CLIENT_OFFSET_Y);
    w->client_area_width = rail_get32(record + RAIL_WINDOW_AT_CLIENT_AREA_WIDTH);
    w->client_area_height = rail_get32(record + RAIL_WINDOW_AT_CLIENT_AREA_HEIGHT);
    w->rp_content = record[RAIL_WINDOW_AT_RP_CONTENT];
    w->root_parent_handle = rail_get32(record + RAIL_WINDOW_AT_ROOT_PARENT_HANDLE);
    w->window_offset_x = rail_get_signed(record + RAIL_WINDOW_AT_WINDOW_OFFSET_X);
    w->window_offset_y = rail_get_signed(record + RAIL_WINDOW_AT_WINDOW_OFFSET_Y);
    w->window_client_delta_x = rail_get_signed(record + RAIL_WINDOW_AT_CLIENT_DELTA_X);
    w->window_client_delta_y = rail_get_signed(record + RAIL_WINDOW_AT_CLIENT_DELTA_Y);
    w->window_width = rail_get32(record + RAIL_WINDOW_AT_WINDOW_WIDTH);
    w->window_height = rail_get32(record + RAIL_WINDOW_AT_WINDOW_HEIGHT);
    w->num_window_rects = rail_get_rectangles(record + RAIL_WINDOW_AT_NUM_WINDOW_RECTS, w->window_rects);
    w->visible_offset_x = rail_get_signed(record + RAIL_WINDOW_AT_VISIBLE_OFFSET_X);
    w->visible_offset_y = rail_get_signed(record + RAIL_WINDOW_AT_VISIBLE_OFFSET_Y);
    w->num_visibility_rects = rail_get_rectangles(record + RAIL_WINDOW_AT_NUM_VISIBILITY_RECTS, w->visibility_rects);
    w->overlay_icon = rail_window_overlay_icon(record);
    w->left_resize_margin = rail_get32(record + RAIL_WINDOW_AT_LEFT_RESIZE_MARGIN);
    w->right_resize_margin = rail_get32(record + RAIL_WINDOW_AT_RIGHT_RESIZE_MARGIN);
    w->top_resize_margin = rail_get32(record + RAIL_WINDOW_AT_TOP_RESIZE_MARGIN);
    w->bottom_resize_margin = rail_get32(record + RAIL_WINDOW_AT_BOTTOM_RESIZE_MARGIN);
    w->overlay_description = rail_get_string(record + RAIL_WINDOW_AT_OVERLAY_DESCRIPTION_BYTES, RAIL_OVERLAY_DESCRIPTION_MAX);
    w->taskbar_button = record[RAIL_WINDOW_AT_TASKBAR_BUTTON];
    w->enforce_server_z_order = record[RAIL_WINDOW_AT_ENFORCE_SERVER_Z_ORDER];
    w->app_bar_state = record[RAIL_WINDOW_AT_APP_BAR_STATE];
    w->app_bar_edge = record[RAIL_WINDOW_AT_APP_BAR_EDGE];
    w->pixels = rail_get32(record + RAIL_WINDOW_AT_PIXELS);
}

static inline void rail_notification_decode(struct rail_notification *n, const uint8_t record[RAIL_NOTIFICATION_SIZE]) {
    n->icon = rail_notification_icon(record);
    n->version = rail_get32(record + RAIL_NOTIFICATION_AT_VERSION);
    n->tool_tip = rail_get_string(record + RAIL_NOTIFICATION_AT_TOOL_TIP_BYTES, RAIL_TOOL_TIP_MAX);
    n->timeout = rail_get32(record + RAIL_NOTIFICATION_AT_TIMEOUT);
    n->info_flags = rail_get32(record + RAIL_NOTIFICATION_AT_INFO_FLAGS);
    n->info_tip_text = rail_get_string(record + RAIL_NOTIFICATION_AT_INFO_TIP_TEXT_BYTES, RAIL_INFO_TIP_TEXT_MAX);
    n->title = rail_get_string(record + RAIL_NOTIFICATION_AT_TITLE_BYTES, RAIL_INFO_TIP_TITLE_MAX);
    n->state = rail_get32(record + RAIL_NOTIFICATION_AT_STATE);
}

static inline void rail_desktop_decode(struct rail_desktop *d, const uint8_t record[RAIL_DESKTOP_SIZE]) {
    uint32_t i;
    d->hooked = record[RAIL_DESKTOP_AT_HOOKED];
    d->syncing = record[RAIL_DESKTOP_AT_SYNCING];
    d->active_window_id = rail_get32(record + RAIL_DESKTOP_AT_ACTIVE_WINDOW_ID);
    d->num_window_ids = rail_at_most(record[RAIL_DESKTOP_AT_NUM_WINDOW_IDS], RAIL_WINDOW_IDS_MAX);
    for (i = 0; i < RAIL_WINDOW_IDS_MAX; i++)
        d->window_ids[i] = rail_get32(record + RAIL_DESKTOP_AT_WINDOW_IDS + 4 * i);
    d->shown = rail_get32(record + RAIL_DESKTOP_AT_SHOWN);
    d->pixels = rail_get64(record + RAIL_DESKTOP_AT_PIXELS);
}

static inline void rail_windows_decode(struct rail_windows *w, const uint8_t list[RAIL_LIST_SIZE]) {
    uint32_t i;
    w->count = rail_at_most(rail_get32(list + RAIL_LIST_AT_COUNT), RAIL_WINDOWS_MAX);
    for (i = 0; i < RAIL_WINDOWS_MAX; i++)
        w->window_ids[i] = rail_get32(list + RAIL_LIST_AT_IDS + 4 * i);
}

static inline void rail_notifications_decode(struct rail_notifications *n, const uint8_t list[RAIL_LIST_SIZE]) {
    uint32_t i;
    n->count = rail_at_most(rail_get32(list + RAIL_LIST_AT_COUNT), RAIL_NOTIFICATIONS_MAX);
    for (i = 0; i < RAIL_NOTIFICATIONS_MAX; i++) {
        n->ids[i].window_id = rail_get32(list + RAIL_LIST_AT_IDS + 8 * i);
        n->ids[i].notify_icon_id = rail_get32(list + RAIL_LIST_AT_IDS + 8 * i + 4);
    }
}

#endif
