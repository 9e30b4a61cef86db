/* Runs a script of state calls through rail.h and prints every answer, as the program rail_session does. After each call it looks at
 * all memory lent: a byte that the call may not change ends the run with a line of its own. */
#include <stdio.h>
#include <stdlib.h>

#include "script.h"

/* The parts: index, bodies, journal, and those of the store, whose memory stays where it is while they are lent shorter. */
enum { INDEX, BODIES, JOURNAL, STORE, PARTS = STORE + RAIL_STORE_PARTS };
#define PART_MAX 65536

static uint8_t part[PARTS][PART_MAX], before[PARTS][PART_MAX];
static size_t whole[PARTS] = {RAIL_INDEX_SIZE, RAIL_BODIES_SIZE, RAIL_JOURNAL_SIZE, 15 * RAIL_PLACE_SIZE, 15 * RAIL_PLACE_SIZE,
                              15 * RAIL_PLACE_SIZE, 15 * RAIL_PLACE_SIZE, 4 * RAIL_PLACE_SIZE};
static size_t short_by[PARTS], lent[PARTS]; /* what an item T takes away; what the next call is lent */
static uint8_t out[RAIL_WINDOW_SIZE + 64]; /* what a lookup hands out; the two lists one after the other */

#define LENT                                                                                                        \
    part[INDEX], lent[INDEX], part[BODIES], lent[BODIES], part[STORE], lent[STORE], part[STORE + 1],                \
        lent[STORE + 1], part[STORE + 2], lent[STORE + 2], part[STORE + 3], lent[STORE + 3], part[STORE + 4],       \
        lent[STORE + 4], part[JOURNAL], lent[JOURNAL]

static void lend_parts(void) {
    int i;
    for (i = 0; i < PARTS; i++)
        lent[i] = short_by[i] > whole[i] ? 0 : whole[i] - short_by[i];
}

/* After a call nothing is missing any more. */
static void lend_whole(void) {
    memset(short_by, 0, sizeof short_by);
    lend_parts();
}

static void print_point(const char *name, int32_t x, int32_t y) {
    printf(" %s=%d,%d", name, (int)x, (int)y);
}

static void print_pair(const char *name, uint32_t x, uint32_t y) {
    printf(" %s=%u,%u", name, x, y);
}

static void print_rectangles(const char *name, const struct rail_rectangle *r, uint32_t count) {
    uint32_t i;
    printf(" %s=", name);
    for (i = 0; i < count; i++)
        printf("%s%u,%u,%u,%u", i == 0 ? "" : ";", r[i].left, r[i].top, r[i].right, r[i].bottom);
}

static void print_picture(const char *name, struct rail_picture p) {
    if (!p.present) {
        printf(" %s=none", name);
        return;
    }
    printf(" %s=%u,%u,%u", name, p.bpp, p.width, p.height);
    print_hex(",", p.bits_mask, p.cb_bits_mask);
    print_hex(",", p.color_table, p.cb_color_table);
    print_hex(",", p.bits_color, p.cb_bits_color);
}

static void print_window(uint32_t id) {
    struct rail_window w;
    rail_window_decode(&w, out);
    printf(" id=%u owner=%u style=%u ext=%u show=%u", id, w.owner_window_id, w.style, w.extended_style, w.show_state);
    print_hex(" title=", w.title.at, w.title.bytes);
    print_point("client", w.client_offset_x, w.client_offset_y);
    print_pair("client_size", w.client_area_width, w.client_area_height);
    print_pair("margin_x", w.left_resize_margin, w.right_resize_margin);
    print_pair("margin_y", w.top_resize_margin, w.bottom_resize_margin);
    printf(" rp=%u root=%u", w.rp_content, w.root_parent_handle);
    print_point("offset", w.window_offset_x, w.window_offset_y);
    print_point("delta", w.window_client_delta_x, w.window_client_delta_y);
    print_pair("size", w.window_width, w.window_height);
    print_rectangles("rects", w.window_rects, w.num_window_rects);
    print_point("visible", w.visible_offset_x, w.visible_offset_y);
    print_rectangles("vis_rects", w.visibility_rects, w.num_visibility_rects);
    print_hex(" overlay_text=", w.overlay_description.at, w.overlay_description.bytes);
    printf(" taskbar=%u server_z=%u app_bar=%u edge=%u", w.taskbar_button, w.enforce_server_z_order, w.app_bar_state, w.app_bar_edge);
    print_picture("small", w.small_icon);
    print_picture("big", w.big_icon);
    print_picture("overlay", w.overlay_icon);
    printf(" pixels=%lu", (unsigned long)w.pixels);
}

static void print_notification(uint32_t window_id, uint32_t notify_icon_id) {
    struct rail_notification n;
    rail_notification_decode(&n, out);
    printf(" window=%u icon=%u version=%u", window_id, notify_icon_id, n.version);
    print_hex(" tip=", n.tool_tip.at, n.tool_tip.bytes);
    printf(" timeout=%u flags=%u", n.timeout, n.info_flags);
    print_hex(" text=", n.info_tip_text.at, n.info_tip_text.bytes);
    print_hex(" title=", n.title.at, n.title.bytes);
    printf(" state=%u", n.state);
    print_picture("picture", n.icon);
}

static void print_cell(void) {
    struct rail_picture p;
    rail_picture_decode(&p, out);
    printf(" bpp=%u width=%u height=%u", p.bpp, p.width, p.height);
    print_hex(" mask=", p.bits_mask, p.cb_bits_mask);
    print_hex(" table=", p.color_table, p.cb_color_table);
    print_hex(" color=", p.bits_color, p.cb_bits_color);
}

static void print_desktop(void) {
    struct rail_desktop d;
    uint32_t i;
    rail_desktop_decode(&d, out);
    printf(" active=%u hooked=%u syncing=%u stack=", d.active_window_id, d.hooked, d.syncing);
    for (i = 0; i < d.num_window_ids; i++)
        printf("%s%u", i == 0 ? "" : ",", d.window_ids[i]);
    printf(" shown=%lu pixels=%llu", (unsigned long)d.shown, (unsigned long long)d.pixels);
}

static void print_lists(void) {
    struct rail_windows windows;
    struct rail_notifications icons;
    uint32_t i;
    rail_windows_decode(&windows, out);
    rail_notifications_decode(&icons, out + RAIL_LIST_SIZE);
    printf(" windows=");
    for (i = 0; i < windows.count; i++)
        printf("%s%u", i == 0 ? "" : ",", windows.window_ids[i]);
    printf(" icons=");
    for (i = 0; i < icons.count; i++)
        printf("%s%u/%u", i == 0 ? "" : ",", icons.ids[i].window_id, icons.ids[i].notify_icon_id);
}

#define BIT(part) (1u << (part))
#define JOURNAL_ONLY BIT(JOURNAL)
#define ALL_BUT_STORE (BIT(INDEX) | BIT(BODIES) | BIT(JOURNAL))
#define ALL (BIT(PARTS) - 1)

/* A part that is not among those named differs from before the call, or one of the store past what is lent. */
static int changed(unsigned may) {
    int i;
    for (i = 0; i < PARTS; i++) {
        const size_t from = (may & BIT(i)) == 0 ? 0 : lent[i];
        if (memcmp(part[i] + from, before[i] + from, PART_MAX - from) != 0)
            return 1;
    }
    return 0;
}

static int untouched(size_t from) {
    for (; from < sizeof out; from++)
        if (out[from] != 0xEE)
            return 0;
    return 1;
}

/* What a call of this kind may not have done. */
static int is_wrong(int kind, uint32_t number, size_t record) {
    if (!untouched(number == RAIL_DONE ? record : 0))
        return 1;
    if (number != RAIL_DONE || strchr("WNCSIH", kind) != NULL)
        return changed(0);
    return changed(kind == 'M' ? ALL : kind == 'E' ? ALL_BUT_STORE : JOURNAL_ONLY);
}

/* Both lists; they answer alike. */
static uint32_t lists(size_t *record) {
    const uint32_t answer = rail_windows(LENT, out, RAIL_LIST_SIZE);
    *record = 2 * RAIL_LIST_SIZE;
    return rail_notifications(LENT, out + RAIL_LIST_SIZE, RAIL_LIST_SIZE) == answer ? answer : UINT32_MAX;
}

/* Makes the call of an item; `record` is the size of what a lookup hands out. */
static uint32_t call(const struct item *item, size_t *record) {
    const uint8_t *p = item->payload;
    *record = 0;
    switch (item->kind) {
    case 'E': return rail_reset(LENT);
    case 'D': return rail_deliver(LENT, p, item->size);
    case 'M': return rail_checkpoint(LENT);
    case 'B': return rail_undo(LENT, rail_get32(p));
    case 'W': return rail_window(LENT, rail_get32(p), out, *record = RAIL_WINDOW_SIZE);
    case 'N': return rail_notification(LENT, rail_get32(p), rail_get32(p + 4), out, *record = RAIL_NOTIFICATION_SIZE);
    case 'C': return rail_cell(LENT, p[2], (uint16_t)rail_get16(p), out, *record = RAIL_PICTURE_SIZE);
    case 'I': return lists(record);
    case 'H':
        return rail_shared(LENT, p[0], rail_get32(p + 1), rail_get32(p + 5), p[9], rail_get32(p + 10), rail_get32(p + 14), out,
                           *record = RAIL_SHARED_SIZE);
    default: return rail_desktop(LENT, out, *record = RAIL_DESKTOP_SIZE);
    }
}

/* U: the limit, and what was granted as well as what stands, whatever the last number is. Whether the run goes on. */
static int run_update(const struct item *item) {
    const uint64_t report = rail_update(LENT, rail_get32(item->payload), item->payload + 4, item->size - 4);
    const uint32_t answer = rail_update_answer(report);
    const int wrong = changed(rail_update_orders(report) == 0 ? 0 : JOURNAL_ONLY);
    lend_whole();
    if (wrong) {
        puts("memory changed");
        return 0;
    }
    printf("U %u", rail_number(answer));
    if (rail_number(answer) != RAIL_BAD_STATE)
        printf(" %u %u %u %u", rail_update_orders(report), rail_update_bytes(report), rail_count(answer), rail_bytes(answer));
    putchar('\n');
    return 1;
}

/* O: the record in memory of the size that the item names. Whether the run goes on. */
static int run_record(const struct item *item) {
    static uint8_t record[65535];
    const size_t size = rail_get16(item->payload);
    uint32_t answer;
    size_t length, i;
    memset(record, 0xEE, sizeof record);
    answer = rail_record_write(LENT, record, size);
    lend_whole();
    length = rail_record_length(answer);
    for (i = length; i < sizeof record; i++)
        if (record[i] != 0xEE)
            break;
    if (changed(0) || length > size || i < sizeof record) {
        puts("memory changed");
        return 0;
    }
    printf("O %u", rail_number(answer));
    if (rail_number(answer) == RAIL_DONE) {
        printf(" %u %u", rail_count(answer), rail_bytes(answer));
        print_hex(" ", record, length);
    }
    putchar('\n');
    return 1;
}

/* V: a record read. No state memory is lent. */
static int run_read(const struct item *item) {
    const uint32_t answer = rail_record_check(item->payload, item->size);
    uint32_t i;
    printf("V %u", rail_number(answer));
    if (rail_number(answer) == RAIL_DONE) {
        printf(" %u bodies=", rail_count(answer));
        for (i = 0; i < rail_count(answer); i++) {
            const uint32_t place = rail_record_body(item->payload, item->size, i);
            print_hex(i == 0 ? "" : ",", item->payload + rail_record_offset(place), rail_record_size(place));
        }
    }
    putchar('\n');
    return 1;
}

static void print_found(const struct item *item) {
    const uint8_t *p = item->payload;
    switch (item->kind) {
    case 'W': print_window(rail_get32(p)); break;
    case 'N': print_notification(rail_get32(p), rail_get32(p + 4)); break;
    case 'C': print_cell(); break;
    case 'S': print_desktop(); break;
    case 'I': print_lists(); break;
    case 'H': printf(" shared=%u", out[0]); break;
    default: break;
    }
}

/* T: the next call is lent a part shorter; a second one before that call takes the place of the first. */
static int shorten(uint32_t which, size_t missing) {
    if (which >= PARTS || missing == 0)
        return 0;
    memset(short_by, 0, sizeof short_by);
    short_by[which] = missing;
    lend_parts();
    return 1;
}

/* X: a byte changes; of the store also one that is not lent. */
static int damage(uint32_t which, size_t offset, uint8_t value) {
    if (which >= PARTS || offset >= (which < STORE ? whole[which] : PART_MAX))
        return 0;
    part[which][offset] ^= value;
    return 1;
}

/* L: other lengths of the store. What the next call lacks by an item T it goes on to lack. */
static int lend(const uint8_t *p) {
    int i;
    for (i = 0; i < RAIL_STORE_PARTS; i++)
        if (rail_get32(p + 4 * i) > PART_MAX)
            return 0;
    for (i = 0; i < RAIL_STORE_PARTS; i++)
        whole[STORE + i] = rail_get32(p + 4 * i);
    lend_parts();
    return 1;
}

/* Z: the state memory, its parts end to end, and then the places of the store, at most 64. */
static int print_memory(void) {
    size_t left = RAIL_PLACES_MAX;
    int i;
    print_hex("Z ", part[INDEX], whole[INDEX]);
    print_hex("", part[BODIES], whole[BODIES]);
    print_hex("", part[JOURNAL], whole[JOURNAL]);
    for (i = STORE; i < PARTS; i++) {
        const size_t places = whole[i] / RAIL_PLACE_SIZE < left ? whole[i] / RAIL_PLACE_SIZE : left;
        print_hex("", part[i], places * RAIL_PLACE_SIZE);
        left -= places;
    }
    putchar('\n');
    return 1;
}

/* T, X, L and Z: no call. Whether the item is a good one. */
static int prepare(const struct item *item) {
    const uint8_t *p = item->payload;
    switch (item->kind) {
    case 'T': return shorten(p[0], rail_get16(p + 1));
    case 'X': return damage(p[0], rail_get32(p + 1), p[5]);
    case 'L': return lend(p);
    default: return print_memory();
    }
}

/* Makes a call and prints its line. Whether the run goes on. */
static int run(const struct item *item) {
    size_t record;
    uint32_t answer;
    int wrong;
    memcpy(before, part, sizeof before);
    if (item->kind == 'U')
        return run_update(item);
    if (item->kind == 'O')
        return run_record(item);
    if (item->kind == 'V')
        return run_read(item);
    memset(out, 0xEE, sizeof out);
    answer = call(item, &record);
    wrong = is_wrong(item->kind, rail_number(answer), record);
    lend_whole();
    if (wrong) {
        puts("memory changed");
        return 0;
    }
    printf("%c %u", item->kind, rail_number(answer));
    if (rail_number(answer) == RAIL_DONE) {
        printf(" %u %u", rail_count(answer), rail_bytes(answer));
        print_found(item);
    }
    putchar('\n');
    return 1;
}

/* A holder of H: its kind, and the second number of a window, which is 0. */
static int is_holder(const uint8_t *p) {
    const int of_window = p[0] == RAIL_HOLDER_SMALL_ICON || p[0] == RAIL_HOLDER_BIG_ICON || p[0] == RAIL_HOLDER_OVERLAY_ICON;
    return p[0] <= RAIL_HOLDER_OVERLAY_ICON && (!of_window || rail_get32(p + 5) == 0);
}

/* The item's kind and length are listed. */
static int listed(const struct item *item) {
    static const char kinds[] = "EMBWNCSITXOHLZ";
    static const size_t sizes[] = {0, 0, 4, 4, 8, 3, 0, 0, 3, 6, 2, 18, 20, 0};
    const char *kind = item->kind == '\0' ? NULL : strchr(kinds, item->kind);
    if (item->kind == 'D' || item->kind == 'V')
        return 1;
    if (item->kind == 'U')
        return item->size >= 4;
    if (kind == NULL || sizes[kind - kinds] != item->size)
        return 0;
    return item->kind != 'H' || (is_holder(item->payload) && is_holder(item->payload + 9));
}

int main(void) {
    static struct item item;
    int got;
    lend_whole();
    if (rail_reset(LENT) != RAIL_DONE)
        return 1;
    while ((got = next_item(&item)) == 1 && listed(&item)) {
        if (strchr("TXLZ", item.kind) != NULL) {
            if (!prepare(&item))
                break;
        } else if (!run(&item)) {
            return 1;
        }
    }
    if (got != 0)
        puts("bad item");
    return 0;
}
