/* Layouts: every field of every record, at its place and through its struct. */
#include "check.h"

void test_constants(void) {
    CHECK(rail_size(RAIL_MEASURE_INDEX) == RAIL_INDEX_SIZE);
    CHECK(rail_size(RAIL_MEASURE_BODIES) == RAIL_BODIES_SIZE);
    CHECK(rail_size(RAIL_MEASURE_PLACE) == RAIL_PLACE_SIZE);
    CHECK(rail_size(RAIL_MEASURE_JOURNAL) == RAIL_JOURNAL_SIZE);
    CHECK(rail_size(RAIL_MEASURE_WINDOW) == RAIL_WINDOW_SIZE);
    CHECK(rail_size(RAIL_MEASURE_NOTIFICATION) == RAIL_NOTIFICATION_SIZE);
    CHECK(rail_size(RAIL_MEASURE_DESKTOP) == RAIL_DESKTOP_SIZE);
    CHECK(rail_size(RAIL_MEASURE_PICTURE) == RAIL_PICTURE_SIZE);
    CHECK(rail_size(RAIL_MEASURE_LIST) == RAIL_LIST_SIZE);
    CHECK(rail_size(RAIL_MEASURE_FIGURE + 1) == 0);
    CHECK(rail_size(256) == 0);
    CHECK(rail_size(UINT32_MAX) == 0);
    empty_state(); /* on memory with any contents */
}

/* A field of a record: the flag that brings it, its place, the bytes it may take, and those that an order brings here. */
struct field {
    uint32_t flag;
    size_t at, room, size;
    uint8_t bytes[2 + RAIL_TITLE_MAX];
};

/* Puts the field's bytes: those of a number or a string are first, first + 1, .. */
static void put_field(const struct field *f) {
    memcpy(order.at + order.size, f->bytes, f->size);
    order.size += f->size;
}

/* Only the place of `f` differs between the records, and it holds the carried bytes with zeros behind. */
static int only(const struct field *f, const uint8_t *before, const uint8_t *after, size_t size) {
    return memcmp(before, after, f->at) == 0 && memcmp(f->bytes, after + f->at, f->size) == 0 &&
           filled(after + f->at + f->size, f->room - f->size, 0) &&
           memcmp(before + f->at + f->room, after + f->at + f->room, size - f->at - f->room) == 0;
}

/* A run of bytes as a field; `lengths` bytes before it hold `length`. */
static struct field make_field(uint32_t flag, size_t at, size_t room, size_t lengths, uint32_t length, size_t run, uint8_t first) {
    struct field f;
    size_t i;
    f.flag = flag;
    f.at = at;
    f.room = room;
    f.size = lengths + run;
    f.bytes[0] = (uint8_t)(length & 255);
    if (lengths == 2)
        f.bytes[1] = (uint8_t)(length >> 8);
    for (i = 0; i < run; i++)
        f.bytes[lengths + i] = (uint8_t)(first + i);
    return f;
}

#define WINDOW_FIELDS 21

/* The pixels of each visibility rectangle of window_fields: its sides are numbers four bytes apart, and no two overlap. */
#define RECTANGLE_PIXELS (0x404u * 0x404u)

/* The fields of a window in carried order, with strings and lists that leave room or fill it. */
static void window_fields(struct field f[WINDOW_FIELDS], size_t title, uint32_t rects, uint8_t show, uint8_t content) {
    f[0] = make_field(WINDOW_ORDER_FIELD_OWNER, RAIL_WINDOW_AT_OWNER_WINDOW_ID, 4, 0, 0, 4, 0x81);
    f[1] = make_field(WINDOW_ORDER_FIELD_STYLE, RAIL_WINDOW_AT_STYLE, 8, 0, 0, 8, 0x91);
    f[2] = make_field(WINDOW_ORDER_FIELD_SHOW, RAIL_WINDOW_AT_SHOW_STATE, 1, 0, 0, 1, show);
    f[3] = make_field(WINDOW_ORDER_FIELD_TITLE, RAIL_WINDOW_AT_TITLE_BYTES, 522, 2, (uint32_t)title, title, 0x41);
    f[4] = make_field(WINDOW_ORDER_FIELD_CLIENTAREAOFFSET, RAIL_WINDOW_AT_CLIENT_OFFSET_X, 8, 0, 0, 8, 0xA1);
    f[5] = make_field(WINDOW_ORDER_FIELD_CLIENTAREASIZE, RAIL_WINDOW_AT_CLIENT_AREA_WIDTH, 8, 0, 0, 8, 0xB1);
    f[6] = make_field(WINDOW_ORDER_FIELD_RESIZE_MARGIN_X, RAIL_WINDOW_AT_LEFT_RESIZE_MARGIN, 8, 0, 0, 8, 0x51);
    f[7] = make_field(WINDOW_ORDER_FIELD_RESIZE_MARGIN_Y, RAIL_WINDOW_AT_TOP_RESIZE_MARGIN, 8, 0, 0, 8, 0x61);
    f[8] = make_field(WINDOW_ORDER_FIELD_RPCONTENT, RAIL_WINDOW_AT_RP_CONTENT, 1, 0, 0, 1, content);
    f[9] = make_field(WINDOW_ORDER_FIELD_ROOTPARENT, RAIL_WINDOW_AT_ROOT_PARENT_HANDLE, 4, 0, 0, 4, 0xC1);
    f[10] = make_field(WINDOW_ORDER_FIELD_WNDOFFSET, RAIL_WINDOW_AT_WINDOW_OFFSET_X, 8, 0, 0, 8, 0xD1);
    f[11] = make_field(WINDOW_ORDER_FIELD_WNDCLIENTDELTA, RAIL_WINDOW_AT_CLIENT_DELTA_X, 8, 0, 0, 8, 0xE1);
    f[12] = make_field(WINDOW_ORDER_FIELD_WNDSIZE, RAIL_WINDOW_AT_WINDOW_WIDTH, 8, 0, 0, 8, 0xF1);
    f[13] = make_field(WINDOW_ORDER_FIELD_WNDRECTS, RAIL_WINDOW_AT_NUM_WINDOW_RECTS, 130, 2, rects, 8 * rects, 0x11);
    f[14] = make_field(WINDOW_ORDER_FIELD_VISOFFSET, RAIL_WINDOW_AT_VISIBLE_OFFSET_X, 8, 0, 0, 8, 0x71);
    f[15] = make_field(WINDOW_ORDER_FIELD_VISIBILITY, RAIL_WINDOW_AT_NUM_VISIBILITY_RECTS, 130, 2, rects, 8 * rects, 0x21);
    f[16] = make_field(WINDOW_ORDER_FIELD_OVERLAY_DESCRIPTION, RAIL_WINDOW_AT_OVERLAY_DESCRIPTION_BYTES, 522, 2, (uint32_t)title, title, 0x31);
    f[17] = make_field(WINDOW_ORDER_FIELD_TASKBAR_BUTTON, RAIL_WINDOW_AT_TASKBAR_BUTTON, 1, 0, 0, 1, content);
    f[18] = make_field(WINDOW_ORDER_FIELD_ENFORCE_SERVER_ZORDER, RAIL_WINDOW_AT_ENFORCE_SERVER_Z_ORDER, 1, 0, 0, 1, content);
    f[19] = make_field(WINDOW_ORDER_FIELD_APPBAR_STATE, RAIL_WINDOW_AT_APP_BAR_STATE, 1, 0, 0, 1, content);
    f[20] = make_field(WINDOW_ORDER_FIELD_APPBAR_EDGE, RAIL_WINDOW_AT_APP_BAR_EDGE, 1, 0, 0, 1, 3);
}

/* The struct has the numbers that the runs of window_fields spell. */
static void check_window_struct(const uint8_t *record, uint32_t title, uint32_t rects) {
    struct rail_window w;
    rail_window_decode(&w, record);
    CHECK(w.owner_window_id == 0x84838281u && w.style == 0x94939291u && w.extended_style == 0x98979695u);
    CHECK(w.show_state == RAIL_SHOW_NORMAL && w.rp_content == 1 && w.root_parent_handle == 0xC4C3C2C1u);
    CHECK(w.title.at == record + RAIL_WINDOW_AT_TITLE && w.title.bytes == title);
    CHECK(w.client_offset_x == -0x5B5C5D5F && w.client_offset_y == -0x5758595B);
    CHECK(w.client_area_width == 0xB4B3B2B1u && w.client_area_height == 0xB8B7B6B5u);
    CHECK(w.window_offset_x == -0x2B2C2D2F && w.window_offset_y == -0x2728292B);
    CHECK(w.window_client_delta_x == -0x1B1C1D1F && w.window_client_delta_y == -0x1718191B);
    CHECK(w.window_width == 0xF4F3F2F1u && w.window_height == 0xF8F7F6F5u);
    CHECK(w.visible_offset_x == 0x74737271 && w.visible_offset_y == 0x78777675);
    CHECK(w.pixels == rects * RECTANGLE_PIXELS && rail_get32(record + RAIL_WINDOW_AT_PIXELS) == w.pixels);
    CHECK(w.num_window_rects == rects && w.num_visibility_rects == rects);
    CHECK(record[RAIL_WINDOW_AT_WINDOW_RECTS] == 0x11 && record[RAIL_WINDOW_AT_VISIBILITY_RECTS] == 0x21);
    CHECK(w.window_rects[0].left == 0x1211 && w.window_rects[0].top == 0x1413);
    CHECK(w.window_rects[0].right == 0x1615 && w.window_rects[0].bottom == 0x1817);
    CHECK(w.visibility_rects[rects - 1].left == (uint16_t)(0x2221 + 0x0808 * (rects - 1)));
    CHECK(w.visibility_rects[rects - 1].bottom == (uint16_t)(0x2827 + 0x0808 * (rects - 1)));
    CHECK(!w.small_icon.present && !w.big_icon.present && !w.overlay_icon.present);
    CHECK(w.left_resize_margin == 0x54535251u && w.right_resize_margin == 0x58575655u);
    CHECK(w.top_resize_margin == 0x64636261u && w.bottom_resize_margin == 0x68676665u);
    CHECK(w.overlay_description.at == record + RAIL_WINDOW_AT_OVERLAY_DESCRIPTION && w.overlay_description.bytes == title);
    CHECK(w.taskbar_button == 1 && w.enforce_server_z_order == 1 && w.app_bar_state == 1 && w.app_bar_edge == 3);
}

/* One field after another brought by an update of its own. */
static void window_field_by_field(const struct field f[WINDOW_FIELDS], uint8_t *before, uint8_t *after) {
    uint32_t pixels = 0;
    int i;
    begin_window(WINDOW_ORDER_STATE_NEW, 7);
    grant();
    CHECK(rail_number(rail_window(NOW, 7, before, RAIL_WINDOW_SIZE)) == RAIL_DONE);
    CHECK(filled(before, RAIL_WINDOW_SIZE, 0));
    for (i = 0; i < WINDOW_FIELDS; i++) {
        begin_window(f[i].flag, 7);
        put_field(&f[i]);
        grant();
        CHECK(rail_number(rail_window(NOW, 7, after, RAIL_WINDOW_SIZE)) == RAIL_DONE);
        CHECK(only(&f[i], before, after, RAIL_WINDOW_AT_PIXELS));
        if (f[i].flag == WINDOW_ORDER_FIELD_VISIBILITY) /* by then it is shown */
            pixels = f[i].bytes[0] * RECTANGLE_PIXELS;
        CHECK(rail_get32(after + RAIL_WINDOW_AT_PIXELS) == pixels);
        memcpy(before, after, RAIL_WINDOW_SIZE);
    }
}

/* Puts all fields, and returns their flags. */
static uint32_t put_fields(const struct field f[WINDOW_FIELDS]) {
    uint32_t flags = 0;
    int i;
    for (i = 0; i < WINDOW_FIELDS; i++) {
        put_field(&f[i]);
        flags |= f[i].flag;
    }
    return flags;
}

/* How many of the fields stand in the record as carried. */
static int standing(const struct field f[WINDOW_FIELDS], const uint8_t *record) {
    int i, count = 0;
    for (i = 0; i < WINDOW_FIELDS; i++)
        count += memcmp(record + f[i].at, f[i].bytes, f[i].size) == 0;
    return count;
}

void test_window(void) {
    static struct field f[WINDOW_FIELDS];
    uint8_t *one = fenced(RAIL_WINDOW_SIZE), *other = fenced(RAIL_WINDOW_SIZE);
    const uint32_t flags = 0x08CFDFDF; /* all 21 */
    empty_state();
    window_fields(f, 6, 3, RAIL_SHOW_NORMAL, 1);
    window_field_by_field(f, one, other);
    check_window_struct(one, 6, 3);
    window_fields(f, RAIL_TITLE_MAX, RAIL_RECTANGLES_MAX, RAIL_SHOW_NORMAL, 1);
    begin_window(flags | WINDOW_ORDER_STATE_NEW, 8);
    CHECK(put_fields(f) == flags);
    grant();
    CHECK(rail_number(rail_window(NOW, 8, other, RAIL_WINDOW_SIZE)) == RAIL_DONE);
    CHECK(standing(f, other) == WINDOW_FIELDS);
    check_window_struct(other, RAIL_TITLE_MAX, RAIL_RECTANGLES_MAX);
    CHECK(rail_number(rail_window(NOW, 7, other, RAIL_WINDOW_SIZE)) == RAIL_DONE);
    CHECK(memcmp(one, other, RAIL_WINDOW_SIZE) == 0); /* the other window is as it was */
}

/* A balloon: two numbers, text and title, which lie apart in the record. */
static void check_balloon(const uint8_t *record, size_t text, size_t title) {
    struct rail_notification n;
    rail_notification_decode(&n, record);
    CHECK(n.version == 0x84838281u && n.state == 0x94939291u);
    CHECK(n.tool_tip.at == record + RAIL_NOTIFICATION_AT_TOOL_TIP && n.tool_tip.bytes == RAIL_TOOL_TIP_MAX);
    CHECK(n.timeout == 0xA4A3A2A1u && n.info_flags == 0xA8A7A6A5u);
    CHECK(n.info_tip_text.at == record + RAIL_NOTIFICATION_AT_INFO_TIP_TEXT && n.info_tip_text.bytes == text);
    CHECK(n.title.at == record + RAIL_NOTIFICATION_AT_TITLE && n.title.bytes == title);
    CHECK(n.info_tip_text.at[0] == 0x31 && n.title.at[0] == 0x51 && n.tool_tip.at[0] == 0x61);
    CHECK(filled(n.info_tip_text.at + text, RAIL_INFO_TIP_TEXT_MAX - text, 0));
    CHECK(filled(n.title.at + title, RAIL_INFO_TIP_TITLE_MAX - title, 0));
    CHECK(!n.icon.present);
}

static void give_balloon(size_t text, size_t title) {
    begin_notification(WINDOW_ORDER_FIELD_NOTIFY_INFO_TIP, 7, 9);
    put_run(8, 0xA1);
    put_string(text, 0x31);
    put_string(title, 0x51);
    grant();
}

void test_notification(void) {
    static struct field f[3];
    uint8_t *before = fenced(RAIL_NOTIFICATION_SIZE), *after = fenced(RAIL_NOTIFICATION_SIZE);
    int i;
    empty_state();
    f[0] = make_field(WINDOW_ORDER_FIELD_NOTIFY_VERSION, RAIL_NOTIFICATION_AT_VERSION, 4, 0, 0, 4, 0x81);
    f[1] = make_field(WINDOW_ORDER_FIELD_NOTIFY_TIP, RAIL_NOTIFICATION_AT_TOOL_TIP_BYTES, 258, 2, RAIL_TOOL_TIP_MAX, 256, 0x61);
    f[2] = make_field(WINDOW_ORDER_FIELD_NOTIFY_STATE, RAIL_NOTIFICATION_AT_STATE, 4, 0, 0, 4, 0x91);
    begin_notification(WINDOW_ORDER_STATE_NEW, 7, 9);
    grant();
    CHECK(rail_number(rail_notification(NOW, 7, 9, before, RAIL_NOTIFICATION_SIZE)) == RAIL_DONE);
    CHECK(filled(before, RAIL_NOTIFICATION_SIZE, 0));
    for (i = 0; i < 3; i++) {
        begin_notification(f[i].flag, 7, 9);
        put_field(&f[i]);
        grant();
        CHECK(rail_number(rail_notification(NOW, 7, 9, after, RAIL_NOTIFICATION_SIZE)) == RAIL_DONE);
        CHECK(only(&f[i], before, after, RAIL_NOTIFICATION_SIZE));
        memcpy(before, after, RAIL_NOTIFICATION_SIZE);
    }
    give_balloon(6, 2);
    CHECK(rail_number(rail_notification(NOW, 7, 9, after, RAIL_NOTIFICATION_SIZE)) == RAIL_DONE);
    CHECK(memcmp(before, after, RAIL_NOTIFICATION_AT_TIMEOUT) == 0);
    CHECK(memcmp(before + RAIL_NOTIFICATION_AT_STATE, after + RAIL_NOTIFICATION_AT_STATE, 4) == 0);
    check_balloon(after, 6, 2);
    give_balloon(RAIL_INFO_TIP_TEXT_MAX, RAIL_INFO_TIP_TITLE_MAX);
    CHECK(rail_number(rail_notification(NOW, 7, 9, after, RAIL_NOTIFICATION_SIZE)) == RAIL_DONE);
    check_balloon(after, RAIL_INFO_TIP_TEXT_MAX, RAIL_INFO_TIP_TITLE_MAX);
}

/* Delivers a desktop order and looks the desktop up. */
static struct rail_desktop desktop_after(uint32_t flags, uint32_t active, uint32_t ids, uint8_t *record) {
    struct rail_desktop d;
    begin_desktop(flags);
    if (flags & WINDOW_ORDER_FIELD_DESKTOP_ACTIVEWND)
        put32(active);
    if (flags & WINDOW_ORDER_FIELD_DESKTOP_ZORDER) {
        put8(ids);
        put_run(4 * ids, 0x31);
    }
    grant();
    CHECK(rail_number(rail_desktop(NOW, record, RAIL_DESKTOP_SIZE)) == RAIL_DONE);
    rail_desktop_decode(&d, record);
    return d;
}

void test_desktop(void) {
    uint8_t *r = fenced(RAIL_DESKTOP_SIZE);
    const uint32_t both = WINDOW_ORDER_FIELD_DESKTOP_ACTIVEWND | WINDOW_ORDER_FIELD_DESKTOP_ZORDER;
    struct rail_desktop d;
    empty_state();
    d = desktop_after(0, 0, 0, r);
    CHECK(filled(r, RAIL_DESKTOP_SIZE, 0));
    d = desktop_after(WINDOW_ORDER_FIELD_DESKTOP_HOOKED | WINDOW_ORDER_FIELD_DESKTOP_ARC_BEGAN, 0, 0, r);
    CHECK(d.hooked == 1 && d.syncing == 1 && r[RAIL_DESKTOP_AT_HOOKED] == 1 && r[RAIL_DESKTOP_AT_SYNCING] == 1);
    d = desktop_after(WINDOW_ORDER_FIELD_DESKTOP_ARC_COMPLETED, 0, 0, r);
    CHECK(d.hooked == 1 && d.syncing == 0 && d.num_window_ids == 0);
    d = desktop_after(both, 0x84838281u, 3, r);
    CHECK(d.active_window_id == 0x84838281u && r[RAIL_DESKTOP_AT_ACTIVE_WINDOW_ID] == 0x81);
    CHECK(d.num_window_ids == 3 && d.window_ids[0] == 0x34333231 && d.window_ids[2] == 0x3C3B3A39);
    CHECK(r[RAIL_DESKTOP_AT_NUM_WINDOW_IDS] == 3 && r[RAIL_DESKTOP_AT_WINDOW_IDS] == 0x31);
    CHECK(filled(r + RAIL_DESKTOP_AT_WINDOW_IDS + 12, RAIL_DESKTOP_SIZE - RAIL_DESKTOP_AT_WINDOW_IDS - 12, 0));
    d = desktop_after(WINDOW_ORDER_FIELD_DESKTOP_ZORDER, 0, RAIL_WINDOW_IDS_MAX, r);
    CHECK(d.num_window_ids == RAIL_WINDOW_IDS_MAX && d.active_window_id == 0x84838281u);
    CHECK(d.window_ids[63] == 0x302F2E2D && r[RAIL_DESKTOP_AT_SHOWN - 1] == 0x30);
    d = desktop_after(WINDOW_ORDER_FIELD_DESKTOP_ZORDER, 0, 1, r);
    CHECK(d.num_window_ids == 1 && filled(r + RAIL_DESKTOP_AT_WINDOW_IDS + 4, 4 * 63, 0));
    d = desktop_after(WINDOW_ORDER_FIELD_DESKTOP_NONE, 0, 0, r);
    CHECK(!d.hooked && !d.syncing && d.active_window_id == 0 && filled(r, RAIL_DESKTOP_SIZE, 0));
}
