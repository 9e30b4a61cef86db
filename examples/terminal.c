/* A small terminal over rail.h. It takes what a server sends, one update or control message after another, from a stored session,
 * and prints what a user would then see.
 *
 *     cc terminal.c $(pkg-config --cflags --libs rail) -o terminal && ./terminal session.hex
 *
 * The session is a text of hexadecimal bytes; # begins a comment. An item begins with its letter, and an empty line ends it: U an
 * update (windowing orders back to back), R a control message of the virtual channel, M a mark, B so many steps back (4 bytes),
 * E a new connection. docs/FORMATS.md has this beside the other formats. */
#include <ctype.h>
#include <stdio.h>
#include <stdlib.h>
#include <string.h>

#include <rail.h>

static struct rail_state state;

/* ---- The ids that are listed */

static struct rail_windows listed_windows(void) {
    uint8_t list[RAIL_LIST_SIZE];
    struct rail_windows windows = {0};
    if (rail_number(rail_state_windows(&state, list)) == RAIL_DONE)
        rail_windows_decode(&windows, list);
    return windows;
}

static struct rail_notifications listed_notifications(void) {
    uint8_t list[RAIL_LIST_SIZE];
    struct rail_notifications icons = {0};
    if (rail_number(rail_state_notifications(&state, list)) == RAIL_DONE)
        rail_notifications_decode(&icons, list);
    return icons;
}

/* ---- Printing */

static void print_utf8(uint32_t c) {
    if (c < 0x80) {
        putchar((int)c);
    } else if (c < 0x800) {
        printf("%c%c", (int)(0xC0 | c >> 6), (int)(0x80 | (c & 63)));
    } else if (c < 0x10000) {
        printf("%c%c%c", (int)(0xE0 | c >> 12), (int)(0x80 | (c >> 6 & 63)), (int)(0x80 | (c & 63)));
    } else {
        printf("%c%c%c%c", (int)(0xF0 | c >> 18), (int)(0x80 | (c >> 12 & 63)), (int)(0x80 | (c >> 6 & 63)), (int)(0x80 | (c & 63)));
    }
}

/* A string is what an application chose: a control character or half a surrogate pair is shown as U+FFFD. */
static void print_string(const uint8_t *at, uint32_t bytes) {
    uint32_t i, c, low;
    putchar('"');
    for (i = 0; i + 1 < bytes; i += 2) {
        c = rail_get16(at + i);
        if (c >= 0xD800 && c < 0xDC00 && i + 3 < bytes) {
            low = rail_get16(at + i + 2);
            if (low >= 0xDC00 && low < 0xE000) {
                c = 0x10000 + ((c - 0xD800) << 10) + (low - 0xDC00);
                i += 2;
            }
        }
        if (c < 0x20 || (c >= 0x7F && c < 0xA0) || (c >= 0xD800 && c < 0xE000))
            c = 0xFFFD;
        print_utf8(c);
    }
    putchar('"');
}

/* What a window or notification icon shows, as its lookup hands it out. */
static void print_icon(const char *name, struct rail_picture icon) {
    if (icon.present)
        printf(", %s icon %u x %u, %u bpp", name, icon.width, icon.height, icon.bpp);
}

static const char *show_name(uint8_t show_state) {
    switch (show_state) {
    case RAIL_SHOW_HIDDEN: return "hidden";
    case RAIL_SHOW_MINIMIZED: return "minimized";
    case RAIL_SHOW_MAXIMIZED: return "maximized";
    default: return "shown";
    }
}

static void print_window(uint32_t id) {
    static uint8_t record[RAIL_WINDOW_SIZE];
    struct rail_window w;
    printf("  window %08X: ", id);
    if (rail_number(rail_state_window(&state, id, record)) != RAIL_DONE) {
        puts("not listed"); /* a z-order may name windows that the server has not described */
        return;
    }
    rail_window_decode(&w, record);
    print_string(w.title.at, w.title.bytes);
    printf(", %s at %d,%d, %u x %u", show_name(w.show_state), w.window_offset_x, w.window_offset_y, w.window_width, w.window_height);
    if (w.owner_window_id != 0)
        printf(", owner %08X", w.owner_window_id);
    if (w.num_visibility_rects != 0)
        printf(", %u visible rectangles", w.num_visibility_rects);
    print_icon("small", w.small_icon);
    print_icon("big", w.big_icon);
    print_icon("overlay", w.overlay_icon);
    if (w.overlay_description.bytes != 0) {
        printf(", overlay described ");
        print_string(w.overlay_description.at, w.overlay_description.bytes);
    }
    putchar('\n');
}

static void print_notification(struct rail_notification_ids ids) {
    static uint8_t record[RAIL_NOTIFICATION_SIZE];
    struct rail_notification n;
    if (rail_number(rail_state_notification(&state, ids.window_id, ids.notify_icon_id, record)) != RAIL_DONE)
        return;
    rail_notification_decode(&n, record);
    printf("  notification icon %08X/%u: ", ids.window_id, ids.notify_icon_id);
    print_string(n.tool_tip.at, n.tool_tip.bytes);
    if (n.info_tip_text.bytes != 0) {
        printf(", balloon ");
        print_string(n.info_tip_text.at, n.info_tip_text.bytes);
    }
    print_icon("its", n.icon);
    putchar('\n');
}

static int names(const struct rail_desktop *d, uint32_t count, uint32_t window_id) {
    uint32_t i;
    for (i = 0; i < count; i++)
        if (d->window_ids[i] == window_id)
            return 1;
    return 0;
}

/* The windows that the z-order names, each once and from the top down; those that it does not name; the notification icons. */
static void print_desktop(void) {
    static uint8_t record[RAIL_DESKTOP_SIZE];
    struct rail_desktop d;
    const struct rail_windows windows = listed_windows();
    const struct rail_notifications icons = listed_notifications();
    uint32_t i;
    if (rail_number(rail_state_desktop(&state, record)) != RAIL_DONE)
        return;
    rail_desktop_decode(&d, record);
    printf("  desktop %s%s, active %08X\n", d.hooked ? "hooked" : "not hooked", d.syncing ? ", syncing" : "", d.active_window_id);
    for (i = 0; i < d.num_window_ids; i++)
        if (!names(&d, i, d.window_ids[i]))
            print_window(d.window_ids[i]);
    for (i = 0; i < windows.count; i++)
        if (!names(&d, d.num_window_ids, windows.window_ids[i]))
            print_window(windows.window_ids[i]);
    for (i = 0; i < icons.count; i++)
        print_notification(icons.ids[i]);
}

/* ---- Updates */

/* Delivers one order. A full history is no fault of the order: the mark moves on, and the order is delivered again. */
static uint32_t deliver(const uint8_t *order, size_t size) {
    uint32_t answer = rail_state_deliver(&state, order, size);
    if (rail_number(answer) == RAIL_HISTORY_FULL) {
        printf("  history full: mark\n");
        answer = rail_state_checkpoint(&state);
        if (rail_number(answer) == RAIL_DONE)
            answer = rail_state_deliver(&state, order, size);
    }
    return answer;
}

/* The server tells all its windows again, as new. Those still listed have to go first, or they would meet 9: the order, which was
 * granted, is taken back, all are emptied by a desktop order of our own, and it is delivered again. */
static uint32_t begin_sync(const uint8_t *order, size_t size) {
    static const uint8_t none[] = RAIL_ORDER_DESKTOP_NONE, hooked[] = RAIL_ORDER_DESKTOP_HOOKED;
    static uint8_t record[RAIL_DESKTOP_SIZE];
    uint32_t answer = rail_state_undo(&state, 1);
    if (rail_number(answer) == RAIL_DONE)
        answer = rail_state_desktop(&state, record);
    if (rail_number(answer) == RAIL_DONE)
        answer = deliver(none, sizeof none);
    if (rail_number(answer) == RAIL_DONE && record[RAIL_DESKTOP_AT_HOOKED] != 0)
        answer = deliver(hooked, sizeof hooked);
    return rail_number(answer) == RAIL_DONE ? deliver(order, size) : answer;
}

/* Takes one order. */
static uint32_t take(const uint8_t *order, size_t size) {
    const uint32_t answer = deliver(order, size);
    if (rail_number(answer) != RAIL_DONE || !rail_begins_sync(order, size) ||
        listed_windows().count + listed_notifications().count == 0)
        return answer;
    puts("  the server tells all windows again: emptied");
    return begin_sync(order, size);
}

/* First of all (zeroed memory is no state), for each new connection, and where the state memory describes no state since something else
 * wrote into it. The server then tells all its windows. */
static void start_afresh(void) {
    rail_state_reset(&state);
}

/* Takes the orders of an update: as many in one call as come before a synchronization, then by itself the one at which that call stopped.
 * One that is refused is one order lost: those granted stand, and the next is judged by itself. The mark stays where it is, so that they can
 * be stepped back, until the history is full. */
static void take_update(const uint8_t *update, size_t size) {
    size_t at = 0, taken = 0;
    while (at < size) {
        const uint64_t report = rail_state_update(&state, rail_orders_before_sync(update + at, size - at), update + at, size - at);
        const uint32_t granted = rail_update_bytes(report);
        uint32_t number = rail_number(rail_update_answer(report));
        at += granted;
        taken += rail_update_orders(report);
        if (number != RAIL_BAD_STATE && at < size) {
            const size_t length = rail_order_size(update + at, size - at);
            number = rail_number(take(update + at, length));
            if (number == RAIL_DONE)
                taken++;
            else if (number != RAIL_BAD_STATE) /* 17 too: the record keeps what it shows */
                printf("  order at byte %zu refused, %u: %s\n", at, number, rail_number_words(number));
            at += length;
        }
        if (number == RAIL_BAD_STATE) {
            puts("  state memory damaged: emptied");
            start_afresh();
            break;
        }
    }
    const uint32_t history = rail_state_history(&state);
    printf("  %zu orders taken; %u with %u bytes stand after the mark\n", taken, rail_count(history), rail_bytes(history));
    print_desktop();
}

static void take_steps(uint64_t steps) {
    const uint32_t answer = rail_state_undo(&state, steps), number = rail_number(answer);
    if (number == RAIL_DONE)
        printf("  %u orders stand after the mark\n", rail_count(answer));
    else
        printf("  refused, %u: %s\n", number, rail_number_words(number));
    print_desktop();
}

/* ---- Control messages */

/* Writes a message and hands it to the channel, which here is the output. */
static void send_message(const uint32_t words[RAIL_WORDS], const uint8_t *strings, size_t strings_size) {
    static uint8_t out[RAIL_MESSAGE_MAX];
    const uint32_t answer = rail_pdu_write(words, strings, strings_size, out, sizeof out);
    uint32_t i;
    if (rail_number(answer) != RAIL_DONE) {
        printf("  not sent, %u: %s\n", rail_number(answer), rail_number_words(rail_number(answer)));
        return;
    }
    printf("  send");
    for (i = 0; i < rail_bytes(answer); i++)
        printf(" %02X", out[i]);
    putchar('\n');
}

/* The answer to a handshake: our own, what we can do, and the program to start. */
static void greet(void) {
    static const uint8_t program[] = {'|', 0, '|', 0, 'e', 0, 'd', 0, 'i', 0, 't', 0, 'o', 0, 'r', 0};
    static const uint32_t handshake[RAIL_WORDS] = {
        [RAIL_WORD_TYPE] = TS_RAIL_ORDER_HANDSHAKE,
        [RAIL_WORD_HANDSHAKE_BUILD_NUMBER] = 7601,
    };
    static const uint32_t status[RAIL_WORDS] = {
        [RAIL_WORD_TYPE] = TS_RAIL_ORDER_CLIENTSTATUS,
        [RAIL_WORD_CLIENTSTATUS_FLAGS] = TS_RAIL_CLIENTSTATUS_ALLOWLOCALMOVESIZE,
    };
    static const uint32_t execute[RAIL_WORDS] = {
        [RAIL_WORD_TYPE] = TS_RAIL_ORDER_EXEC,
        [RAIL_WORD_EXEC_FLAGS] = TS_RAIL_EXEC_FLAG_EXPAND_ARGUMENTS,
        [RAIL_WORD_EXEC_EXE_OR_FILE_AT] = 0,
        [RAIL_WORD_EXEC_EXE_OR_FILE_LENGTH] = sizeof program,
    };
    send_message(handshake, program, 0);
    send_message(status, program, 0);
    send_message(execute, program, sizeof program);
}

/* A control message of the server. */
static void take_message(const uint8_t *message, size_t size) {
    uint32_t w[RAIL_WORDS];
    const uint32_t number = rail_pdu_read(message, size, w);
    if (number != RAIL_DONE) {
        printf("  message refused, %u: %s\n", number, rail_number_words(number));
        return;
    }
    switch (w[RAIL_WORD_TYPE]) {
    case TS_RAIL_ORDER_HANDSHAKE:
        printf("  handshake, build %u\n", w[RAIL_WORD_HANDSHAKE_BUILD_NUMBER]);
        greet();
        break;
    case TS_RAIL_ORDER_HANDSHAKE_EX:
        printf("  handshake, build %u, flags %08X\n", w[RAIL_WORD_HANDSHAKE_EX_BUILD_NUMBER], w[RAIL_WORD_HANDSHAKE_EX_FLAGS]);
        greet();
        break;
    case TS_RAIL_ORDER_SYSPARAM:
        printf("  system parameter %08X\n", w[RAIL_WORD_SYSPARAM_SYSTEM_PARAM]);
        break;
    case TS_RAIL_ORDER_EXEC_RESULT:
        printf("  started ");
        print_string(message + w[RAIL_WORD_EXEC_RESULT_EXE_OR_FILE_AT], w[RAIL_WORD_EXEC_RESULT_EXE_OR_FILE_LENGTH]);
        printf(", result %u\n", w[RAIL_WORD_EXEC_RESULT_EXEC_RESULT]);
        break;
    case TS_RAIL_ORDER_LOCALMOVESIZE:
        printf("  window %08X %s move or size %u at %d,%d\n", w[RAIL_WORD_LOCALMOVESIZE_WINDOW_ID],
               w[RAIL_WORD_LOCALMOVESIZE_IS_START] ? "begins" : "ends", w[RAIL_WORD_LOCALMOVESIZE_TYPE],
               rail_word_coordinate(w[RAIL_WORD_LOCALMOVESIZE_POS_X]), rail_word_coordinate(w[RAIL_WORD_LOCALMOVESIZE_POS_Y]));
        break;
    default:
        printf("  message of type %04X: nothing to do\n", w[RAIL_WORD_TYPE]);
    }
}

/* ---- The session */

#define ITEM_MAX 65536

/* Reads the next item of the text. Its letter, 0 at the end, or ? where there are no bytes of two digits each, or too many. */
static int next_item(FILE *text, uint8_t item[ITEM_MAX], size_t *size) {
    char line[1024];
    int letter = 0;
    *size = 0;
    while (fgets(line, sizeof line, text) != NULL) {
        char *p = line + strspn(line, " \t\r\n");
        if (*p == '\0' && letter != 0)
            return letter;
        if (letter == 0 && *p != '#' && *p != '\0')
            letter = *p++;
        for (p += strspn(p, " \t\r\n"); *p != '#' && *p != '\0'; p += strspn(p, " \t\r\n")) {
            const char digits[3] = {p[0], p[1], '\0'};
            if (!isxdigit((unsigned char)p[0]) || !isxdigit((unsigned char)p[1]) || *size == ITEM_MAX)
                return '?';
            item[(*size)++] = (uint8_t)strtoul(digits, NULL, 16);
            p += 2;
        }
    }
    return letter;
}

/* Does what an item asks for; 0 where it is no item of a session. */
static int take_item(int letter, const uint8_t *item, size_t size) {
    if (letter == 'U') {
        take_update(item, size);
    } else if (letter == 'R') {
        take_message(item, size);
    } else if (letter == 'B' && size == 4) {
        take_steps(rail_get32(item));
    } else if (letter == 'M' && size == 0) {
        rail_state_checkpoint(&state);
    } else if (letter == 'E' && size == 0) {
        start_afresh();
    } else {
        return 0;
    }
    return 1;
}

static const char *item_name(int letter) {
    switch (letter) {
    case 'U': return "update";
    case 'R': return "message";
    case 'B': return "steps back";
    case 'M': return "mark";
    case 'E': return "new connection";
    default: return "no item";
    }
}

int main(int argc, char **argv) {
    static uint8_t item[ITEM_MAX];
    size_t size, number = 0;
    int letter;
    FILE *text;
    if (argc != 2) {
        fprintf(stderr, "usage: terminal SESSION\n");
        return 2;
    }
    text = fopen(argv[1], "r");
    if (text == NULL) {
        perror(argv[1]);
        return 2;
    }
    start_afresh();
    while ((letter = next_item(text, item, &size)) != 0) {
        printf("%zu: %s, %zu bytes\n", ++number, item_name(letter), size);
        if (!take_item(letter, item, size)) {
            fprintf(stderr, "terminal: item %zu is none of a session: U or R with bytes, B with 4, M or E with none\n", number);
            return 1;
        }
    }
    fclose(text);
    return 0;
}
