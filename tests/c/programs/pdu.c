/* Runs a script of control messages and their chunks through rail.h and prints every answer, as the program rail_pdu does. */
#include <stdio.h>

#include "script.h"

#define MEMORY_MAX 17408

/* A kind: its type, and with system parameters the setting; its fields by name, each with its width in an item P or p. s is a string, b a
 * byte that stands for no or yes, x a number of 4 that is printed in hex, p a position of 2 bytes, signed. */
struct field {
    const char *name;
    char width;
};

struct kind {
    uint32_t type, setting;
    struct field fields[RAIL_WORDS];
};

static const struct kind kinds[] = {
    {TS_RAIL_ORDER_EXEC, 0, {{"flags", 2}, {"program", 's'}, {"directory", 's'}, {"arguments", 's'}}},
    {TS_RAIL_ORDER_ACTIVATE, 0, {{"window", 4}, {"enabled", 1}}},
    {TS_RAIL_ORDER_SYSCOMMAND, 0, {{"window", 4}, {"command", 2}}},
    {TS_RAIL_ORDER_HANDSHAKE, 0, {{"build", 4}}},
    {TS_RAIL_ORDER_NOTIFY_EVENT, 0, {{"window", 4}, {"icon", 4}, {"message", 4}}},
    {TS_RAIL_ORDER_WINDOWMOVE, 0, {{"window", 4}, {"left", 'p'}, {"top", 'p'}, {"right", 'p'}, {"bottom", 'p'}}},
    {TS_RAIL_ORDER_LOCALMOVESIZE, 0, {{"window", 4}, {"start", 'b'}, {"move_type", 2}, {"x", 'p'}, {"y", 'p'}}},
    {TS_RAIL_ORDER_MINMAXINFO, 0,
     {{"window", 4}, {"max_width", 2}, {"max_height", 2}, {"max_x", 'p'}, {"max_y", 'p'}, {"min_track_width", 2},
      {"min_track_height", 2}, {"max_track_width", 2}, {"max_track_height", 2}}},
    {TS_RAIL_ORDER_CLIENTSTATUS, 0, {{"flags", 4}}},
    {TS_RAIL_ORDER_SYSMENU, 0, {{"window", 4}, {"left", 'p'}, {"top", 'p'}}},
    {TS_RAIL_ORDER_GET_APPID_REQ, 0, {{"window", 4}}},
    {TS_RAIL_ORDER_GET_APPID_RESP, 0, {{"window", 4}, {"string", 's'}}},
    {TS_RAIL_ORDER_EXEC_RESULT, 0, {{"flags", 2}, {"result", 2}, {"raw", 4}, {"string", 's'}}},
    {TS_RAIL_ORDER_SYSPARAM, SPI_SETDRAGFULLWINDOWS, {{"setting", 'x'}, {"value", 1}}},
    {TS_RAIL_ORDER_SYSPARAM, SPI_SETKEYBOARDCUES, {{"setting", 'x'}, {"value", 1}}},
    {TS_RAIL_ORDER_SYSPARAM, SPI_SETKEYBOARDPREF, {{"setting", 'x'}, {"value", 1}}},
    {TS_RAIL_ORDER_SYSPARAM, SPI_SETMOUSEBUTTONSWAP, {{"setting", 'x'}, {"value", 1}}},
    {TS_RAIL_ORDER_SYSPARAM, SPI_SETSCREENSAVEACTIVE, {{"setting", 'x'}, {"value", 1}}},
    {TS_RAIL_ORDER_SYSPARAM, SPI_SETSCREENSAVESECURE, {{"setting", 'x'}, {"value", 1}}},
    {TS_RAIL_ORDER_SYSPARAM, SPI_SETWORKAREA, {{"setting", 'x'}, {"left", 2}, {"top", 2}, {"right", 2}, {"bottom", 2}}},
    {TS_RAIL_ORDER_SYSPARAM, RAIL_SPI_TASKBARPOS, {{"setting", 'x'}, {"left", 2}, {"top", 2}, {"right", 2}, {"bottom", 2}}},
    {TS_RAIL_ORDER_SYSPARAM, RAIL_SPI_DISPLAYCHANGE, {{"setting", 'x'}, {"left", 2}, {"top", 2}, {"right", 2}, {"bottom", 2}}},
    {TS_RAIL_ORDER_SYSPARAM, SPI_SETHIGHCONTRAST, {{"setting", 'x'}, {"flags", 4}, {"string", 's'}}},
    {TS_RAIL_ORDER_HANDSHAKE_EX, 0, {{"build", 4}, {"flags", 4}}},
};

static const struct kind *kind_of(uint32_t type, uint32_t setting) {
    size_t k;
    for (k = 0; k < sizeof kinds / sizeof kinds[0]; k++)
        if (kinds[k].type == type && (type != TS_RAIL_ORDER_SYSPARAM || kinds[k].setting == setting))
            return &kinds[k];
    return NULL;
}

static void print_record(int item, const uint8_t *message, const uint32_t words[RAIL_WORDS]) {
    const struct kind *kind = kind_of(words[RAIL_WORD_TYPE], words[RAIL_WORD_SYSPARAM_SYSTEM_PARAM]);
    const struct field *f;
    const uint32_t *w = words + 1;
    printf("%c 0 type=%04x", item, kind->type);
    for (f = kind->fields; f->name != NULL; f++) {
        printf(" %s=", f->name);
        if (f->width == 's') {
            print_hex("", message + w[0], w[1]);
            w += 2;
        } else if (f->width == 'p') {
            printf("%d", (int)rail_word_coordinate(*w++));
        } else {
            printf(f->width == 'x' ? "%08x" : "%u", *w++);
        }
    }
}

/* The words of a P item's record, but for the places of its strings. Where its strings begin, or 0 where the item is too short. */
static size_t take_numbers(const struct kind *kind, const struct item *item, uint32_t words[RAIL_WORDS]) {
    const struct field *f;
    uint32_t *w = words + 1;
    size_t at = 4;
    for (f = kind->fields; f->name != NULL; f++) {
        const size_t width = f->width == 's' || f->width == 'p' ? 2 : f->width == 'b' ? 1 : f->width == 'x' ? 4 : (size_t)f->width;
        uint32_t number;
        if (item->size < at + width)
            return 0;
        number = width == 4 ? rail_get32(item->payload + at) : width == 2 ? rail_get16(item->payload + at) : item->payload[at];
        if (f->width == 'p')
            number = rail_coordinate_word(number < 0x8000 ? (int32_t)number : (int32_t)number - 0x10000);
        w += f->width == 's';
        *w++ = f->width == 'b' ? number != 0 : number;
        at += width;
    }
    return at;
}

/* Sets the places of the strings, which lie one after the other from `at` on. Whether they fill the item. */
static int place_strings(const struct kind *kind, const struct item *item, size_t at, uint32_t words[RAIL_WORDS]) {
    const struct field *f;
    uint32_t *w = words + 1;
    for (f = kind->fields; f->name != NULL; f++) {
        if (f->width == 's') {
            *w++ = (uint32_t)at;
            at += *w;
        }
        w++;
    }
    return at == item->size;
}

static int untouched(const uint8_t *memory, size_t from) {
    for (; from < MEMORY_MAX; from++)
        if (memory[from] != 0xEE)
            return 0;
    return 1;
}

static int bad_item(void) {
    puts("bad item");
    return 0;
}

/* P: writes a record; p: in the counter profile. Whether the run goes on. */
static int write_record(const struct item *item) {
    static uint8_t memory[MEMORY_MAX];
    uint32_t words[RAIL_WORDS] = {0}, answer, n;
    const uint32_t setting = item->size < 8 ? 0 : rail_get32(item->payload + 4);
    const struct kind *kind = item->size < 4 ? NULL : kind_of(rail_get16(item->payload + 2), setting);
    const size_t size = kind == NULL ? 0 : rail_get16(item->payload);
    const size_t at = kind == NULL || size > MEMORY_MAX ? 0 : take_numbers(kind, item, words);
    if (at == 0 || !place_strings(kind, item, at, words))
        return bad_item();
    words[RAIL_WORD_TYPE] = kind->type;
    memset(memory, 0xEE, sizeof memory);
    answer = (item->kind == 'P' ? rail_pdu_write : rail_counter_write)(words, item->payload, item->size, memory, size);
    n = rail_number(answer) == RAIL_DONE ? rail_bytes(answer) : 0;
    if (n > size || !untouched(memory, n)) {
        puts("output memory changed");
        return 0;
    }
    printf("%c %u", item->kind, rail_number(answer));
    if (rail_number(answer) == RAIL_DONE)
        print_hex(" ", memory, n);
    putchar('\n');
    return 1;
}

/* R: reads a message; r: in the counter profile. A refusal writes no word. */
static int read_message(const struct item *item) {
    uint32_t words[RAIL_WORDS] = {0}, w, written = 0;
    const uint32_t number = (item->kind == 'R' ? rail_pdu_read : rail_counter_read)(item->payload, item->size, words);
    for (w = 0; w < RAIL_WORDS; w++)
        written |= words[w];
    if (number != RAIL_DONE && written != 0) {
        puts("words changed");
        return 0;
    }
    if (number == RAIL_DONE)
        print_record(item->kind, item->payload, words);
    else
        printf("%c %u", item->kind, number);
    putchar('\n');
    return 1;
}

/* The chunk memory, and how much of it the next call on it lacks. */
static uint8_t chunk_memory[RAIL_CHUNK_SIZE];
static size_t lack;

static size_t lent(void) {
    const size_t size = lack < RAIL_CHUNK_SIZE ? RAIL_CHUNK_SIZE - lack : 0;
    lack = 0;
    return size;
}

/* K: takes a chunk. 1 and 15 change no byte, 16 only what says that something is begun. */
static int take_chunk(const struct item *item) {
    static uint8_t before[RAIL_CHUNK_SIZE];
    uint32_t words[RAIL_WORDS] = {0}, answer, number;
    memcpy(before, chunk_memory, sizeof before);
    answer = rail_chunk(chunk_memory, lent(), item->payload, item->size, words);
    number = rail_number(answer);
    if ((number == RAIL_BAD_STATE || number == RAIL_CHUNK_TOO_SHORT || number == RAIL_BAD_CHUNK) &&
        memcmp(before, chunk_memory, number == RAIL_BAD_CHUNK ? RAIL_MESSAGE_MAX : RAIL_CHUNK_SIZE) != 0) {
        puts("chunk memory changed");
        return 0;
    }
    if (number == RAIL_DONE && rail_count(answer) == 1)
        print_record('K', chunk_memory, words);
    else
        printf("K %u", number);
    putchar('\n');
    return 1;
}

/* E: empties the chunk memory. */
static int empty(const struct item *item) {
    if (item->size != 0)
        return bad_item();
    printf("E %u\n", rail_chunk_reset(chunk_memory, lent()));
    return 1;
}

/* T: the next K or E is lent less. */
static int shorten(const struct item *item) {
    if (item->size != 2 || rail_get16(item->payload) == 0)
        return bad_item();
    lack = rail_get16(item->payload);
    return 1;
}

/* X: a byte of the chunk memory changes. */
static int fault(const struct item *item) {
    if (item->size != 5 || rail_get32(item->payload) >= RAIL_CHUNK_SIZE)
        return bad_item();
    chunk_memory[rail_get32(item->payload)] ^= item->payload[4];
    return 1;
}

/* Runs an item. Whether the run goes on. */
static int run(const struct item *item) {
    switch (item->kind) {
    case 'R':
    case 'r': return read_message(item);
    case 'P':
    case 'p': return write_record(item);
    case 'K': return take_chunk(item);
    case 'E': return empty(item);
    case 'T': return shorten(item);
    case 'X': return fault(item);
    default: return bad_item();
    }
}

int main(void) {
    static struct item item;
    int got;
    memset(chunk_memory, 0xEE, sizeof chunk_memory);
    rail_chunk_reset(chunk_memory, sizeof chunk_memory);
    while ((got = next_item(&item)) == 1)
        if (!run(&item))
            return 0;
    if (got != 0)
        bad_item();
    return 0;
}
