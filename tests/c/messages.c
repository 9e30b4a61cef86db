/* Control messages: the 15 kinds by their words, read, written and refused. */
#include "check.h"

/* A kind: builds a message of it in `order`, and its words. */
struct kind {
    void (*build)(uint32_t *w);
    int words;       /* how many it uses */
    uint32_t narrow; /* bit i: word i is a field of fewer than 32 bits */
};

static void finish(void) {
    order.at[2] = (uint8_t)(order.size & 255);
    order.at[3] = (uint8_t)(order.size >> 8);
}

static void execute(uint32_t *w) {
    begin_message(w[RAIL_WORD_TYPE] = TS_RAIL_ORDER_EXEC);
    put16(w[RAIL_WORD_EXEC_FLAGS] = TS_RAIL_EXEC_FLAG_EXPAND_ARGUMENTS | TS_RAIL_EXEC_FLAG_EXPAND_WORKINGDIRECTORY);
    put16(w[RAIL_WORD_EXEC_EXE_OR_FILE_LENGTH] = 20);
    put16(w[RAIL_WORD_EXEC_WORKING_DIR_LENGTH] = 38);
    put16(w[RAIL_WORD_EXEC_ARGUMENTS_LENGTH] = 24);
    w[RAIL_WORD_EXEC_EXE_OR_FILE_AT] = (uint32_t)order.size;
    w[RAIL_WORD_EXEC_WORKING_DIR_AT] = (uint32_t)order.size + 20;
    w[RAIL_WORD_EXEC_ARGUMENTS_AT] = (uint32_t)order.size + 58;
    put_run(82, 0x30);
}

static void activate(uint32_t *w) {
    begin_message(w[RAIL_WORD_TYPE] = TS_RAIL_ORDER_ACTIVATE);
    put32(w[RAIL_WORD_ACTIVATE_WINDOW_ID] = 0xF001014E);
    put8(w[RAIL_WORD_ACTIVATE_ENABLED] = 1);
}

static void system_command(uint32_t *w) {
    begin_message(w[RAIL_WORD_TYPE] = TS_RAIL_ORDER_SYSCOMMAND);
    put32(w[RAIL_WORD_SYSCOMMAND_WINDOW_ID] = 0xF0020052);
    put16(w[RAIL_WORD_SYSCOMMAND_COMMAND] = SC_MINIMIZE);
}

static void handshake(uint32_t *w) {
    begin_message(w[RAIL_WORD_TYPE] = TS_RAIL_ORDER_HANDSHAKE);
    put32(w[RAIL_WORD_HANDSHAKE_BUILD_NUMBER] = 0xF0001DB1);
}

static void notify_event(uint32_t *w) {
    begin_message(w[RAIL_WORD_TYPE] = TS_RAIL_ORDER_NOTIFY_EVENT);
    put32(w[RAIL_WORD_NOTIFY_EVENT_WINDOW_ID] = 0xF00201AA);
    put32(w[RAIL_WORD_NOTIFY_EVENT_NOTIFY_ICON_ID] = 0xF0000002);
    put32(w[RAIL_WORD_NOTIFY_EVENT_MESSAGE] = NIN_BALLOONUSERCLICK);
}

static void window_move(uint32_t *w) {
    begin_message(w[RAIL_WORD_TYPE] = TS_RAIL_ORDER_WINDOWMOVE);
    put32(w[RAIL_WORD_WINDOWMOVE_WINDOW_ID] = 0xF0000101);
    put16(w[RAIL_WORD_WINDOWMOVE_LEFT] = rail_coordinate_word(-100));
    put16(w[RAIL_WORD_WINDOWMOVE_TOP] = 0x0102);
    put16(w[RAIL_WORD_WINDOWMOVE_RIGHT] = 0x0304);
    put16(w[RAIL_WORD_WINDOWMOVE_BOTTOM] = rail_coordinate_word(-0x7AFA));
}

static void move_size(uint32_t *w) {
    begin_message(w[RAIL_WORD_TYPE] = TS_RAIL_ORDER_LOCALMOVESIZE);
    put32(w[RAIL_WORD_LOCALMOVESIZE_WINDOW_ID] = 0xF0000202);
    put16(w[RAIL_WORD_LOCALMOVESIZE_IS_START] = 1);
    put16(w[RAIL_WORD_LOCALMOVESIZE_TYPE] = RAIL_WMSZ_BOTTOMRIGHT);
    put16(w[RAIL_WORD_LOCALMOVESIZE_POS_X] = rail_coordinate_word(-1));
    put16(w[RAIL_WORD_LOCALMOVESIZE_POS_Y] = 0x0708);
}

static void min_max_info(uint32_t *w) {
    begin_message(w[RAIL_WORD_TYPE] = TS_RAIL_ORDER_MINMAXINFO);
    put32(w[RAIL_WORD_MINMAXINFO_WINDOW_ID] = 0xF0000303);
    put16(w[RAIL_WORD_MINMAXINFO_MAX_WIDTH] = 0x8102);
    put16(w[RAIL_WORD_MINMAXINFO_MAX_HEIGHT] = 0x8304);
    put16(w[RAIL_WORD_MINMAXINFO_MAX_POS_X] = rail_coordinate_word(-8));
    put16(w[RAIL_WORD_MINMAXINFO_MAX_POS_Y] = rail_coordinate_word(-9));
    put16(w[RAIL_WORD_MINMAXINFO_MIN_TRACK_WIDTH] = 0x0506);
    put16(w[RAIL_WORD_MINMAXINFO_MIN_TRACK_HEIGHT] = 0x0708);
    put16(w[RAIL_WORD_MINMAXINFO_MAX_TRACK_WIDTH] = 0x090A);
    put16(w[RAIL_WORD_MINMAXINFO_MAX_TRACK_HEIGHT] = 0x0B0C);
}

static void client_information(uint32_t *w) {
    begin_message(w[RAIL_WORD_TYPE] = TS_RAIL_ORDER_CLIENTSTATUS);
    put32(w[RAIL_WORD_CLIENTSTATUS_FLAGS] = TS_RAIL_CLIENTSTATUS_ALLOWLOCALMOVESIZE | TS_RAIL_CLIENTSTATUS_AUTORECONNECT);
}

static void system_menu(uint32_t *w) {
    begin_message(w[RAIL_WORD_TYPE] = TS_RAIL_ORDER_SYSMENU);
    put32(w[RAIL_WORD_SYSMENU_WINDOW_ID] = 0xF0090122);
    put16(w[RAIL_WORD_SYSMENU_LEFT] = rail_coordinate_word(-92));
    put16(w[RAIL_WORD_SYSMENU_TOP] = 0x024A);
}

static void get_application_id(uint32_t *w) {
    begin_message(w[RAIL_WORD_TYPE] = TS_RAIL_ORDER_GET_APPID_REQ);
    put32(w[RAIL_WORD_GET_APPID_REQ_WINDOW_ID] = 0xF0020052);
}

static void application_id_response(uint32_t *w) {
    begin_message(w[RAIL_WORD_TYPE] = TS_RAIL_ORDER_GET_APPID_RESP);
    put32(w[RAIL_WORD_GET_APPID_RESP_WINDOW_ID] = 0xF0020053);
    w[RAIL_WORD_GET_APPID_RESP_APPLICATION_ID_AT] = (uint32_t)order.size;
    put_run(w[RAIL_WORD_GET_APPID_RESP_APPLICATION_ID_LENGTH] = RAIL_APPLICATION_ID_SIZE, 0x21);
}

static void execute_result(uint32_t *w) {
    begin_message(w[RAIL_WORD_TYPE] = TS_RAIL_ORDER_EXEC_RESULT);
    put16(w[RAIL_WORD_EXEC_RESULT_FLAGS] = 0xFFFF);
    put16(w[RAIL_WORD_EXEC_RESULT_EXEC_RESULT] = RAIL_EXEC_E_NOT_IN_ALLOWLIST);
    put32(w[RAIL_WORD_EXEC_RESULT_RAW_RESULT] = 0xF0000015);
    put16(0);
    put16(w[RAIL_WORD_EXEC_RESULT_EXE_OR_FILE_LENGTH] = 23);
    w[RAIL_WORD_EXEC_RESULT_EXE_OR_FILE_AT] = (uint32_t)order.size;
    put_run(23, 0x61);
}

static void byte_setting(uint32_t *w) {
    begin_message(w[RAIL_WORD_TYPE] = TS_RAIL_ORDER_SYSPARAM);
    put32(w[RAIL_WORD_SYSPARAM_SYSTEM_PARAM] = SPI_SETKEYBOARDCUES);
    put8(w[RAIL_WORD_SYSPARAM_VALUE] = 0xFE);
}

static void area_setting(uint32_t *w) {
    begin_message(w[RAIL_WORD_TYPE] = TS_RAIL_ORDER_SYSPARAM);
    put32(w[RAIL_WORD_SYSPARAM_SYSTEM_PARAM] = RAIL_SPI_TASKBARPOS);
    put16(w[RAIL_WORD_SYSPARAM_LEFT] = 0xFFFF);
    put16(w[RAIL_WORD_SYSPARAM_TOP] = 0x0102);
    put16(w[RAIL_WORD_SYSPARAM_RIGHT] = 0x0304);
    put16(w[RAIL_WORD_SYSPARAM_BOTTOM] = 0x8506);
}

static void high_contrast(uint32_t *w) {
    begin_message(w[RAIL_WORD_TYPE] = TS_RAIL_ORDER_SYSPARAM);
    put32(w[RAIL_WORD_SYSPARAM_SYSTEM_PARAM] = SPI_SETHIGHCONTRAST);
    put32(w[RAIL_WORD_SYSPARAM_FLAGS] = 0xF000007E);
    put32(21 + 2);
    put16(w[RAIL_WORD_SYSPARAM_COLOR_SCHEME_LENGTH] = 21);
    w[RAIL_WORD_SYSPARAM_COLOR_SCHEME_AT] = (uint32_t)order.size;
    put_run(21, 0x61);
}

static void handshake_ex(uint32_t *w) {
    begin_message(w[RAIL_WORD_TYPE] = TS_RAIL_ORDER_HANDSHAKE_EX);
    put32(w[RAIL_WORD_HANDSHAKE_EX_BUILD_NUMBER] = 0xF0001DB1);
    put32(w[RAIL_WORD_HANDSHAKE_EX_FLAGS] = 0xF0000000 | TS_RAIL_ORDER_HANDSHAKEEX_FLAGS_HIDEF);
}

#define KINDS 17
static const struct kind kinds[KINDS] = {
    {execute, 8, 0x02},          {activate, 3, 0x04},      {system_command, 3, 0x04},
    {handshake, 2, 0},           {notify_event, 4, 0},     {window_move, 6, 0x3C},
    {move_size, 6, 0x3C},        {min_max_info, 10, 0x3FC}, {client_information, 2, 0},
    {system_menu, 4, 0x0C},      {get_application_id, 2, 0}, {application_id_response, 4, 0},
    {execute_result, 6, 0x06},   {byte_setting, 3, 0x06},  {area_setting, 6, 0x3E},
    {high_contrast, 5, 0x02},    {handshake_ex, 3, 0},
};

static void build(int k, uint32_t w[RAIL_WORDS]) {
    memset(w, 0, RAIL_WORDS * sizeof w[0]);
    kinds[k].build(w);
    finish();
}

/* The message in `order` meets the number, which is the whole answer, and no word is written. */
static void refuse_read(size_t size, uint32_t number) {
    uint32_t words[RAIL_WORDS], i, same = 0;
    memset(words, 0xEE, sizeof words);
    CHECK(rail_pdu_read(order.at, size, words) == number && rail_number(number) == number);
    for (i = 0; i < RAIL_WORDS; i++)
        same += words[i] == 0xEEEEEEEEu;
    CHECK(same == RAIL_WORDS);
}

/* A write that grants n bytes; one that meets a number, which is then the whole answer, and leaves `out` as it was. */
static int granted(uint32_t answer, size_t n) {
    return rail_number(answer) == RAIL_DONE && rail_bytes(answer) == n && answer == (uint32_t)n << 16;
}

static int refused(uint32_t answer, uint32_t number) {
    return rail_number(answer) == number && rail_number(answer) != RAIL_DONE && rail_bytes(answer) == 0 && answer == number;
}

static uint32_t write_words(const uint32_t *w, uint8_t *out, size_t size) {
    return rail_pdu_write(w, order.at, order.size, out, size);
}

/* Out memory one byte too small, just enough, and more. */
static void check_out(const uint32_t *w) {
    const size_t n = order.size;
    uint8_t *less = fenced(n - 1), *exact = fenced(n), *more = fenced(n + 99);
    memset(less, 0xEE, n - 1);
    memset(more, 0xEE, n + 99);
    CHECK(refused(write_words(w, less, n - 1), RAIL_OUTPUT_TOO_SMALL));
    CHECK(filled(less, n - 1, 0xEE));
    CHECK(granted(write_words(w, exact, n), n) && memcmp(exact, order.at, n) == 0);
    CHECK(granted(write_words(w, more, n + 99), n) && memcmp(more, order.at, n) == 0);
    CHECK(filled(more + n, 99, 0xEE));
}

/* How many of the numbers 0 to 65,535 at `at` the reader grants; `sum` is the sum of those. */
static uint32_t granted_at(size_t at, uint32_t *sum) {
    uint32_t number, count = 0, words[RAIL_WORDS];
    *sum = 0;
    for (number = 0; number < 65536; number++) {
        order.at[at] = (uint8_t)(number & 255);
        order.at[at + 1] = (uint8_t)(number >> 8);
        if (rail_pdu_read(order.at, order.size, words) == RAIL_DONE) {
            count++;
            *sum += number;
        }
    }
    return count;
}

/* The fields with closed sets grant exactly the values named in rail/protocol.h. */
static void closed_sets(void) {
    uint32_t w[RAIL_WORDS], sum;
    build(2, w);
    CHECK(granted_at(8, &sum) == 8);
    CHECK(sum == SC_SIZE + SC_MOVE + SC_MINIMIZE + SC_MAXIMIZE + SC_CLOSE + SC_KEYMENU + SC_RESTORE + SC_DEFAULT);
    build(6, w);
    CHECK(granted_at(10, &sum) == 11);
    CHECK(sum == RAIL_WMSZ_LEFT + RAIL_WMSZ_RIGHT + RAIL_WMSZ_TOP + RAIL_WMSZ_TOPLEFT + RAIL_WMSZ_TOPRIGHT + RAIL_WMSZ_BOTTOM +
                     RAIL_WMSZ_BOTTOMLEFT + RAIL_WMSZ_BOTTOMRIGHT + RAIL_WMSZ_MOVE + RAIL_WMSZ_KEYMOVE + RAIL_WMSZ_KEYSIZE);
    build(12, w);
    CHECK(granted_at(6, &sum) == 7);
    CHECK(sum == RAIL_EXEC_S_OK + RAIL_EXEC_E_HOOK_NOT_LOADED + RAIL_EXEC_E_DECODE_FAILED + RAIL_EXEC_E_NOT_IN_ALLOWLIST +
                     RAIL_EXEC_E_FILE_NOT_FOUND + RAIL_EXEC_E_FAIL + RAIL_EXEC_E_SESSION_LOCKED);
}

/* Of all flags of Execute those are granted that have named bits only, and TRANSLATE_FILES only beside FILE. */
static void execute_flags(void) {
    const uint32_t any = TS_RAIL_EXEC_FLAG_EXPAND_WORKINGDIRECTORY | TS_RAIL_EXEC_FLAG_EXPAND_ARGUMENTS |
                         TS_RAIL_EXEC_FLAG_APP_USER_MODEL_ID;
    uint32_t flags, wrong = 0, w[RAIL_WORDS];
    build(0, w);
    for (flags = 0; flags < 65536; flags++) {
        const uint32_t files = flags & ~any;
        const int granted = files == 0 || files == TS_RAIL_EXEC_FLAG_FILE ||
                            files == (TS_RAIL_EXEC_FLAG_FILE | TS_RAIL_EXEC_FLAG_TRANSLATE_FILES);
        order.at[4] = (uint8_t)(flags & 255);
        order.at[5] = (uint8_t)(flags >> 8);
        wrong += rail_pdu_read(order.at, order.size, w) != (granted ? RAIL_DONE : RAIL_BAD_VALUE);
    }
    CHECK(wrong == 0);
    CHECK(TS_RAIL_EXEC_FLAG_EXPAND_WORKINGDIRECTORY + TS_RAIL_EXEC_FLAG_TRANSLATE_FILES + TS_RAIL_EXEC_FLAG_FILE +
              TS_RAIL_EXEC_FLAG_EXPAND_ARGUMENTS + TS_RAIL_EXEC_FLAG_APP_USER_MODEL_ID == 0x1F); /* a bit each */
}

/* An Execute whose strings have these lengths. */
static void build_execute(size_t exe_or_file, size_t working_dir, size_t arguments) {
    begin_message(TS_RAIL_ORDER_EXEC);
    put16(0);
    put16((uint32_t)exe_or_file);
    put16((uint32_t)working_dir);
    put16((uint32_t)arguments);
    put_run(exe_or_file + working_dir + arguments, 0x20);
    finish();
}

/* The greatest message, and each of its strings longer by the least. */
static void longest(void) {
    uint32_t words[RAIL_WORDS];
    build_execute(RAIL_EXE_OR_FILE_MAX, RAIL_WORKING_DIR_MAX, RAIL_ARGUMENTS_MAX);
    CHECK(order.size == RAIL_MESSAGE_MAX);
    CHECK(rail_pdu_read(order.at, order.size, words) == RAIL_DONE);
    CHECK(words[RAIL_WORD_EXEC_ARGUMENTS_AT] + words[RAIL_WORD_EXEC_ARGUMENTS_LENGTH] == RAIL_MESSAGE_MAX);
    check_out(words);
    build_execute(RAIL_EXE_OR_FILE_MAX + 2, 0, 0);
    refuse_read(order.size, RAIL_BAD_VALUE);
    build_execute(2, RAIL_WORKING_DIR_MAX + 2, 0);
    refuse_read(order.size, RAIL_BAD_VALUE);
    build_execute(2, 0, RAIL_ARGUMENTS_MAX + 2);
    refuse_read(order.size, RAIL_BAD_VALUE);
    build_execute(0, 2, 2);
    refuse_read(order.size, RAIL_BAD_VALUE);
}

/* Each setting with a body of `size` bytes of 1; those granted, counted, and the sum of their numbers. */
static uint32_t settings_of(size_t size, uint32_t *sum) {
    uint32_t number, count = 0, words[RAIL_WORDS];
    *sum = 0;
    for (number = 0; number < 65536; number++) {
        begin_message(TS_RAIL_ORDER_SYSPARAM);
        put32(number);
        put_run(size, 1);
        finish();
        if (rail_pdu_read(order.at, order.size, words) == RAIL_DONE) {
            CHECK(words[RAIL_WORD_SYSPARAM_SYSTEM_PARAM] == number);
            count++;
            *sum += number;
        }
    }
    return count;
}

/* A message of high contrast with these lengths. */
static void build_scheme(uint32_t outer, size_t inner) {
    begin_message(TS_RAIL_ORDER_SYSPARAM);
    put32(SPI_SETHIGHCONTRAST);
    put32(0);
    put32(outer);
    put16((uint32_t)inner);
    put_run(inner, 0x41);
    finish();
}

/* The settings are those named in rail/protocol.h; an unknown one is a bad value, a cut one a misfit; a color scheme's lengths. */
static void settings(void) {
    const size_t most = RAIL_COLOR_SCHEME_MAX;
    uint32_t sum, words[RAIL_WORDS];
    size_t size;
    CHECK(settings_of(1, &sum) == 6);
    CHECK(sum == SPI_SETDRAGFULLWINDOWS + SPI_SETKEYBOARDCUES + SPI_SETKEYBOARDPREF + SPI_SETMOUSEBUTTONSWAP +
                     SPI_SETSCREENSAVEACTIVE + SPI_SETSCREENSAVESECURE);
    CHECK(settings_of(8, &sum) == 3 && sum == SPI_SETWORKAREA + RAIL_SPI_TASKBARPOS + RAIL_SPI_DISPLAYCHANGE);
    for (size = 4; size <= 12; size++) {
        begin_message(TS_RAIL_ORDER_SYSPARAM);
        put32(0x10000 + SPI_SETDRAGFULLWINDOWS);
        put32(1);
        order.size = size;
        finish();
        refuse_read(size, size < 8 ? RAIL_FIELDS_MISFIT : RAIL_BAD_VALUE);
    }
    build_scheme(2, 0);
    CHECK(rail_pdu_read(order.at, order.size, words) == RAIL_DONE && words[RAIL_WORD_SYSPARAM_COLOR_SCHEME_AT] == order.size);
    build_scheme((uint32_t)most + 2, most);
    CHECK(rail_pdu_read(order.at, order.size, words) == RAIL_DONE);
    check_out(words);
    build_scheme((uint32_t)most + 3, most + 1);
    refuse_read(order.size, RAIL_BAD_VALUE);
    build_scheme((uint32_t)most + 2, most + 1); /* the outer length comes first */
    refuse_read(order.size, RAIL_FIELDS_MISFIT);
    build_scheme(UINT32_MAX, 3);
    refuse_read(order.size, RAIL_FIELDS_MISFIT);
    build_scheme(0x10005, 3);
    refuse_read(order.size, RAIL_FIELDS_MISFIT);
}

/* Message `k`: its words, written again, and cut. */
static void read_kind(int k) {
    uint32_t w[RAIL_WORDS], words[RAIL_WORDS];
    build(k, w);
    memset(words, 0xEE, sizeof words);
    CHECK(rail_pdu_read(order.at, order.size, words) == RAIL_DONE);
    CHECK(memcmp(words, w, sizeof w) == 0);
    check_out(w);
    refuse_read(3, RAIL_TOO_SHORT);
    refuse_read(order.size - 1, RAIL_LENGTH_DIFFERS);
    order.size = 4;
    finish();
    refuse_read(4, RAIL_FIELDS_MISFIT);
}

static void refuse_type(uint32_t type) {
    begin_message(type);
    finish();
    refuse_read(4, RAIL_UNKNOWN_TYPE);
}

void test_reading(void) {
    uint32_t w[RAIL_WORDS], words[RAIL_WORDS];
    int k;
    for (k = 0; k < KINDS; k++)
        read_kind(k);
    refuse_type(0x0007);
    refuse_type(TS_RAIL_ORDER_LANGBARINFO);
    refuse_type(0x0014);
    build(1, w);
    order.at[8] = 2;
    refuse_read(order.size, RAIL_BAD_VALUE);
    build(6, w);
    order.at[9] = 0x80; /* IsMoveSizeStart 8001 reads as yes */
    CHECK(rail_pdu_read(order.at, order.size, words) == RAIL_DONE && memcmp(words, w, sizeof w) == 0);
    closed_sets();
    execute_flags();
    longest();
    settings();
}

/* The counter profile: whether a server and whether a client sends each kind, in the order above. */
static const char senders[KINDS + 1] = "ccceccssccc" "sscccs";

/* Kind `k` in the profile: its message is read and its words are written by their end only. */
static void counter_kind(int k) {
    const uint32_t number = senders[k] == 'c' ? RAIL_WRONG_END : RAIL_DONE;
    uint32_t w[RAIL_WORDS], words[RAIL_WORDS], plain, answer;
    uint8_t out[RAIL_MESSAGE_MAX];
    build(k, w);
    memset(words, 0, sizeof words);
    CHECK(rail_counter_read(order.at, order.size, words) == number);
    CHECK(number == RAIL_DONE ? memcmp(words, w, sizeof w) == 0 : words[0] == 0);
    memset(out, 0xEE, sizeof out);
    plain = rail_pdu_write(w, order.at, order.size, out, sizeof out);
    memset(out, 0xEE, sizeof out);
    answer = rail_counter_write(w, order.at, order.size, out, sizeof out);
    if (k == 0 || senders[k] == 's') {
        CHECK(refused(answer, k == 0 ? RAIL_NOT_PERMITTED : RAIL_WRONG_END) && filled(out, sizeof out, 0xEE));
    } else {
        CHECK(answer == plain && memcmp(out, order.at, order.size) == 0 && out[order.size] == 0xEE);
    }
    memset(out, 0xEE, sizeof out);
    CHECK(refused(rail_counter_write(w, order.at, order.size, out, order.size - 1), RAIL_OUTPUT_TOO_SMALL)); /* before 20 and 21 */
    CHECK(filled(out, sizeof out, 0xEE));
}

/* The number that an Execute with these flags of the first `size` bytes of a name meets. */
static uint32_t counter_execute(uint32_t flags, const char *name, uint32_t size) {
    const uint32_t w[RAIL_WORDS] = {TS_RAIL_ORDER_EXEC, flags, 0, size, 0, 0, 0, 0, 0, 0, 0, 0};
    uint8_t out[64];
    uint32_t answer;
    memset(out, 0xEE, sizeof out);
    answer = rail_counter_write(w, (const uint8_t *)name, size, out, sizeof out);
    CHECK(rail_number(answer) == RAIL_DONE ? rail_bytes(answer) == 12 + size && memcmp(out + 12, name, size) == 0 : filled(out, sizeof out, 0xEE));
    return rail_number(answer);
}

void test_counter(void) {
    static const char name[] = "|\0|\0a\0";
    const uint32_t barred = TS_RAIL_EXEC_FLAG_TRANSLATE_FILES | TS_RAIL_EXEC_FLAG_FILE | TS_RAIL_EXEC_FLAG_APP_USER_MODEL_ID;
    uint32_t flags;
    int k;
    for (k = 0; k < KINDS; k++)
        counter_kind(k);
    for (flags = 0; flags < 0x20; flags++) {
        const int lone = (flags & TS_RAIL_EXEC_FLAG_TRANSLATE_FILES) != 0 && (flags & TS_RAIL_EXEC_FLAG_FILE) == 0;
        CHECK(counter_execute(flags, name, 6) == (lone ? RAIL_BAD_VALUE : (flags & barred) != 0 ? RAIL_NOT_PERMITTED : RAIL_DONE));
    }
    CHECK(counter_execute(0x20, name, 6) == RAIL_BAD_VALUE);
    CHECK(counter_execute(0, name, 4) == RAIL_NOT_PERMITTED && counter_execute(0, name, 2) == RAIL_NOT_PERMITTED);
    CHECK(counter_execute(0, name, 5) == RAIL_BAD_VALUE);
    CHECK(counter_execute(0, "}\0|\0a\0", 6) == RAIL_NOT_PERMITTED && counter_execute(0, "|\1|\0a\0", 6) == RAIL_NOT_PERMITTED);
    CHECK(counter_execute(0, "|\0{\0a\0", 6) == RAIL_NOT_PERMITTED && counter_execute(0, "|\0|\1a\0", 6) == RAIL_NOT_PERMITTED);
    CHECK(counter_execute(0, "|\0|\0\0\0", 6) == RAIL_DONE && counter_execute(0, "|\0|\0|\0|\0", 8) == RAIL_DONE);
}

/* These words are no record. */
static void refuse_words(const uint32_t *w) {
    uint8_t out[RAIL_MESSAGE_MAX];
    memset(out, 0xEE, sizeof out);
    CHECK(refused(rail_pdu_write(w, order.at, order.size, out, sizeof out), RAIL_BAD_VALUE));
    CHECK(refused(rail_pdu_write(w, order.at, order.size, out, 0), RAIL_BAD_VALUE)); /* before 14 */
    CHECK(filled(out, sizeof out, 0xEE));
}

/* Strings from elsewhere, in another order, and a short Application ID. */
static void write_strings(void) {
    static const uint8_t strings[] = {'a', 0, 'w', 0, 'w', 0, 'e', 0, 'x', 0, 'e', 0};
    static const uint8_t wanted[] = {1, 0, 24, 0, 0, 0, 6, 0, 4, 0, 2, 0, 'e', 0, 'x', 0, 'e', 0, 'w', 0, 'w', 0, 'a', 0};
    uint32_t w[RAIL_WORDS] = {TS_RAIL_ORDER_EXEC, 0, 6, 6, 2, 4, 0, 2, 0, 0, 0, 0};
    uint8_t out[RAIL_MESSAGE_MAX];
    uint32_t id[RAIL_WORDS] = {TS_RAIL_ORDER_GET_APPID_RESP, 7, 2, 3, 0, 0, 0, 0, 0, 0, 0, 0};
    CHECK(granted(rail_pdu_write(w, strings, sizeof strings, out, sizeof out), sizeof wanted));
    CHECK(memcmp(out, wanted, sizeof wanted) == 0);
    w[RAIL_WORD_EXEC_WORKING_DIR_AT] = 9; /* runs over the end */
    CHECK(refused(rail_pdu_write(w, strings, sizeof strings, out, sizeof out), RAIL_BAD_VALUE));
    w[RAIL_WORD_EXEC_WORKING_DIR_AT] = UINT32_MAX;
    CHECK(refused(rail_pdu_write(w, strings, sizeof strings, out, sizeof out), RAIL_BAD_VALUE));
    w[RAIL_WORD_EXEC_WORKING_DIR_LENGTH] = 0; /* empty, and past the end */
    CHECK(refused(rail_pdu_write(w, strings, sizeof strings, out, sizeof out), RAIL_BAD_VALUE));
    w[RAIL_WORD_EXEC_WORKING_DIR_AT] = sizeof strings;
    CHECK(granted(rail_pdu_write(w, strings, sizeof strings, out, sizeof out), sizeof wanted - 4));
    memset(out, 0xEE, sizeof out);
    CHECK(granted(rail_pdu_write(id, strings, sizeof strings, out, sizeof out), 528));
    CHECK(out[8] == 'w' && out[9] == 0 && out[10] == 'w' && filled(out + 11, 517, 0) && out[528] == 0xEE);
}

/* Words of kind `k` with one word after the last, or one too great for its field. */
static void refuse_word(int k, int i) {
    uint32_t w[RAIL_WORDS];
    build(k, w);
    if (i >= kinds[k].words) {
        w[i] = 1;
        refuse_words(w);
    } else if (kinds[k].narrow >> i & 1) {
        w[i] += 65536;
        refuse_words(w);
    }
}

static void write_kind(int k) {
    uint32_t w[RAIL_WORDS];
    int i;
    build(k, w);
    check_out(w);
    for (i = 0; i < RAIL_WORDS; i++)
        refuse_word(k, i);
    build(k, w);
    w[RAIL_WORD_TYPE] += 65536;
    refuse_words(w);
    w[RAIL_WORD_TYPE] = TS_RAIL_ORDER_LANGBARINFO;
    refuse_words(w);
}

void test_writing(void) {
    uint32_t w[RAIL_WORDS];
    int k;
    for (k = 0; k < KINDS; k++)
        write_kind(k);
    build(6, w);
    w[RAIL_WORD_LOCALMOVESIZE_IS_START] = 2;
    refuse_words(w);
    build(1, w);
    w[RAIL_WORD_ACTIVATE_ENABLED] = 257;
    refuse_words(w);
    build(13, w);
    w[RAIL_WORD_SYSPARAM_SYSTEM_PARAM] = RAIL_SPI_TASKBARPOS; /* a byte is a rectangle with three zeros */
    order.size = 16;
    CHECK(rail_bytes(write_words(w, fenced(16), 16)) == 16);
    w[RAIL_WORD_SYSPARAM_SYSTEM_PARAM] = 0x99;
    refuse_words(w);
    w[RAIL_WORD_SYSPARAM_SYSTEM_PARAM] = SPI_SETDRAGFULLWINDOWS;
    w[RAIL_WORD_SYSPARAM_VALUE] = 256;
    refuse_words(w);
    write_strings();
}
