/* Chunks of the channel: messages cut in many ways, the refusals with every byte of the memory, unfit and longer memory. */
#include "check.h"

static uint8_t *memory, *before, *piece; /* each ends before a fence */
static uint32_t words[RAIL_WORDS], uncut[RAIL_WORDS];

/* Gives a chunk whose last byte stands before the fence. */
static uint32_t give(uint32_t total, uint32_t flags, const uint8_t *data, size_t size) {
    uint8_t *chunk = piece + RAIL_MESSAGE_MAX - size;
    int i;
    for (i = 0; i < 4; i++) {
        chunk[i] = (uint8_t)(total >> 8 * i & 255);
        chunk[4 + i] = (uint8_t)(flags >> 8 * i & 255);
    }
    memmove(chunk + RAIL_CHUNK_HEAD_SIZE, data, size);
    memcpy(before, memory, RAIL_CHUNK_SIZE);
    memset(words, 0xEE, sizeof words);
    return rail_chunk(memory, RAIL_CHUNK_SIZE, chunk, RAIL_CHUNK_HEAD_SIZE + size, words);
}

static int no_words(void) {
    return filled((const uint8_t *)words, sizeof words, 0xEE);
}

static int same_memory(void) {
    return memcmp(before, memory, RAIL_CHUNK_SIZE) == 0;
}

/* What 16 may change: the two numbers after the message become 0. */
static int only_dropped(void) {
    return memcmp(before, memory, RAIL_MESSAGE_MAX) == 0 &&
           filled(memory + RAIL_MESSAGE_MAX, RAIL_CHUNK_SIZE - RAIL_MESSAGE_MAX, 0);
}

static void finish_message(void) {
    order.at[2] = (uint8_t)(order.size & 255);
    order.at[3] = (uint8_t)(order.size >> 8);
}

/* An Execute with strings of these lengths. */
static void build(size_t exe_or_file, size_t working_dir, size_t arguments) {
    begin_message(TS_RAIL_ORDER_EXEC);
    put16(TS_RAIL_EXEC_FLAG_EXPAND_ARGUMENTS);
    put16((uint32_t)exe_or_file);
    put16((uint32_t)working_dir);
    put16((uint32_t)arguments);
    put_run(exe_or_file + working_dir + arguments, 0x31);
    finish_message();
}

static uint32_t random_state = 7;

static uint32_t below(uint32_t limit) {
    random_state = random_state * 1664525u + 1013904223u;
    return (random_state >> 8) % limit;
}

/* Reads the uncut message: its number, and its words in `uncut`. */
static uint32_t read_whole(void) {
    memset(uncut, 0xEE, sizeof uncut);
    return rail_pdu_read(order.at, order.size, uncut);
}

/* The message in `order`, cut in `parts` places at random: answers and words are those of the uncut message. */
static void cut(uint32_t parts) {
    const uint32_t total = (uint32_t)order.size;
    const uint32_t number = read_whole();
    uint32_t at = 0, i, wrong = 0, answer;
    for (i = 0; i < parts; i++) {
        const uint32_t size = below(4) == 0 ? 0 : below(total - at + 1);
        const uint32_t other = below(2) == 0 ? 0 : 0xFFDFFFFCu; /* every bit that does not matter */
        answer = give(total, other | (i == 0 ? CHANNEL_FLAG_FIRST : 0), order.at + at, size);
        at += size;
        wrong += rail_number(answer) != RAIL_DONE || rail_count(answer) != 0 || rail_bytes(answer) != at || !no_words();
    }
    answer = give(total, CHANNEL_FLAG_LAST | (parts == 0 ? CHANNEL_FLAG_FIRST : 0), order.at + at, total - at);
    wrong += rail_number(answer) != number;
    wrong += answer != (number == RAIL_DONE ? 256u + 65536u * total : number);
    wrong += memcmp(words, uncut, sizeof words) != 0;
    wrong += memcmp(memory, order.at, total) != 0;
    /* nothing is begun */
    wrong += give(total, 0, order.at, 0) != RAIL_BAD_CHUNK;
    CHECK(wrong == 0);
}

static void cuttings(void) {
    uint32_t turn;
    for (turn = 0; turn < 300; turn++) {
        build(2 + 2 * below(20), 2 * below(20), 2 * below(20));
        if (turn % 3 == 1)
            order.at[below((uint32_t)order.size)] ^= (uint8_t)(1u << below(8));
        if (turn % 5 == 4) /* begun before: the first chunk drops it */
            CHECK(rail_bytes(give(9, CHANNEL_FLAG_FIRST, order.at, 5)) == 5);
        cut(below(6));
    }
    build(RAIL_EXE_OR_FILE_MAX, RAIL_WORKING_DIR_MAX, RAIL_ARGUMENTS_MAX);
    CHECK(order.size == RAIL_MESSAGE_MAX);
    cut(0);
    cut(11);
    order.size = 1;
    cut(0);
    cut(2);
}

/* A string's place is in the chunk memory. */
static void places(void) {
    uint32_t answer;
    build(8, 0, 4);
    CHECK(give((uint32_t)order.size, CHANNEL_FLAG_FIRST, order.at, 15) == 15u * 65536u);
    answer = give((uint32_t)order.size, CHANNEL_FLAG_LAST, order.at + 15, order.size - 15);
    CHECK(rail_number(answer) == RAIL_DONE && rail_count(answer) == 1 && rail_bytes(answer) == order.size);
    CHECK(words[RAIL_WORD_TYPE] == TS_RAIL_ORDER_EXEC);
    CHECK(words[RAIL_WORD_EXEC_EXE_OR_FILE_LENGTH] == 8);
    CHECK(memcmp(memory + words[RAIL_WORD_EXEC_EXE_OR_FILE_AT], order.at + 12, 8) == 0);
    CHECK(memcmp(memory + words[RAIL_WORD_EXEC_ARGUMENTS_AT], order.at + 20, 4) == 0);
}

static const uint8_t handshake[8] = {5, 0, 8, 0, 0xB1, 0x1D, 0, 0};

static void begin(void) {
    CHECK(give(8, CHANNEL_FLAG_FIRST, handshake, 4) == 4u * 65536u);
}

/* A refusal by 16 from a begun message: what was begun is dropped, nothing else changes. */
static void drops(uint32_t total, uint32_t flags, size_t size) {
    begin();
    CHECK(give(total, flags, handshake, size) == RAIL_BAD_CHUNK);
    CHECK(only_dropped() && no_words());
    CHECK(give(8, CHANNEL_FLAG_LAST, handshake + 4, 4) == RAIL_BAD_CHUNK);
    CHECK(same_memory());
}

static void refusals(void) {
    size_t size;
    begin();
    for (size = 0; size < RAIL_CHUNK_HEAD_SIZE; size++) {
        memcpy(before, memory, RAIL_CHUNK_SIZE);
        CHECK(rail_chunk(memory, RAIL_CHUNK_SIZE, piece + RAIL_MESSAGE_MAX + RAIL_CHUNK_HEAD_SIZE - size, size, words) == RAIL_CHUNK_TOO_SHORT);
        CHECK(same_memory());
    }
    CHECK(give(8, CHANNEL_FLAG_LAST, handshake + 4, 4) == 256u + 8u * 65536u);
    CHECK(words[RAIL_WORD_TYPE] == TS_RAIL_ORDER_HANDSHAKE && words[RAIL_WORD_HANDSHAKE_BUILD_NUMBER] == 7601);
    drops(8, CHANNEL_PACKET_COMPRESSED, 1);
    drops(8, CHANNEL_FLAG_FIRST | CHANNEL_FLAG_LAST | CHANNEL_PACKET_COMPRESSED, 8);
    drops(0, CHANNEL_FLAG_FIRST, 0);
    drops(RAIL_MESSAGE_MAX + 1, CHANNEL_FLAG_FIRST, 0);
    drops(7, 0, 0);
    drops(9, 0, 0);
    drops(8, 0, 5);
    drops(8, CHANNEL_FLAG_LAST, 3);
    drops(8, CHANNEL_FLAG_FIRST | CHANNEL_FLAG_LAST, 7);
    /* a whole message that is refused leaves nothing begun */
    begin();
    CHECK(give(9, CHANNEL_FLAG_FIRST | CHANNEL_FLAG_LAST, (const uint8_t *)"\2\0\11\0\1\0\0\0\2", 9) == RAIL_BAD_VALUE);
    CHECK(no_words());
    CHECK(give(8, CHANNEL_FLAG_LAST, handshake + 4, 4) == RAIL_BAD_CHUNK);
}

/* Memory that is too short, or not well formed: 1, and no byte changes; emptying mends what is long enough. */
static void unfit(void) {
    uint8_t *total = memory + RAIL_MESSAGE_MAX, *got = total + 4;
    size_t size;
    begin();
    memcpy(before, memory, RAIL_CHUNK_SIZE);
    for (size = 0; size < RAIL_CHUNK_SIZE; size += size < 17000 ? 1700 : 1) {
        CHECK(rail_chunk(memory, size, piece, RAIL_CHUNK_HEAD_SIZE, words) == RAIL_BAD_STATE);
        CHECK(rail_chunk_reset(memory, size) == RAIL_BAD_STATE);
    }
    CHECK(same_memory());
    CHECK(got[0] == 4 && total[0] == 8);
    got[0] = 9; /* more bytes than the total */
    CHECK(give(8, CHANNEL_FLAG_FIRST | CHANNEL_FLAG_LAST, handshake, 8) == RAIL_BAD_STATE);
    CHECK(same_memory() && no_words());
    got[0] = 4;
    total[2] = 1; /* a total of 65,544 */
    CHECK(give(8, CHANNEL_FLAG_FIRST, handshake, 8) == RAIL_BAD_STATE);
    CHECK(same_memory());
    CHECK(rail_chunk_reset(memory, RAIL_CHUNK_SIZE) == RAIL_DONE);
    CHECK(only_dropped());
    CHECK(give(8, CHANNEL_FLAG_LAST, handshake, 8) == RAIL_BAD_CHUNK);
}

/* Bytes past the measure are never changed. */
static void longer(void) {
    uint8_t *more = fenced(RAIL_CHUNK_SIZE + 100);
    memset(more, 0xA5, RAIL_CHUNK_SIZE + 100);
    CHECK(rail_chunk_reset(more, RAIL_CHUNK_SIZE + 100) == RAIL_DONE);
    CHECK(filled(more, RAIL_MESSAGE_MAX, 0xA5) && filled(more + RAIL_MESSAGE_MAX, 8, 0));
    give(8, CHANNEL_FLAG_FIRST | CHANNEL_FLAG_LAST, handshake, 8);
    CHECK(rail_chunk(more, RAIL_CHUNK_SIZE + 100, piece + RAIL_MESSAGE_MAX - 8, 16, words) == 256u + 8u * 65536u);
    CHECK(filled(more + RAIL_CHUNK_SIZE, 100, 0xA5));
}

void test_chunks(void) {
    memory = fenced(RAIL_CHUNK_SIZE);
    before = fenced(RAIL_CHUNK_SIZE);
    piece = fenced(RAIL_CHUNK_HEAD_SIZE + RAIL_MESSAGE_MAX);
    CHECK(rail_size(RAIL_MEASURE_CHUNK) == RAIL_CHUNK_SIZE);
    memset(memory, 0xA5, RAIL_CHUNK_SIZE);
    CHECK(give(8, CHANNEL_FLAG_FIRST, handshake, 8) == RAIL_BAD_STATE);
    CHECK(rail_chunk_reset(memory, RAIL_CHUNK_SIZE) == RAIL_DONE);
    cuttings();
    places();
    refusals();
    unfit();
    longer();
}
