/* The items of a call script on standard input: kind (1 byte), length (2) and that many bytes. */
#ifndef SCRIPT_H
#define SCRIPT_H

#include <stdio.h>

#include "rail.h"

struct item {
    int kind;
    size_t size;
    uint8_t payload[65536];
};

/* Reads the next item: 1, 0 at the end, -1 where it is cut. */
static inline int next_item(struct item *item) {
    uint8_t head[3];
    const size_t got = fread(head, 1, sizeof head, stdin);
    if (got < sizeof head)
        return got == 0 ? 0 : -1;
    item->kind = head[0];
    item->size = rail_get16(head + 1);
    return fread(item->payload, 1, item->size, stdin) == item->size ? 1 : -1;
}

static inline void print_hex(const char *name, const uint8_t *at, size_t size) {
    size_t i;
    printf("%s", name);
    for (i = 0; i < size; i++)
        printf("%02x", at[i]);
}

#endif
