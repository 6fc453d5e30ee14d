/*
 * What the test holds the library to: texts and buffers in memory whose every byte is known, and claims that are counted.
 */
#ifndef BROOKSADDLE_CLAIMS_H
#define BROOKSADDLE_CLAIMS_H

#include <stdint.h>
#include <stdio.h>
#include <stdlib.h>
#include <string.h>

static unsigned passed, failed;

static void claim(int holds, const char *of, const char *said)
{
    if (holds) {
        passed++;
    } else {
        failed++;
        printf("failed: %s: %s\n", of, said);
    }
}

/* A text that ends where its block of memory ends, so that a memory checker sees a byte read past it. */
struct text {
    uint8_t *block;
    size_t length;
};

static uint8_t *new_block(size_t bytes)
{
    uint8_t *block = malloc(bytes);
    if (block == NULL) {
        puts("no memory for the test");
        exit(2);
    }
    return block;
}

static struct text text_of(const char *bytes, size_t length)
{
    /* One byte more in front: no pointer to a text is NULL, even if it is empty. */
    struct text text = {new_block(length + 1), length};
    if (length > 0) {
        memcpy(text.block + 1, bytes, length);
    }
    return text;
}

static const uint8_t *bytes_of(struct text text) { return text.block + 1; }

/* A buffer with other bytes before and behind it, all of them known. */
struct lent {
    uint8_t *block;
    size_t room;
};

enum { GUARD = 160 };

static uint8_t filler(size_t place) { return (uint8_t)(place * 167 + 59); }

static struct lent lend(size_t room)
{
    struct lent lent = {new_block(GUARD + room + GUARD), room};
    for (size_t place = 0; place < GUARD + room + GUARD; place++) {
        lent.block[place] = filler(place);
    }
    return lent;
}

static uint8_t *buffer_of(struct lent lent) { return lent.block + GUARD; }

/* The buffer begins with these bytes, and every other one, before, in and behind it, is as it was. */
static int stays_but_for(struct lent lent, const char *written, size_t length)
{
    if (length > lent.room || memcmp(buffer_of(lent), written, length) != 0) {
        return 0;
    }
    for (size_t place = 0; place < GUARD + lent.room + GUARD; place++) {
        int is_written = place >= GUARD && place < GUARD + length;
        if (!is_written && lent.block[place] != filler(place)) {
            return 0;
        }
    }
    return 1;
}

#endif
