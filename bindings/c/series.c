/* Indexes a series of slices by their identifiers, looks some up, and lists one study page by page while a slice is taken out. */
#include "ponybollard.h"

#include <stdio.h>
#include <stdlib.h>
#include <string.h>

/* Room for 500 slices. Nothing else is needed: the library takes no memory. */
static uint8_t store[PONYBOLLARD_STORE_SIZE(500)];

/* An answer that is not the one expected ends the program. */
static void expect(const char *what, uint32_t answer, uint32_t wanted)
{
    if (answer != wanted) {
        fprintf(stderr, "series: %s answered %u, not %u\n", what, (unsigned)answer, (unsigned)wanted);
        exit(1);
    }
}

/* The identifier of a slice of one of two studies. */
static size_t identifier(char *key, size_t room, int study, int slice)
{
    return (size_t)snprintf(key, room, "1.2.840.113619.2.%d.%d", study, slice);
}

/* Prints the entries of a page, and copies the last key; returns its length. */
static size_t print_page(const uint8_t *out, size_t bytes, uint8_t *last)
{
    size_t at = 0, len = 0;
    while (at < bytes) {
        const uint8_t *key = out + at + 3, *value;
        len = (size_t)out[at + 1] << 8 | out[at + 2];
        value = key + len + 3;
        printf("%.*s -> %lu\n", (int)len, (const char *)key,
               (unsigned long)value[0] << 24 | (unsigned long)value[1] << 16 | (unsigned long)value[2] << 8 | value[3]);
        memcpy(last, key, len);
        at += len + 10;
    }
    return len;
}

/* Each refusal, once. */
static void refusals(void)
{
    uint8_t small[2 * 128], long_key[PONYBOLLARD_KEY_LIMIT + 1] = {0}, out[1];
    size_t entries, bytes;
    bool end;

    expect("create in 255 bytes", ponybollard_create(small, sizeof small - 1, 0), PONYBOLLARD_ROOM);
    expect("create", ponybollard_create(small, sizeof small, 0), PONYBOLLARD_DONE);
    expect("a long key", ponybollard_insert(small, sizeof small, long_key, sizeof long_key, 1), PONYBOLLARD_KEY);
    expect("insert", ponybollard_insert(small, sizeof small, NULL, 0, 1), PONYBOLLARD_DONE);
    expect("insert under limit 0", ponybollard_insert(small, sizeof small, long_key, 1, 1), PONYBOLLARD_HEIGHT);
    expect("set_limit", ponybollard_set_limit(small, sizeof small, PONYBOLLARD_NO_LIMIT), PONYBOLLARD_DONE);
    expect("insert past the capacity", ponybollard_insert(small, sizeof small, long_key, 1, 1), PONYBOLLARD_FULL);
    expect("a page without room", ponybollard_first_page(small, sizeof small, NULL, 0, true, 1, out, sizeof out, &entries, &bytes, &end), PONYBOLLARD_COUNT);
}

int main(void)
{
    char key[PONYBOLLARD_KEY_LIMIT + 1];
    uint8_t out[3 * PONYBOLLARD_ENTRY_LIMIT], last[PONYBOLLARD_KEY_LIMIT];
    const char *prefix = "1.2.840.113619.2.7.";
    size_t entries, bytes, last_len;
    bool empty, end;
    uint32_t value;
    int slice;

    expect("create", ponybollard_create(store, sizeof store, PONYBOLLARD_NO_LIMIT), PONYBOLLARD_DONE);
    expect("is_empty", ponybollard_is_empty(store, sizeof store, &empty), PONYBOLLARD_DONE);
    printf("empty: %s\n", empty ? "yes" : "no");
    for (slice = 1; slice <= 5; slice++) {
        size_t len = identifier(key, sizeof key, 7, slice);
        expect("insert", ponybollard_insert(store, sizeof store, (const uint8_t *)key, len, (uint32_t)slice), PONYBOLLARD_DONE);
        len = identifier(key, sizeof key, 8, slice);
        expect("insert", ponybollard_insert(store, sizeof store, (const uint8_t *)key, len, 100 + (uint32_t)slice), PONYBOLLARD_DONE);
    }
    expect("get", ponybollard_get(store, sizeof store, (const uint8_t *)key, strlen(key), &value), PONYBOLLARD_DONE);
    printf("%s is slice %lu\n", key, (unsigned long)value);
    expect("get of the prefix", ponybollard_get(store, sizeof store, (const uint8_t *)prefix, strlen(prefix), &value), PONYBOLLARD_ABSENT);

    expect("first_page", ponybollard_first_page(store, sizeof store, (const uint8_t *)prefix, strlen(prefix), false, 3, out, sizeof out, &entries, &bytes, &end),
           PONYBOLLARD_DONE);
    last_len = print_page(out, bytes, last);
    /* The page's last slice is taken out: the listing goes on after it all the same. */
    expect("remove", ponybollard_remove(store, sizeof store, last, last_len), PONYBOLLARD_DONE);
    while (!end) {
        expect("next_page",
               ponybollard_next_page(store, sizeof store, (const uint8_t *)prefix, strlen(prefix), false, last, last_len, 3, out, sizeof out, &entries, &bytes,
                                     &end),
               PONYBOLLARD_DONE);
        last_len = print_page(out, bytes, last);
    }
    expect("insert again", ponybollard_insert(store, sizeof store, (const uint8_t *)key, strlen(key), 7), PONYBOLLARD_REPLACED);
    expect("overwrite", ponybollard_overwrite(store, sizeof store, (const uint8_t *)key, strlen(key), 8), PONYBOLLARD_DONE);
    expect("get", ponybollard_get(store, sizeof store, (const uint8_t *)key, strlen(key), &value), PONYBOLLARD_DONE);
    printf("%s is slice %lu now\n", key, (unsigned long)value);
    refusals();
    expect("check", ponybollard_check(store, sizeof store), PONYBOLLARD_DONE);
    expect("check of a part", ponybollard_check(store, sizeof store - 128), PONYBOLLARD_STORE);
    return 0;
}
