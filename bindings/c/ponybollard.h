/* The index as a C library: it maps keys of 0 to 64 bytes to 32-bit values, in a store of bytes that the caller lends.
 *
 * Link target/library/libcapi.a, which `bindings/library` leaves there: it calls nothing but C's memory functions (memmove and its like), has no state of its own, and takes no memory.
 *
 * Every call, on any bytes whatever: it ends, reads and writes nothing but what it is lent, and answers with one of the numbers below.
 * With an answer from 10 up no byte of the store or of the output is changed, and the numbers beside the answer are 0 (or false).
 * On a store that ponybollard_check accepts each answer is given exactly when its comment says and no answer of a lower number from 10 up is: 10 to 16 is
 * the order of the tests. The store stays one that the check accepts.
 * A store that is not accepted is refused with PONYBOLLARD_STORE by ponybollard_check, may be by any other call but ponybollard_create, and is by all of these
 * where the slice is too short or the header is wrong.
 *
 * What the caller owes: pointers to as many bytes as the length says (where a length is 0 the pointer is not used, and may be NULL), that stay lent
 * and unchanged by others until the call returns; that whatever the call writes (a store or an output that is not const, a single value) overlaps nothing
 * else that the same call is lent; the pointers to single values are never NULL.
 * Calls on different stores may run at the same time; on one store, any number that only read (const store), or one that writes.
 */
#ifndef PONYBOLLARD_H
#define PONYBOLLARD_H

#include <stdbool.h>
#include <stddef.h>
#include <stdint.h>

#ifdef __cplusplus
extern "C" {
#endif

/* ---- answers */

/* The call did its work; of an insertion, the key is new. */
#define PONYBOLLARD_DONE UINT32_C(0)
/* An insertion found the key stored, and it has the new value. */
#define PONYBOLLARD_REPLACED UINT32_C(1)
/* The slice is too short, its header is wrong, or it is otherwise not what the check accepts. */
#define PONYBOLLARD_STORE UINT32_C(10)
/* A key, a prefix or an after-key is longer than 64 bytes. */
#define PONYBOLLARD_KEY UINT32_C(11)
/* The key is not stored, the leaf closest to it has as many branches above it as the height limit or more, and a new branch would lie above that leaf. */
#define PONYBOLLARD_HEIGHT UINT32_C(12)
/* The key is not stored, and as many keys are as the capacity. */
#define PONYBOLLARD_FULL UINT32_C(13)
/* The key is not stored. */
#define PONYBOLLARD_ABSENT UINT32_C(14)
/* The page size is 0 or over 256, or the output is shorter than 74 bytes for each entry. */
#define PONYBOLLARD_COUNT UINT32_C(15)
/* The slice that a store is to be made in is shorter than 256 bytes. */
#define PONYBOLLARD_ROOM UINT32_C(16)

/* ---- sizes */

/* The longest key. */
#define PONYBOLLARD_KEY_LIMIT 64
/* The most entries of a page, and the most bytes that an entry takes. */
#define PONYBOLLARD_PAGE_LIMIT 256
#define PONYBOLLARD_ENTRY_LIMIT 74
/* The bytes of a store for so many keys, 1 to 16,384. A longer slice has room for no more than 16,384. */
#define PONYBOLLARD_STORE_SIZE(keys) (128 * ((size_t)(keys) + 1))
/* A height limit that refuses no key. */
#define PONYBOLLARD_NO_LIMIT 128

/* ---- the store */

/* Makes a new, empty store in the slice, whatever it held.
 * DONE; ROOM where the slice is shorter than 256 bytes. */
uint32_t ponybollard_create(uint8_t *store, size_t store_len, uint16_t limit);

/* Tests whether the bytes are a store that the calls keep. A store that came from elsewhere is checked once; every call leaves it so.
 * DONE, STORE. */
uint32_t ponybollard_check(const uint8_t *store, size_t store_len);

/* Tells through *empty whether no key is stored.
 * DONE, STORE. */
uint32_t ponybollard_is_empty(const uint8_t *store, size_t store_len, bool *empty);

/* Sets the height limit, at any time.
 * DONE, STORE. */
uint32_t ponybollard_set_limit(uint8_t *store, size_t store_len, uint16_t limit);

/* ---- keys */

/* Stores the key with the value; a stored key gets the new value, and is found before height and room are tested.
 * DONE (a new key), REPLACED, STORE, KEY, HEIGHT, FULL. */
uint32_t ponybollard_insert(uint8_t *store, size_t store_len, const uint8_t *key, size_t key_len, uint32_t value);

/* Gives the value of a stored key through *value.
 * DONE, STORE, KEY, ABSENT. */
uint32_t ponybollard_get(const uint8_t *store, size_t store_len, const uint8_t *key, size_t key_len, uint32_t *value);

/* Gives a stored key another value, and stores no new key.
 * DONE, STORE, KEY, ABSENT. */
uint32_t ponybollard_overwrite(uint8_t *store, size_t store_len, const uint8_t *key, size_t key_len, uint32_t value);

/* Takes a stored key out.
 * DONE, STORE, KEY, ABSENT. */
uint32_t ponybollard_remove(uint8_t *store, size_t store_len, const uint8_t *key, size_t key_len);

/* ---- listings, page by page */

/* The first page of the keys that start with the prefix, in rising order of their bytes: the key that is equal to the prefix too where inclusive is true.
 * The first `size` of them are written to `out` one directly after the other, each as
 *     01, the key's length in two bytes, the key, 02, 00 04, the value in four bytes
 * with the higher byte first; later bytes of the output stay. *entries is their number, *bytes what they take, *end whether no further one is stored.
 * DONE, STORE, KEY (the prefix), COUNT. */
uint32_t ponybollard_first_page(const uint8_t *store, size_t store_len, const uint8_t *prefix, size_t prefix_len, bool inclusive, uint32_t size, uint8_t *out,
                                size_t out_len, size_t *entries, size_t *bytes, bool *end);

/* The same, of the keys strictly above `after`, which is any key, stored or not: the last key of the page before. With anything done to the store
 * between two pages, the keys of all pages rise, and a matching key that is stored all along is given exactly once.
 * DONE, STORE, KEY (the prefix or the after-key), COUNT. */
uint32_t ponybollard_next_page(const uint8_t *store, size_t store_len, const uint8_t *prefix, size_t prefix_len, bool inclusive, const uint8_t *after,
                               size_t after_len, uint32_t size, uint8_t *out, size_t out_len, size_t *entries, size_t *bytes, bool *end);

#ifdef __cplusplus
}
#endif

#endif
