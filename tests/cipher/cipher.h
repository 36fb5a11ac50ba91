/* The C exports of the product's cipher: AES-128-GCM with a 96-bit nonce and
   a 128-bit tag.  A slice crosses as its pointer, then its length; an array
   as its pointer.  Below them, the same in one call from a raw key. */

#ifndef CIPHER_H
#define CIPHER_H

#include <stddef.h>
#include <stdint.h>

enum cipher_answer {
    CIPHER_DONE = 0,
    CIPHER_BAD_KEY = 1,     /* the key is not 16 bytes or the nonce not 12 */
    CIPHER_SHORT = 2,       /* the lent buffer is too short */
    CIPHER_BEYOND = 3,      /* a length beyond the limits of SP 800-38D */
    CIPHER_FAIL = 4         /* the tag does not fit, or fewer than 16 bytes */
};

/* A prepared key: the key schedule, and the hash key's multiples. */
struct cipher_key {
    uint32_t schedule[44];
    uint64_t multiples[1024];
};

/* On any answer but CIPHER_DONE what is lent is byte for byte as it came.
   Where several answers hold, cipher_seal gives the first of: bad nonce,
   beyond, short; cipher_open the first of: bad nonce, fail for fewer than 16
   bytes, beyond, short, fail for the tag. */

uint64_t cipher_prepare(const uint8_t *key, size_t key_len,
                        uint32_t schedule[44], uint64_t multiples[1024]);

/* Encrypts the first n bytes of buf in place and puts the tag behind them,
   so buf_len >= n + 16; the bytes behind the tag stay as they were. */
uint64_t cipher_seal(const uint32_t schedule[44], const uint64_t multiples[1024],
                     const uint8_t *iv, size_t iv_len,
                     const uint8_t *aad, size_t aad_len,
                     uint8_t *buf, size_t buf_len, size_t n);

/* sealed is the ciphertext, then the tag.  The text, sealed_len - 16 bytes,
   goes to the start of out; the bytes behind it stay as they were. */
uint64_t cipher_open(const uint32_t schedule[44], const uint64_t multiples[1024],
                     const uint8_t *iv, size_t iv_len,
                     const uint8_t *aad, size_t aad_len,
                     const uint8_t *sealed, size_t sealed_len,
                     uint8_t *out, size_t out_len);

static inline uint64_t seal_once(const uint8_t *key, size_t key_len,
                                 const uint8_t *iv, size_t iv_len,
                                 const uint8_t *aad, size_t aad_len,
                                 uint8_t *buf, size_t buf_len, size_t n)
{
    struct cipher_key k;
    if (cipher_prepare(key, key_len, k.schedule, k.multiples) != CIPHER_DONE)
        return CIPHER_BAD_KEY;
    return cipher_seal(k.schedule, k.multiples, iv, iv_len, aad, aad_len, buf, buf_len, n);
}

static inline uint64_t open_once(const uint8_t *key, size_t key_len,
                                 const uint8_t *iv, size_t iv_len,
                                 const uint8_t *aad, size_t aad_len,
                                 const uint8_t *sealed, size_t sealed_len,
                                 uint8_t *out, size_t out_len)
{
    struct cipher_key k;
    if (cipher_prepare(key, key_len, k.schedule, k.multiples) != CIPHER_DONE)
        return CIPHER_BAD_KEY;
    return cipher_open(k.schedule, k.multiples, iv, iv_len, aad, aad_len, sealed, sealed_len, out, out_len);
}

/* Opens records of 184 bytes that lie end to end: nonce 12, AAD 20,
   ciphertext 136, tag 16.  Each text goes to the first 136 bytes of out, over
   the one before; out_len >= 136.  Returns how many records opened. */
static inline uint64_t open_each(const struct cipher_key *k,
                                 const uint8_t *records, size_t records_len,
                                 uint8_t *out, size_t out_len)
{
    uint64_t opened = 0;
    for (size_t at = 0; at + 184 <= records_len; at += 184)
        opened += cipher_open(k->schedule, k->multiples, records + at, 12, records + at + 12, 20,
                              records + at + 32, 152, out, out_len) == CIPHER_DONE;
    return opened;
}

#endif
