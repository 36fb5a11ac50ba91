/* AES-128-GCM by OpenSSL's libcrypto, for the tests to compare with: key of
   16 bytes, nonce of 12, tag of 16 behind the ciphertext. */

#ifndef OPENSSL_REFERENCE_H
#define OPENSSL_REFERENCE_H

#include <openssl/crypto.h>
#include <openssl/evp.h>
#include <stddef.h>
#include <stdint.h>
#include <stdio.h>
#include <stdlib.h>

static inline void openssl_must(int worked)
{
    if (!worked) {
        fputs("OpenSSL does not work\n", stderr);
        exit(1);
    }
}

/* A context of its own for the caller to free, set to encrypt (1) or decrypt (0). */
static inline EVP_CIPHER_CTX *openssl_start(int encrypt, const uint8_t *key, const uint8_t *iv,
                                            const uint8_t *aad, size_t aad_len)
{
    static EVP_CIPHER *gcm;
    int n;
    if (!gcm)
        gcm = EVP_CIPHER_fetch(NULL, "AES-128-GCM", NULL);
    EVP_CIPHER_CTX *c = EVP_CIPHER_CTX_new();
    openssl_must(gcm && c && EVP_CipherInit_ex2(c, gcm, key, iv, encrypt, NULL));
    openssl_must(EVP_CipherUpdate(c, NULL, &n, aad, (int)aad_len));
    return c;
}

static inline void openssl_seal(const uint8_t *key, const uint8_t *iv,
                                const uint8_t *aad, size_t aad_len,
                                const uint8_t *text, size_t n, uint8_t *sealed)
{
    int m;
    EVP_CIPHER_CTX *c = openssl_start(1, key, iv, aad, aad_len);
    openssl_must(EVP_CipherUpdate(c, sealed, &m, text, (int)n));
    openssl_must(EVP_CipherFinal_ex(c, sealed + n, &m));
    openssl_must(EVP_CIPHER_CTX_ctrl(c, EVP_CTRL_AEAD_GET_TAG, 16, sealed + n));
    EVP_CIPHER_CTX_free(c);
}

/* Whether the tag fits; the text goes to text either way. */
static inline int openssl_open(const uint8_t *key, const uint8_t *iv,
                               const uint8_t *aad, size_t aad_len,
                               const uint8_t *sealed, size_t sealed_len, uint8_t *text)
{
    int m;
    if (sealed_len < 16)
        return 0;
    size_t n = sealed_len - 16;
    EVP_CIPHER_CTX *c = openssl_start(0, key, iv, aad, aad_len);
    openssl_must(EVP_CIPHER_CTX_ctrl(c, EVP_CTRL_AEAD_SET_TAG, 16, (void *)(sealed + n)));
    openssl_must(EVP_CipherUpdate(c, text, &m, sealed, (int)n));
    int fits = EVP_CipherFinal_ex(c, text + n, &m) > 0;
    EVP_CIPHER_CTX_free(c);
    return fits;
}

#endif
