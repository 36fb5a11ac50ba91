/* NIST's known answers, one file for AES-128 and two for AES-128-GCM: OpenSSL
   runs every line, the cipher every line of the two for GCM.  Fails unless
   every line agrees and each file has the number of lines it must have.

   Usage: vectors AES-FILE ENCRYPT-FILE DECRYPT-FILE */

#include "cipher.h"
#include "openssl.h"

#include <ctype.h>
#include <string.h>

enum { FIELDS = 6, MOST = 512, LINE = 4096 };

struct bytes {
    size_t len;
    uint8_t at[MOST];
};

/* How the lines of one file went. */
struct tally {
    int lines, openssl, ours, refused;
};

static void die(const char *path, int line, const char *what)
{
    fprintf(stderr, "vectors: %s, line %d: %s\n", path, line, what);
    exit(1);
}

/* Hexadecimal, or - for none; whether it is well formed. */
static int read_hex(const char *s, struct bytes *to)
{
    size_t digits = strlen(s);
    to->len = 0;
    if (strcmp(s, "-") == 0)
        return 1;
    if (digits % 2 != 0 || digits / 2 > MOST)
        return 0;
    for (size_t i = 0; i < digits; i += 2) {
        unsigned byte;
        if (!isxdigit((unsigned char)s[i]) || !isxdigit((unsigned char)s[i + 1]))
            return 0;
        sscanf(s + i, "%2x", &byte);
        to->at[to->len++] = (uint8_t)byte;
    }
    return 1;
}

static int same(const uint8_t *a, const struct bytes *b)
{
    return memcmp(a, b->at, b->len) == 0;
}

/* set key plaintext ciphertext */
static int aes_line(char **word, struct tally *t)
{
    struct bytes key, text, sealed;
    uint8_t out[32];
    int n;
    if (!read_hex(word[1], &key) || !read_hex(word[2], &text) || !read_hex(word[3], &sealed) ||
        key.len != 16 || text.len != 16 || sealed.len != 16)
        return 0;
    EVP_CIPHER_CTX *c = EVP_CIPHER_CTX_new();
    openssl_must(c && EVP_EncryptInit_ex2(c, EVP_aes_128_ecb(), key.at, NULL, NULL));
    openssl_must(EVP_EncryptUpdate(c, out, &n, text.at, 16) && n == 16);
    EVP_CIPHER_CTX_free(c);
    t->openssl += same(out, &sealed);
    return 1;
}

/* The key, nonce and AAD, which stand at 0, 1 and 3 in both files for GCM. */
static int read_setting(char **word, struct bytes *key, struct bytes *iv, struct bytes *aad)
{
    return read_hex(word[0], key) && read_hex(word[1], iv) && read_hex(word[3], aad)
        && key->len == 16 && iv->len == 12;
}

/* key iv plaintext aad ciphertext tag */
static int encrypt_line(char **word, struct tally *t)
{
    struct bytes key, iv, aad, text, sealed, tag;
    uint8_t out[MOST + 16];
    if (!read_setting(word, &key, &iv, &aad) || !read_hex(word[2], &text) ||
        !read_hex(word[4], &sealed) || !read_hex(word[5], &tag) ||
        tag.len != 16 || sealed.len != text.len)
        return 0;
    openssl_seal(key.at, iv.at, aad.at, aad.len, text.at, text.len, out);
    t->openssl += same(out, &sealed) && same(out + text.len, &tag);

    memcpy(out, text.at, text.len);
    uint64_t answer = seal_once(key.at, key.len, iv.at, iv.len, aad.at, aad.len,
                                  out, text.len + 16, text.len);
    t->ours += answer == CIPHER_DONE && same(out, &sealed) && same(out + text.len, &tag);
    return 1;
}

/* key iv ciphertext aad tag plaintext, or FAIL for the plaintext */
static int decrypt_line(char **word, struct tally *t)
{
    struct bytes key, iv, aad, sealed, tag, text;
    struct bytes untouched = { .len = MOST };
    uint8_t out[MOST + 16];
    int refused = strcmp(word[5], "FAIL") == 0;
    if (!read_setting(word, &key, &iv, &aad) || !read_hex(word[2], &sealed) ||
        !read_hex(word[4], &tag) || tag.len != 16 || sealed.len + 16 > MOST ||
        (!refused && (!read_hex(word[5], &text) || text.len != sealed.len)))
        return 0;
    memcpy(sealed.at + sealed.len, tag.at, 16);
    sealed.len += 16;
    int fits = openssl_open(key.at, iv.at, aad.at, aad.len, sealed.at, sealed.len, out);
    t->openssl += refused ? !fits : fits && same(out, &text);

    memset(untouched.at, 0xa5, MOST);
    memset(out, 0xa5, MOST);
    uint64_t answer = open_once(key.at, key.len, iv.at, iv.len, aad.at, aad.len,
                                  sealed.at, sealed.len, out, MOST);
    t->ours += refused ? answer == CIPHER_FAIL && same(out, &untouched)
                       : answer == CIPHER_DONE && same(out, &text);
    t->refused += refused;
    return 1;
}

static int split(char *line, char **word)
{
    int words = 0;
    for (char *w = strtok(line, " \n"); w; w = strtok(NULL, " \n")) {
        if (words == FIELDS)
            return -1;
        word[words++] = w;
    }
    return words;
}

static struct tally run(const char *path, int fields, int (*one)(char **, struct tally *))
{
    struct tally t = { 0 };
    char line[LINE], *word[FIELDS];
    FILE *file = fopen(path, "r");
    if (!file)
        die(path, 0, "does not open");
    for (int number = 1; fgets(line, sizeof line, file); number++) {
        if (line[0] == '#' || line[0] == '\n')
            continue;
        if (split(line, word) != fields || !one(word, &t))
            die(path, number, "malformed");
        t.lines++;
    }
    fclose(file);
    return t;
}

int main(int argc, char **argv)
{
    if (argc != 4) {
        fputs("usage: vectors AES-FILE ENCRYPT-FILE DECRYPT-FILE\n", stderr);
        return 1;
    }
    struct tally aes = run(argv[1], 4, aes_line);
    struct tally encrypt = run(argv[2], 6, encrypt_line);
    struct tally decrypt = run(argv[3], 6, decrypt_line);
    printf("AES known answers: %d of %d (OpenSSL)\n", aes.openssl, aes.lines);
    printf("GCM encryption: %d of %d (OpenSSL), %d of %d (ours)\n",
           encrypt.openssl, encrypt.lines, encrypt.ours, encrypt.lines);
    printf("GCM decryption, %d to refuse: %d of %d (OpenSSL), %d of %d (ours)\n",
           decrypt.refused, decrypt.openssl, decrypt.lines, decrypt.ours, decrypt.lines);
    int all = aes.lines == 284 && aes.openssl == 284
        && encrypt.lines == 16 && encrypt.openssl == 16 && encrypt.ours == 16
        && decrypt.lines == 16 && decrypt.openssl == 16 && decrypt.ours == 16
        && decrypt.refused == 6;
    if (!all)
        fputs("vectors: not all agree, or lines are missing\n", stderr);
    return !all;
}
