/* Benchmark of the cipher against other libraries' AES-128-GCM, side by side.

   Two rows of work: (a) open 1,489 records, each a 136-byte text with a
   20-byte AAD and its own 12-byte nonce, under one key; (b) seal 6,144 bytes
   with a 20-byte AAD.  Everybody prepares the key before the clock starts; what
   that costs us is printed by itself.

   Several peers choose their instructions when they load, so each measurement
   is a process of its own: the program starts itself again with the
   contestant's number and environment.  The processes take turns over several
   rounds, and a contestant's time is the least of its rounds: on a machine
   that others use too, the least repeats best.  Each process checks its
   results before it measures.  Needs a Linux on x86-64 with AES instructions. */

#define _GNU_SOURCE

#include "cipher.h"
#include "common.h"

#include <bearssl.h>
#include <dlfcn.h>
#include <gcrypt.h>
#include <mbedtls/aesni.h>
#include <mbedtls/gcm.h>
#include <mbedtls/version.h>
#include <nettle/gcm.h>
#include <nettle/memops.h>
#include <nettle/version.h>
#include <openssl/crypto.h>
#include <openssl/evp.h>
#include <stdarg.h>
#include <stdio.h>
#include <stdlib.h>
#include <string.h>
#include <sys/wait.h>
#include <unistd.h>

enum {
    KEY = 16, NONCE = 12, AAD = 20, TEXT = 136, TAG = 16,
    RECORD = NONCE + AAD + TEXT + TAG,
    RECORDS = 1489,
    LONG = 6144,
    ROUNDS = 15,
    BATCHES = 5
};

static const double batch_ns = 5e6;

static uint8_t key[KEY], nonce[NONCE], aad[AAD];
static uint8_t texts[RECORDS][TEXT], records[RECORDS * RECORD];
static uint8_t long_text[LONG], long_sealed[LONG + TAG];

static void die(const char *format, ...)
{
    va_list args;
    va_start(args, format);
    fputs("bench: ", stderr);
    vfprintf(stderr, format, args);
    fputc('\n', stderr);
    va_end(args);
    exit(1);
}

/* ---- the cipher ---- */

static struct cipher_key ours;

static void ours_prepare(void)
{
    if (cipher_prepare(key, KEY, ours.schedule, ours.multiples) != CIPHER_DONE)
        die("a key of 16 bytes was refused");
}

static size_t ours_open_each(const uint8_t *from, size_t count, uint8_t *out)
{
    return open_each(&ours, from, count * RECORD, out, TEXT);
}

static void ours_seal(uint8_t *buf, size_t n)
{
    cipher_seal(ours.schedule, ours.multiples, nonce, NONCE, aad, AAD, buf, n + TAG, n);
}

/* ---- peers: each opens one record; a loop in C opens them all ---- */

static size_t open_all(int (*open_one)(const uint8_t *, uint8_t *),
                       const uint8_t *from, size_t count, uint8_t *out)
{
    size_t opened = 0;
    for (size_t i = 0; i < count; i++)
        opened += open_one(from + i * RECORD, out) != 0;
    return opened;
}

/* ---- OpenSSL ---- */

static EVP_CIPHER_CTX *openssl_sealing, *openssl_opening;

static void openssl_prepare(void)
{
    openssl_sealing = EVP_CIPHER_CTX_new();
    openssl_opening = EVP_CIPHER_CTX_new();
    if (!EVP_EncryptInit_ex(openssl_sealing, EVP_aes_128_gcm(), NULL, key, NULL) ||
        !EVP_DecryptInit_ex(openssl_opening, EVP_aes_128_gcm(), NULL, key, NULL))
        die("OpenSSL has no AES-128-GCM");
}

/* AES-NI 57, PCLMULQDQ 33, VAES 105 and VPCLMULQDQ 106 of the CPU bits that
   OpenSSL goes by must be clear. */
static void openssl_prepare_without(void)
{
    unsigned long long low, high;
    const char *settings = OPENSSL_info(OPENSSL_INFO_CPU_SETTINGS);
    if (!settings || sscanf(settings, "OPENSSL_ia32cap=%llx:%llx", &low, &high) != 2)
        die("OpenSSL does not tell its CPU bits");
    if ((low >> 57 | low >> 33 | high >> (105 - 64) | high >> (106 - 64)) & 1)
        die("OpenSSL's CPU bits are not masked: %s", settings);
    openssl_prepare();
}

static int openssl_open(const uint8_t *r, uint8_t *out)
{
    EVP_CIPHER_CTX *c = openssl_opening;
    int n;
    return EVP_DecryptInit_ex(c, NULL, NULL, NULL, r)
        && EVP_CIPHER_CTX_ctrl(c, EVP_CTRL_AEAD_SET_TAG, TAG, (void *)(r + RECORD - TAG))
        && EVP_DecryptUpdate(c, NULL, &n, r + NONCE, AAD)
        && EVP_DecryptUpdate(c, out, &n, r + NONCE + AAD, TEXT)
        && EVP_DecryptFinal_ex(c, out + n, &n);
}

static size_t openssl_open_each(const uint8_t *from, size_t count, uint8_t *out)
{
    return open_all(openssl_open, from, count, out);
}

static void openssl_seal_record(const uint8_t *iv, const uint8_t *ad, uint8_t *buf, size_t n)
{
    EVP_CIPHER_CTX *c = openssl_sealing;
    int m;
    EVP_EncryptInit_ex(c, NULL, NULL, NULL, iv);
    EVP_EncryptUpdate(c, NULL, &m, ad, AAD);
    EVP_EncryptUpdate(c, buf, &m, buf, (int)n);
    EVP_EncryptFinal_ex(c, buf + n, &m);
    EVP_CIPHER_CTX_ctrl(c, EVP_CTRL_AEAD_GET_TAG, TAG, buf + n);
}

static void openssl_seal(uint8_t *buf, size_t n)
{
    openssl_seal_record(nonce, aad, buf, n);
}

/* ---- mbedTLS ---- */

static mbedtls_gcm_context mbed;
static int mbed_plain, mbed_asked;

/* Stands before the library's own function of this name. */
int mbedtls_aesni_has_support(unsigned int what)
{
    static int (*real)(unsigned int);
    mbed_asked = 1;
    if (mbed_plain)
        return 0;
    if (!real)
        *(void **)&real = dlsym(RTLD_NEXT, "mbedtls_aesni_has_support");
    return real(what);
}

static void mbed_prepare(void)
{
    mbedtls_gcm_init(&mbed);
    if (mbedtls_gcm_setkey(&mbed, MBEDTLS_CIPHER_ID_AES, key, 8 * KEY))
        die("mbedTLS has no AES-128-GCM");
}

static void mbed_prepare_without(void)
{
    mbed_plain = 1;
    mbed_prepare();
    if (!mbed_asked)
        die("mbedTLS did not ask the program about the CPU");
}

static int mbed_open(const uint8_t *r, uint8_t *out)
{
    return mbedtls_gcm_auth_decrypt(&mbed, TEXT, r, NONCE, r + NONCE, AAD,
                                    r + RECORD - TAG, TAG, r + NONCE + AAD, out) == 0;
}

static size_t mbed_open_each(const uint8_t *from, size_t count, uint8_t *out)
{
    return open_all(mbed_open, from, count, out);
}

static void mbed_seal(uint8_t *buf, size_t n)
{
    mbedtls_gcm_crypt_and_tag(&mbed, MBEDTLS_GCM_ENCRYPT, n, nonce, NONCE, aad, AAD,
                              buf, buf, TAG, buf + n);
}

/* ---- BearSSL ---- */

static br_aes_gen_ctr_keys bear_key;
static br_gcm_context bear;

static void bear_prepare(const br_block_ctr_class *aes, br_ghash ghash)
{
    if (!aes || !ghash)
        die("BearSSL finds no AES and carry-less instructions");
    aes->init(&bear_key.vtable, key, KEY);
    br_gcm_init(&bear, &bear_key.vtable, ghash);
}

static void bear_prepare_x86(void)
{
    bear_prepare(br_aes_x86ni_ctr_get_vtable(), br_ghash_pclmul_get());
}

static void bear_prepare_table(void)
{
    bear_prepare(&br_aes_big_ctr_vtable, br_ghash_ctmul64);
}

static void bear_prepare_constant(void)
{
    bear_prepare(&br_aes_ct64_ctr_vtable, br_ghash_ctmul64);
}

static void bear_start(const uint8_t *iv, const uint8_t *ad)
{
    br_gcm_reset(&bear, iv, NONCE);
    br_gcm_aad_inject(&bear, ad, AAD);
    br_gcm_flip(&bear);
}

static int bear_open(const uint8_t *r, uint8_t *out)
{
    memcpy(out, r + NONCE + AAD, TEXT);
    bear_start(r, r + NONCE);
    br_gcm_run(&bear, 0, out, TEXT);
    return (int)br_gcm_check_tag(&bear, r + RECORD - TAG);
}

static size_t bear_open_each(const uint8_t *from, size_t count, uint8_t *out)
{
    return open_all(bear_open, from, count, out);
}

static void bear_seal(uint8_t *buf, size_t n)
{
    bear_start(nonce, aad);
    br_gcm_run(&bear, 1, buf, n);
    br_gcm_get_tag(&bear, buf + n);
}

/* ---- nettle ---- */

static struct gcm_aes128_ctx nettle;

static void nettle_prepare(void)
{
    gcm_aes128_set_key(&nettle, key);
}

static int nettle_open(const uint8_t *r, uint8_t *out)
{
    uint8_t tag[TAG];
    gcm_aes128_set_iv(&nettle, NONCE, r);
    gcm_aes128_update(&nettle, AAD, r + NONCE);
    gcm_aes128_decrypt(&nettle, TEXT, out, r + NONCE + AAD);
    gcm_aes128_digest(&nettle, TAG, tag);
    return memeql_sec(tag, r + RECORD - TAG, TAG);
}

static size_t nettle_open_each(const uint8_t *from, size_t count, uint8_t *out)
{
    return open_all(nettle_open, from, count, out);
}

static void nettle_seal(uint8_t *buf, size_t n)
{
    gcm_aes128_set_iv(&nettle, NONCE, nonce);
    gcm_aes128_update(&nettle, AAD, aad);
    gcm_aes128_encrypt(&nettle, n, buf, buf);
    gcm_aes128_digest(&nettle, TAG, buf + n);
}

/* ---- libgcrypt ---- */

static gcry_cipher_hd_t gcrypt;

static void gcrypt_prepare(void)
{
    gcry_check_version(NULL);
    gcry_control(GCRYCTL_INITIALIZATION_FINISHED, 0);
    if (gcry_cipher_open(&gcrypt, GCRY_CIPHER_AES128, GCRY_CIPHER_MODE_GCM, 0) ||
        gcry_cipher_setkey(gcrypt, key, KEY))
        die("libgcrypt has no AES-128-GCM");
}

static void gcrypt_without(const char *features, const char *absent)
{
    gcry_control(GCRYCTL_DISABLE_HWF, features, NULL);
    gcrypt_prepare();
    char *list = gcry_get_config(0, "hwflist");
    if (!list || strstr(list, absent) || strstr(list, "pclmul"))
        die("libgcrypt still goes by: %s", list ? list : "?");
    gcry_free(list);
}

static void gcrypt_prepare_without(void)
{
    gcrypt_without("intel-aesni,intel-pclmul,intel-vaes-vpclmul", "aes");
}

static void gcrypt_prepare_scalar(void)
{
    gcrypt_without("all", "ssse3");
}

static int gcrypt_open(const uint8_t *r, uint8_t *out)
{
    return !gcry_cipher_setiv(gcrypt, r, NONCE)
        && !gcry_cipher_authenticate(gcrypt, r + NONCE, AAD)
        && !gcry_cipher_decrypt(gcrypt, out, TEXT, r + NONCE + AAD, TEXT)
        && !gcry_cipher_checktag(gcrypt, r + RECORD - TAG, TAG);
}

static size_t gcrypt_open_each(const uint8_t *from, size_t count, uint8_t *out)
{
    return open_all(gcrypt_open, from, count, out);
}

static void gcrypt_seal(uint8_t *buf, size_t n)
{
    gcry_cipher_setiv(gcrypt, nonce, NONCE);
    gcry_cipher_authenticate(gcrypt, aad, AAD);
    gcry_cipher_encrypt(gcrypt, buf, n, NULL, 0);
    gcry_cipher_gettag(gcrypt, buf + n, TAG);
}

/* ---- the contestants ---- */

enum kind { OURS, AES_INSTRUCTIONS, SIMD, SCALAR, PORTABLE };

static const char *const kind_name[] = {
    "the product", "AES instructions", "SIMD assembler", "scalar assembler", "portable C"
};

struct contestant {
    const char *name;
    enum kind kind;
    const char *variable, *value;       /* its environment, or NULL */
    void (*prepare)(void);
    size_t (*open_each)(const uint8_t *, size_t, uint8_t *);
    void (*seal)(uint8_t *, size_t);
};

#define CAP "OPENSSL_ia32cap"
#define FAT "NETTLE_FAT_OVERRIDE"

static const struct contestant contestants[] = {
    { "ours", OURS, NULL, NULL, ours_prepare, ours_open_each, ours_seal },
    { "OpenSSL", AES_INSTRUCTIONS, NULL, NULL, openssl_prepare, openssl_open_each, openssl_seal },
    { "OpenSSL, no AES/CLMUL", SIMD, CAP, "~0x200000200000000:~0x60000000000",
      openssl_prepare_without, openssl_open_each, openssl_seal },
    { "OpenSSL, no SSSE3 either", SCALAR, CAP, "~0x200020200000000:~0x60000000000",
      openssl_prepare_without, openssl_open_each, openssl_seal },
    { "mbedTLS", AES_INSTRUCTIONS, NULL, NULL, mbed_prepare, mbed_open_each, mbed_seal },
    { "mbedTLS, no AES/CLMUL", PORTABLE, NULL, NULL, mbed_prepare_without, mbed_open_each, mbed_seal },
    { "BearSSL x86ni pclmul", AES_INSTRUCTIONS, NULL, NULL, bear_prepare_x86, bear_open_each, bear_seal },
    { "BearSSL big ctmul64", PORTABLE, NULL, NULL, bear_prepare_table, bear_open_each, bear_seal },
    { "BearSSL ct64 ctmul64", PORTABLE, NULL, NULL, bear_prepare_constant, bear_open_each, bear_seal },
    { "nettle", AES_INSTRUCTIONS, NULL, NULL, nettle_prepare, nettle_open_each, nettle_seal },
    { "nettle, no AES/CLMUL", SCALAR, FAT, "vendor:intel", nettle_prepare, nettle_open_each, nettle_seal },
    { "libgcrypt", AES_INSTRUCTIONS, NULL, NULL, gcrypt_prepare, gcrypt_open_each, gcrypt_seal },
    { "libgcrypt, no AES/CLMUL", SIMD, NULL, NULL, gcrypt_prepare_without, gcrypt_open_each, gcrypt_seal },
    { "libgcrypt, no features", SCALAR, NULL, NULL, gcrypt_prepare_scalar, gcrypt_open_each, gcrypt_seal },
};

enum { CONTESTANTS = sizeof contestants / sizeof contestants[0] };

/* ---- one contestant's process ---- */

/* The work, and what is right for it by OpenSSL. */
static void make_work(void)
{
    fill(key, KEY);
    fill(nonce, NONCE);
    fill(aad, AAD);
    fill(long_text, LONG);
    fill(&texts[0][0], sizeof texts);
    openssl_prepare();
    for (size_t i = 0; i < RECORDS; i++) {
        uint8_t *r = records + i * RECORD;
        fill(r, NONCE + AAD);
        memcpy(r + NONCE + AAD, texts[i], TEXT);
        openssl_seal_record(r, r + NONCE, r + NONCE + AAD, TEXT);
    }
    memcpy(long_sealed, long_text, LONG);
    openssl_seal(long_sealed, LONG);
}

/* Every record opens to its text, a damaged one is refused, and the long text
   seals to the right bytes. */
static void check(const struct contestant *c)
{
    static uint8_t buf[LONG + TAG];
    uint8_t damaged[RECORD], out[TEXT + TAG];
    for (size_t i = 0; i < RECORDS; i++)
        if (c->open_each(records + i * RECORD, 1, out) != 1 || memcmp(out, texts[i], TEXT))
            die("%s opens record %zu wrongly", c->name, i);
    memcpy(damaged, records, RECORD);
    damaged[RECORD - 1] ^= 1;
    if (c->open_each(damaged, 1, out) != 0)
        die("%s opens a damaged record", c->name);
    if (c->open_each(records, RECORDS, out) != RECORDS)
        die("%s does not open every record", c->name);
    memcpy(buf, long_text, LONG);
    c->seal(buf, LONG);
    if (memcmp(buf, long_sealed, LONG + TAG))
        die("%s seals wrongly", c->name);
}

static void work_open(const struct contestant *c)
{
    static uint8_t out[TEXT + TAG];
    c->open_each(records, RECORDS, out);
}

static void work_seal(const struct contestant *c)
{
    static uint8_t buf[LONG + TAG];
    c->seal(buf, LONG);
}

static void work_prepare(const struct contestant *c)
{
    (void)c;
    ours_prepare();
}

static double batch(void (*work)(const struct contestant *), const struct contestant *c, long times)
{
    double start = now_ns();
    for (long i = 0; i < times; i++)
        work(c);
    return (now_ns() - start) / (double)times;
}

/* Nanoseconds for one piece of work: the best of a few batches. */
static double measure(void (*work)(const struct contestant *), const struct contestant *c)
{
    long times = (long)(batch_ns / batch(work, c, 2)) + 1;
    double best = batch(work, c, times);
    for (int i = 1; i < BATCHES; i++) {
        double t = batch(work, c, times);
        if (t < best)
            best = t;
    }
    return best;
}

static int run_one(const struct contestant *c)
{
    make_work();
    c->prepare();
    check(c);
    printf("%f %f %f\n", measure(work_open, c), measure(work_seal, c),
           measure(work_prepare, c));
    return 0;
}

/* ---- the rounds ---- */

enum { OPEN, SEAL, PREPARE, ROWS };

/* Each contestant's best time so far, 0 for none. */
static double best[CONTESTANTS][ROWS];

static void start_one(int index, int to)
{
    char number[16];
    const struct contestant *c = &contestants[index];
    snprintf(number, sizeof number, "%d", index);
    unsetenv(CAP);
    unsetenv(FAT);
    if (c->variable)
        setenv(c->variable, c->value, 1);
    dup2(to, STDOUT_FILENO);
    execl("/proc/self/exe", "cipher-bench", number, (char *)NULL);
    _exit(127);
}

static void run_in_turn(int index)
{
    int ends[2], status;
    double t[ROWS];
    if (pipe(ends))
        die("no pipe");
    pid_t child = fork();
    if (child < 0)
        die("no process");
    if (child == 0)
        start_one(index, ends[1]);
    close(ends[1]);
    FILE *from = fdopen(ends[0], "r");
    int got = from ? fscanf(from, "%lf %lf %lf", &t[OPEN], &t[SEAL], &t[PREPARE]) : 0;
    if (waitpid(child, &status, 0) != child || status != 0 || got != ROWS)
        die("%s did not finish", contestants[index].name);
    fclose(from);
    for (int row = 0; row < ROWS; row++)
        if (best[index][row] == 0 || t[row] < best[index][row])
            best[index][row] = t[row];
}

/* A library's row with AES instructions stands above its rows without, which
   must be slower; else what turns the instructions off did not take. */
static void check_switches(void)
{
    int with = 0;
    for (int i = 0; i < CONTESTANTS; i++)
        if (contestants[i].kind == AES_INSTRUCTIONS)
            with = i;
        else if (contestants[i].kind > AES_INSTRUCTIONS && best[i][SEAL] < 1.5 * best[with][SEAL])
            die("%s is as fast as %s", contestants[i].name, contestants[with].name);
}

/* ---- the table ---- */

static void print_row(int index)
{
    const struct contestant *c = &contestants[index];
    printf("%-26s %-17s %9.3f %9.3f %9.2f %9.2f\n", c->name, kind_name[c->kind],
           best[index][OPEN] / (RECORDS * TEXT), best[index][SEAL] / LONG,
           best[index][OPEN] / best[0][OPEN], best[index][SEAL] / best[0][SEAL]);
}

/* The fastest peer of the kinds from least on. */
static int fastest(int row, enum kind least)
{
    int first = -1;
    for (int i = 0; i < CONTESTANTS; i++)
        if (contestants[i].kind >= least && (first < 0 || best[i][row] < best[first][row]))
            first = i;
    return first;
}

static void print_fastest(enum kind least, const char *of)
{
    for (int row = OPEN; row <= SEAL; row++) {
        int i = fastest(row, least);
        printf("Fastest peer %s, (%c): %s, %.2f times our time.\n", of, "ab"[row],
               contestants[i].name, best[i][row] / best[0][row]);
    }
}

static void print_table(void)
{
    printf("(a) open %d records of %d bytes; (b) seal %d bytes; AES-128-GCM, AAD of %d bytes.\n",
           RECORDS, TEXT, LONG, AAD);
    printf("%s, mbedTLS %s, nettle %d.%d, libgcrypt %s, BearSSL.\n\n",
           OpenSSL_version(OPENSSL_VERSION), MBEDTLS_VERSION_STRING,
           nettle_version_major(), nettle_version_minor(), gcry_check_version(NULL));
    printf("%-26s %-17s %9s %9s %9s %9s\n", "", "instructions",
           "(a) ns/B", "(b) ns/B", "(a)/ours", "(b)/ours");
    for (int i = 0; i < CONTESTANTS; i++)
        print_row(i);
    printf("\nPreparing a key takes us %.0f ns.\n\n", best[0][PREPARE]);
    print_fastest(SIMD, "without AES or carry-less instructions");
    print_fastest(PORTABLE, "in portable C");
}

int main(int argc, char **argv)
{
    if (argc > 1) {
        int index = atoi(argv[1]);
        return index < 0 || index >= CONTESTANTS || run_one(&contestants[index]);
    }
    for (int round = 0; round < ROUNDS; round++)
        for (int i = 0; i < CONTESTANTS; i++)
            run_in_turn(i);
    check_switches();
    print_table();
    return 0;
}
