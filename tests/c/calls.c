/* Calls every function of captions.h from C: each call accepted, each of its
 * refusals at least once, and every lent byte after it. Prints a count; exits
 * with 1 if a check fails. */
#include "captions.h"

#include <stdio.h>
#include <string.h>

static unsigned long checks, failures;

#define CHECK(holds)                                                           \
    do {                                                                       \
        checks++;                                                              \
        if (!(holds)) {                                                        \
            failures++;                                                        \
            fprintf(stderr, "%s:%d: %s\n", __FILE__, __LINE__, #holds);        \
        }                                                                      \
    } while (0)

#define SLOTS 3
#define SHEET CAPTIONS_SHEET(SLOTS)
#define SERIAL 0x1234
#define UNTOUCHED 0xa5

/* An edition: byte 3, the bytes before the marks, and those of a sheet. */
struct edition {
    uint8_t number;
    size_t header, size;
};
static const struct edition editions[] = {
    {1, CAPTIONS_HEADER_1, CAPTIONS_SHEET_1(SLOTS)},
    {2, CAPTIONS_HEADER, SHEET},
    {3, CAPTIONS_HEADER, SHEET},
};
#define EDITIONS (sizeof editions / sizeof editions[0])

/* A key class: what blanking takes, the bytes of its keys, and the first line of
 * the listing of a sheet that was written once. Those of PRESENT come last. */
struct class {
    size_t number, key_len;
    const char *listing;
};
static const struct class classes[] = {
    {CAPTIONS_MCRYPTON_64, 8, "slots 3 key 64 last 1\n"},
    {CAPTIONS_MCRYPTON_96, 12, "slots 3 key 96 last 1\n"},
    {CAPTIONS_MCRYPTON_128, 16, "slots 3 key 128 last 1\n"},
    {CAPTIONS_PRESENT_80, 10, "slots 3 key 80 last 1\n"},
    {CAPTIONS_PRESENT_128, 16, "slots 3 key 128 last 1\n"},
};
#define MCRYPTON_CLASSES 3
#define CLASSES (sizeof classes / sizeof classes[0])

/* One byte more than the longest key; a call takes as many as it is told. */
static const uint8_t sealing[17] = {0x0d, 0x2a, 0x47, 0x64, 0x81, 0x9e,
                                    0xbb, 0xd8, 0xf5, 0x12, 0x2f, 0x4c,
                                    0x69, 0x86, 0xa3, 0xc0, 0xdd};
static const uint8_t checking[17] = {1,  2,  3,  4,  5,  6,  7,  8, 9,
                                     10, 11, 12, 13, 14, 15, 16, 17};
/* A checking key of 8 bytes that no sheet here was blanked with. */
static const uint8_t *const strange = checking + 1;

static int is(captions_answer answer, int number, int length)
{
    return answer.number == number && answer.length == length;
}

/* Number and length of an answer that points. One that is neither 4 nor 10
 * points at nothing. */
static captions_answer plain(captions_pointed pointed)
{
    captions_answer answer;
    answer.number = pointed.number;
    answer.length = pointed.length;
    CHECK(pointed.number == CAPTIONS_UNFIT_SHEET ||
          pointed.number == CAPTIONS_ALTERED
              ? pointed.rule != CAPTIONS_RULE_NONE
              : pointed.rule == 0 && pointed.slot == 0 && pointed.place == 0);
    return answer;
}

static int refused(captions_answer answer, int number)
{
    return is(answer, number, 0);
}

static int accepted(captions_answer answer)
{
    return is(answer, CAPTIONS_ACCEPTED, 0);
}

/* Whether each of the bytes has this value. */
static int all(const uint8_t *bytes, size_t length, uint8_t value)
{
    size_t i;
    for (i = 0; i < length; i++)
        if (bytes[i] != value)
            return 0;
    return 1;
}

static int same(const uint8_t *left, const uint8_t *right, size_t length)
{
    return memcmp(left, right, length) == 0;
}

/* ---- Blocks and CMAC; the bytes are those of `reference vectors` ---- */

struct block_case {
    size_t key_len;
    uint8_t encrypted[CAPTIONS_BLOCK], decrypted[CAPTIONS_BLOCK];
};

static const uint8_t block[CAPTIONS_BLOCK] = {0x07, 0x3c, 0x71, 0xa6,
                                              0xdb, 0x10, 0x45, 0x7a};
static const struct block_case block_cases[] = {
    {8,
     {0x6d, 0x36, 0xf5, 0x95, 0xbc, 0x53, 0x69, 0x58},
     {0x66, 0x2f, 0x3b, 0x4e, 0xa4, 0xba, 0xce, 0x4e}},
    {12,
     {0x00, 0x6c, 0x52, 0x2a, 0x6e, 0x57, 0xb6, 0xd5},
     {0xe1, 0x27, 0x96, 0x27, 0xe5, 0xef, 0xcb, 0x66}},
    {16,
     {0x80, 0xbd, 0x6f, 0xb5, 0x41, 0x88, 0x59, 0x28},
     {0xc1, 0xc9, 0x70, 0xa8, 0x7a, 0x6a, 0xf9, 0x6a}},
};
static const uint16_t paths[] = {0, 1, 0x0555, 0x0800, 0x0fff, 0xf000, 0xffff};

static void blocks_by_every_path(void)
{
    size_t i, j;
    for (i = 0; i < sizeof block_cases / sizeof block_cases[0]; i++)
        for (j = 0; j < sizeof paths / sizeof paths[0]; j++) {
            const struct block_case *c = &block_cases[i];
            uint8_t out[CAPTIONS_BLOCK], back[CAPTIONS_BLOCK];
            CHECK(accepted(captions_encrypt_block(sealing, c->key_len, block,
                                                  8, paths[j], out, 8)));
            CHECK(same(out, c->encrypted, 8));
            CHECK(accepted(captions_decrypt_block(sealing, c->key_len, out, 8,
                                                  paths[j], back, 8)));
            CHECK(same(back, block, 8));
            CHECK(accepted(captions_decrypt_block(sealing, c->key_len, block,
                                                  8, paths[j], out, 8)));
            CHECK(same(out, c->decrypted, 8));
        }
}

typedef captions_answer block_call(const uint8_t *, size_t, const uint8_t *,
                                   size_t, uint16_t, uint8_t *, size_t);

static void block_refusals(block_call *call)
{
    uint8_t out[9];
    memset(out, UNTOUCHED, sizeof out);
    CHECK(refused(call(sealing, 0, block, 8, 0, out, 8), CAPTIONS_WRONG_KEY));
    CHECK(refused(call(sealing, 7, block, 7, 0, out, 7), CAPTIONS_WRONG_KEY));
    CHECK(refused(call(sealing, 8, block, 7, 0, out, 8), CAPTIONS_WRONG_SPAN));
    CHECK(refused(call(sealing, 8, block, 0, 0, out, 8), CAPTIONS_WRONG_SPAN));
    CHECK(refused(call(sealing, 8, block, 8, 0, out, 7), CAPTIONS_WRONG_SPAN));
    CHECK(refused(call(sealing, 8, block, 8, 0, out, 9), CAPTIONS_WRONG_SPAN));
    CHECK(refused(call(sealing, 8, block, 8, 0, out, 0), CAPTIONS_WRONG_SPAN));
    CHECK(all(out, sizeof out, UNTOUCHED));
    CHECK(accepted(call(sealing, 8, block, 8, 0, out, 8)));
    CHECK(out[8] == UNTOUCHED);
}

/* ---- PRESENT's blocks ---- */

/* The vectors of PRESENT's authors: every byte of the key and of the block is the
 * one that stands here. */
struct present_case {
    size_t key_len;
    uint8_t key, block;
    uint8_t sealed[CAPTIONS_BLOCK];
};
static const struct present_case present_cases[] = {
    {10, 0x00, 0x00, {0x55, 0x79, 0xc1, 0x38, 0x7b, 0x22, 0x84, 0x45}},
    {10, 0xff, 0x00, {0xe7, 0x2c, 0x46, 0xc0, 0xf5, 0x94, 0x50, 0x49}},
    {10, 0x00, 0xff, {0xa1, 0x12, 0xff, 0xc7, 0x2f, 0x68, 0x41, 0x7b}},
    {10, 0xff, 0xff, {0x33, 0x33, 0xdc, 0xd3, 0x21, 0x32, 0x10, 0xd2}},
    {16, 0x00, 0x00, {0x96, 0xdb, 0x70, 0x2a, 0x2e, 0x69, 0x00, 0xaf}},
    {16, 0xff, 0x00, {0x13, 0x23, 0x8c, 0x71, 0x02, 0x72, 0xa5, 0xd8}},
    {16, 0x00, 0xff, {0x3c, 0x60, 0x19, 0xe5, 0xe5, 0xed, 0xd5, 0x63}},
    {16, 0xff, 0xff, {0x62, 0x8d, 0x9f, 0xbd, 0x42, 0x18, 0xe5, 0xb4}},
};
#define PRESENT_CASES (sizeof present_cases / sizeof present_cases[0])

static void present_vectors(void)
{
    size_t i;
    for (i = 0; i < PRESENT_CASES; i++) {
        const struct present_case *c = &present_cases[i];
        uint8_t key[16], plain_block[CAPTIONS_BLOCK], out[CAPTIONS_BLOCK + 1];
        memset(key, c->key, sizeof key);
        memset(plain_block, c->block, sizeof plain_block);
        memset(out, UNTOUCHED, sizeof out);
        CHECK(accepted(captions_present_encrypt_block(key, c->key_len,
                                                      plain_block, 8, out, 8)));
        CHECK(same(out, c->sealed, 8) && out[8] == UNTOUCHED);
        CHECK(accepted(captions_present_decrypt_block(key, c->key_len,
                                                      c->sealed, 8, out, 8)));
        CHECK(same(out, plain_block, 8) && out[8] == UNTOUCHED);
    }
}

typedef captions_answer present_call(const uint8_t *, size_t, const uint8_t *,
                                     size_t, uint8_t *, size_t);

static void present_refusals(present_call *call)
{
    uint8_t out[9];
    size_t key_len;
    memset(out, UNTOUCHED, sizeof out);
    CHECK(refused(call(sealing, 0, block, 8, out, 8), CAPTIONS_WRONG_KEY));
    CHECK(refused(call(sealing, 8, block, 7, out, 7), CAPTIONS_WRONG_KEY));
    for (key_len = 10; key_len <= 16; key_len += 6) {
        CHECK(refused(call(sealing, key_len, block, 7, out, 8),
                      CAPTIONS_WRONG_SPAN));
        CHECK(refused(call(sealing, key_len, block, 0, out, 8),
                      CAPTIONS_WRONG_SPAN));
        CHECK(refused(call(sealing, key_len, block, 8, out, 7),
                      CAPTIONS_WRONG_SPAN));
        CHECK(refused(call(sealing, key_len, block, 8, out, 9),
                      CAPTIONS_WRONG_SPAN));
        CHECK(refused(call(sealing, key_len, block, 8, out, 0),
                      CAPTIONS_WRONG_SPAN));
    }
    CHECK(all(out, sizeof out, UNTOUCHED));
}

/* The arrays after rounds 0, 5 and 12 of the block above under the key of 8
 * bytes, as `reference rounds` prints them. */
struct bench_case {
    size_t round;
    uint8_t array[CAPTIONS_BLOCK];
};

static const struct bench_case bench_cases[] = {
    {0, {0x10, 0x58, 0xf7, 0x38, 0x60, 0xe8, 0x48, 0x56}},
    {5, {0x49, 0x9e, 0xb9, 0x74, 0xeb, 0x56, 0x57, 0xdf}},
    {CAPTIONS_ROUNDS, {0xe8, 0x19, 0x93, 0xb7, 0xa9, 0x46, 0x3e, 0x0f}},
};

static void bench(void)
{
    const uint8_t *array = bench_cases[0].array;
    uint8_t out[9];
    size_t i;
    memset(out, UNTOUCHED, sizeof out);
    CHECK(refused(captions_bench_block(sealing, 9, 13, array, 7, out, 7),
                  CAPTIONS_WRONG_KEY));
    CHECK(refused(captions_bench_block(sealing, 8, 13, array, 7, out, 8),
                  CAPTIONS_WRONG_SPAN));
    CHECK(refused(captions_bench_block(sealing, 8, 13, array, 8, out, 9),
                  CAPTIONS_WRONG_SPAN));
    CHECK(refused(captions_bench_block(sealing, 8, CAPTIONS_ROUNDS + 1, array,
                                       8, out, 8),
                  CAPTIONS_NO_SUCH_ROUND));
    CHECK(refused(captions_bench_block(sealing, 8, 255, array, 8, out, 8),
                  CAPTIONS_NO_SUCH_ROUND));
    CHECK(refused(captions_bench_block(sealing, 8, (size_t)-1, array, 8, out,
                                       8),
                  CAPTIONS_NO_SUCH_ROUND));
    CHECK(all(out, sizeof out, UNTOUCHED));
    for (i = 0; i < sizeof bench_cases / sizeof bench_cases[0]; i++) {
        memset(out, UNTOUCHED, sizeof out);
        CHECK(accepted(captions_bench_block(sealing, 8, bench_cases[i].round,
                                            bench_cases[i].array, 8, out, 8)));
        CHECK(same(out, block, 8));
        CHECK(out[8] == UNTOUCHED);
    }
}

/* "Bronze Age." from 2^64 - 1, as `reference panel` seals it under keys of 8, 12
 * and 16 bytes. */
static const uint8_t panels[][11] = {
    {0x3e, 0x5b, 0xf6, 0xb1, 0x9b, 0x65, 0xdd, 0x4e, 0xe9, 0xf6, 0xf7},
    {0xfe, 0xa5, 0x7e, 0xa0, 0x45, 0x5a, 0x41, 0x57, 0x89, 0xb9, 0x3f},
    {0x29, 0xe4, 0x3b, 0xd5, 0x07, 0x5c, 0xa6, 0x73, 0x07, 0x9b, 0x09},
};

static void panel(void)
{
    static const uint8_t *const text = (const uint8_t *)"Bronze Age.";
    static uint8_t longest[CAPTIONS_PANEL + 1], sealed[CAPTIONS_PANEL + 1],
        opened[CAPTIONS_PANEL + 1];
    uint8_t out[12];
    size_t i;
    memset(out, UNTOUCHED, sizeof out);
    for (i = 0; i < 3; i++) {
        CHECK(accepted(captions_panel(sealing, 8 + 4 * i, UINT64_MAX, text, 11,
                                      out, 11)));
        CHECK(same(out, panels[i], 11) && out[11] == UNTOUCHED);
        CHECK(accepted(captions_panel(sealing, 8 + 4 * i, UINT64_MAX,
                                      panels[i], 11, out, 11)));
        CHECK(same(out, text, 11) && out[11] == UNTOUCHED);
    }
    memset(out, UNTOUCHED, sizeof out);
    CHECK(refused(captions_panel(sealing, 7, 0, text, 11, out, 10),
                  CAPTIONS_WRONG_KEY));
    CHECK(refused(captions_panel(sealing, 17, 0, text, 11, out, 11),
                  CAPTIONS_WRONG_KEY));
    CHECK(refused(captions_panel(sealing, 8, 0, text, 11, out, 10),
                  CAPTIONS_WRONG_SPAN));
    CHECK(refused(captions_panel(sealing, 8, 0, text, 11, out, 12),
                  CAPTIONS_WRONG_SPAN));
    CHECK(refused(captions_panel(sealing, 8, 0, longest, CAPTIONS_PANEL + 1,
                                 out, 12),
                  CAPTIONS_WRONG_SPAN));
    CHECK(accepted(captions_panel(sealing, 8, 0, text, 0, out, 0)));
    CHECK(all(out, sizeof out, UNTOUCHED));
    memset(longest, 0x41, sizeof longest);
    memset(sealed, UNTOUCHED, sizeof sealed);
    CHECK(refused(captions_panel(sealing, 8, 0, longest, CAPTIONS_PANEL + 1,
                                 sealed, CAPTIONS_PANEL + 1),
                  CAPTIONS_OVERLONG));
    CHECK(all(sealed, sizeof sealed, UNTOUCHED));
    CHECK(accepted(captions_panel(sealing, 8, UINT64_MAX - 4095, longest,
                                  CAPTIONS_PANEL, sealed, CAPTIONS_PANEL)));
    CHECK(sealed[CAPTIONS_PANEL] == UNTOUCHED);
    CHECK(accepted(captions_panel(sealing, 8, UINT64_MAX - 4095, sealed,
                                  CAPTIONS_PANEL, opened, CAPTIONS_PANEL)));
    CHECK(same(opened, longest, CAPTIONS_PANEL));
    CHECK(captions_panel_blocks(0) == 0 && captions_panel_blocks(1) == 1);
    CHECK(captions_panel_blocks(8) == 1 && captions_panel_blocks(9) == 2);
    CHECK(captions_panel_blocks(CAPTIONS_PANEL) == 8192);
    CHECK(captions_panel_blocks((size_t)-1) == (uint64_t)1 << 61);
}

/* Nine bytes under the key of number 9; nothing under the key of number 0. */
static void checks_by_cmac(void)
{
    static const uint8_t key[8] = {0x8c, 0xa9, 0xc6, 0xe3,
                                   0x00, 0x1d, 0x3a, 0x57};
    static const uint8_t message[9] = {0x1e, 0x53, 0x88, 0xbd, 0xf2,
                                       0x27, 0x5c, 0x91, 0xc6};
    static const uint8_t of_nine[] = {0x3a, 0xde, 0xf6, 0xaa,
                                      0x95, 0x6d, 0x08, 0xcd};
    static const uint8_t of_none[] = {0x45, 0x8c, 0x78, 0xc4,
                                      0x09, 0xd6, 0x7d, 0xdb};
    uint8_t out[9];
    memset(out, UNTOUCHED, sizeof out);
    CHECK(refused(captions_cmac(key, 7, message, 9, out, 8),
                  CAPTIONS_WRONG_KEY));
    CHECK(refused(captions_cmac(key, 0, message, 0, out, 7),
                  CAPTIONS_WRONG_KEY));
    CHECK(refused(captions_cmac(key, 8, message, 9, out, 7),
                  CAPTIONS_WRONG_SPAN));
    CHECK(refused(captions_cmac(key, 8, message, 9, out, 9),
                  CAPTIONS_WRONG_SPAN));
    CHECK(all(out, sizeof out, UNTOUCHED));
    CHECK(accepted(captions_cmac(key, 8, message, 9, out, 8)));
    CHECK(same(out, of_nine, 8) && out[8] == UNTOUCHED);
    CHECK(accepted(captions_cmac(sealing, 8, message, 0, out, 8)));
    CHECK(same(out, of_none, 8));
}

/* ---- Sheets ---- */

/* The bytes of a sheet, by the edition in its byte 3. */
static size_t size_of(const uint8_t *sheet)
{
    return editions[sheet[3] - 1].size;
}

static captions_answer write_as(uint8_t *sheet, size_t key_len, size_t slot,
                                const void *caption, size_t length)
{
    return plain(captions_write(sealing, key_len, checking, key_len, sheet,
                                size_of(sheet), slot,
                                (const uint8_t *)caption, length));
}

static captions_answer read_as(const uint8_t *sheet, size_t key_len,
                               size_t slot, uint8_t *window)
{
    return plain(captions_read(sealing, key_len, checking, key_len, sheet,
                               size_of(sheet), slot, window, CAPTIONS_FIELD));
}

/* Blanking for keys of that many bytes. */
static captions_answer blank_as(uint8_t *sheet, size_t sheet_len, size_t slots,
                                size_t key_class, size_t key_len)
{
    return captions_blank(sheet, sheet_len, slots, key_class, SERIAL, sealing,
                          key_len, checking, key_len);
}

/* Whether blanking is refused with this number whatever is wrong with the spans:
 * the slots, the sheet's bytes, or nothing. */
static int blank_refused(int number, uint8_t *sheet, size_t key_class,
                         const uint8_t *sealing_key, size_t sealing_len,
                         const uint8_t *checking_key, size_t checking_len)
{
    static const size_t spans[][2] = {
        {SHEET, SLOTS}, {SHEET, 0}, {SHEET, 257}, {SHEET - 1, SLOTS}, {0, 0}};
    size_t i;
    int so = 1;
    for (i = 0; i < sizeof spans / sizeof spans[0]; i++)
        so = so && refused(captions_blank(sheet, spans[i][0], spans[i][1],
                                          key_class, SERIAL, sealing_key,
                                          sealing_len, checking_key,
                                          checking_len),
                           number);
    return so;
}

/* In the order of the tests; what stands later in it is wrong too. */
static void blanking_refusals(void)
{
    uint8_t sheet[SHEET + 1];
    memset(sheet, UNTOUCHED, sizeof sheet);
    CHECK(blank_refused(CAPTIONS_WRONG_KEY, sheet, 5, sealing, 8, sealing, 8));
    CHECK(blank_refused(CAPTIONS_WRONG_KEY, sheet, 0, sealing, 12, checking,
                        12));
    CHECK(blank_refused(CAPTIONS_WRONG_KEY, sheet, (size_t)-1, sealing, 8,
                        checking, 8));
    CHECK(blank_refused(CAPTIONS_WRONG_KEY, sheet, 4, sealing, 7, sealing, 7));
    CHECK(blank_refused(CAPTIONS_WRONG_KEY, sheet, 4, sealing, 17, checking,
                        17));
    CHECK(blank_refused(CAPTIONS_WRONG_KEY, sheet, 4, sealing, 8, checking,
                        12));
    CHECK(blank_refused(CAPTIONS_WRONG_KEY, sheet, 4, sealing, 0, checking,
                        0));
    CHECK(blank_refused(CAPTIONS_TWIN_KEYS, sheet, 4, sealing, 8, sealing, 8));
    CHECK(blank_refused(CAPTIONS_TWIN_KEYS, sheet, 4, sealing, 12, sealing,
                        12));
    CHECK(refused(blank_as(sheet, CAPTIONS_HEADER, 0, 4, 12),
                  CAPTIONS_WRONG_SPAN));
    CHECK(refused(blank_as(sheet, SHEET, 257, 4, 12), CAPTIONS_WRONG_SPAN));
    CHECK(refused(blank_as(sheet, SHEET, (size_t)-1, 4, 8),
                  CAPTIONS_WRONG_SPAN));
    CHECK(refused(blank_as(sheet, SHEET - 1, SLOTS, 4, 8),
                  CAPTIONS_WRONG_SPAN));
    CHECK(refused(blank_as(sheet, SHEET + 1, SLOTS, 4, 12),
                  CAPTIONS_WRONG_SPAN));
    CHECK(refused(blank_as(sheet, CAPTIONS_SHEET_1(SLOTS), SLOTS, 4, 8),
                  CAPTIONS_WRONG_SPAN));
    CHECK(refused(blank_as(sheet, SHEET, SLOTS, 4, 12),
                  CAPTIONS_OTHER_KEY_CLASS));
    CHECK(refused(blank_as(sheet, SHEET, SLOTS, 8, 12),
                  CAPTIONS_OTHER_KEY_CLASS));
    CHECK(refused(blank_as(sheet, SHEET, SLOTS, 6, 8),
                  CAPTIONS_OTHER_KEY_CLASS));
    CHECK(blank_refused(CAPTIONS_TWIN_KEYS, sheet, CAPTIONS_PRESENT_80, sealing,
                        8, sealing, 8));
    CHECK(refused(blank_as(sheet, SHEET - 1, SLOTS, CAPTIONS_PRESENT_80, 16),
                  CAPTIONS_WRONG_SPAN));
    CHECK(all(sheet, sizeof sheet, UNTOUCHED));
}

/* CMAC of one block with PRESENT, which no call makes: K1 is L doubled. */
static void present_cmac(const uint8_t *key, size_t key_len,
                         const uint8_t *message, uint8_t *mac)
{
    uint8_t zero[CAPTIONS_BLOCK] = {0}, l[CAPTIONS_BLOCK], last[CAPTIONS_BLOCK];
    size_t i;
    CHECK(accepted(
        captions_present_encrypt_block(key, key_len, zero, 8, l, 8)));
    for (i = 0; i < 8; i++)
        last[i] = (uint8_t)(message[i] ^ (l[i] << 1 | (l[(i + 1) % 8] >> 7)));
    /* The bit that is shifted out came in again on the right. */
    last[7] ^= l[0] >> 7 ? 0x1b ^ 1 : 0;
    CHECK(accepted(
        captions_present_encrypt_block(key, key_len, last, 8, mac, 8)));
}

/* The header that blanking makes: the mark is the first six bytes of the CMAC of
 * slots, key class, edition, serial and two zero bytes, sealed. */
static void make_header(uint8_t *header, const struct class *class,
                        uint16_t serial)
{
    uint8_t plain_block[CAPTIONS_BLOCK] = {0, SLOTS, 0, 3}, mac[CAPTIONS_CHECK];
    uint8_t sealed[CAPTIONS_BLOCK];
    size_t key_len = class->key_len;
    plain_block[2] = (uint8_t)class->number;
    plain_block[4] = (uint8_t)(serial >> 8);
    plain_block[5] = (uint8_t)serial;
    if (class < classes + MCRYPTON_CLASSES) {
        CHECK(accepted(captions_encrypt_block(sealing, key_len, plain_block, 8,
                                              0, sealed, 8)));
        CHECK(accepted(captions_cmac(checking, key_len, sealed, 8, mac, 8)));
    } else {
        CHECK(accepted(captions_present_encrypt_block(
            sealing, key_len, plain_block, 8, sealed, 8)));
        present_cmac(checking, key_len, sealed, mac);
    }
    memset(header, 0, CAPTIONS_HEADER);
    memcpy(header, plain_block, 4);
    memcpy(header + 8, plain_block + 4, 2);
    memcpy(header + 10, mac, 6);
}

static void blanking(void)
{
    static const uint16_t serials[] = {0, 1, 255, 256, 65535, SERIAL};
    uint8_t sheet[SHEET + 1], header[CAPTIONS_HEADER];
    size_t i, k;
    memset(sheet, UNTOUCHED, sizeof sheet);
    /* Each class and serial over the bytes of the sheet before. */
    for (k = 0; k < CLASSES; k++)
        for (i = 0; i < sizeof serials / sizeof serials[0]; i++) {
            size_t key_len = classes[k].key_len;
            make_header(header, &classes[k], serials[i]);
            CHECK(accepted(captions_blank(sheet, SHEET, SLOTS,
                                          classes[k].number, serials[i],
                                          sealing, key_len, checking,
                                          key_len)));
            CHECK(same(sheet, header, CAPTIONS_HEADER));
            CHECK(all(sheet + CAPTIONS_HEADER, SHEET - CAPTIONS_HEADER, 0));
            CHECK(sheet[SHEET] == UNTOUCHED);
            CHECK(accepted(write_as(sheet, key_len, 0, "Vase", 4)));
        }
}

/* A blank sheet of an edition; laid out here where no call makes it. */
static void make_blank(const struct edition *edition, uint8_t *sheet,
                       const struct class *class)
{
    if (edition->number == 3) {
        CHECK(accepted(
            blank_as(sheet, SHEET, SLOTS, class->number, class->key_len)));
        return;
    }
    memset(sheet, 0, edition->size);
    sheet[1] = SLOTS;
    sheet[2] = (uint8_t)class->number;
    sheet[3] = edition->number;
    if (edition->number == 2) {
        sheet[8] = SERIAL >> 8;
        sheet[9] = SERIAL & 0xff;
    }
}

/* A caption goes in and comes out, in each key class. */
static void writing_and_reading(const struct edition *edition,
                                const struct class *class)
{
    static const char first[] = "Vase, 1752", second[] = "Vase, 1751";
    size_t key_len = class->key_len;
    uint8_t sheet[SHEET], before[SHEET], window[CAPTIONS_FIELD];
    uint8_t longest[CAPTIONS_FIELD];
    memset(longest, 'x', sizeof longest);
    make_blank(edition, sheet, class);
    CHECK(accepted(write_as(sheet, key_len, 0, first, sizeof first - 1)));
    CHECK(sheet[7] == 1);
    CHECK(accepted(write_as(sheet, key_len, 2, longest, sizeof longest)));
    CHECK(accepted(write_as(sheet, key_len, 0, second, sizeof second - 1)));
    make_blank(edition, before, class);
    before[7] = 3;
    CHECK(same(sheet, before, edition->header));

    memset(window, UNTOUCHED, sizeof window);
    CHECK(is(read_as(sheet, key_len, 0, window), 0, sizeof second - 1));
    CHECK(memcmp(window, second, sizeof second - 1) == 0);
    CHECK(all(window + sizeof second - 1, sizeof window - sizeof second + 1,
              0));
    CHECK(is(read_as(sheet, key_len, 2, window), 0, CAPTIONS_FIELD));
    CHECK(same(window, longest, sizeof longest));
    CHECK(refused(read_as(sheet, key_len, 1, window), CAPTIONS_BLANK));
    CHECK(all(window, sizeof window, 0));

    CHECK(accepted(write_as(sheet, key_len, 1, first, 0)));
    CHECK(is(read_as(sheet, key_len, 1, window), 0, 0));
    CHECK(all(window, sizeof window, 0));

    memcpy(before, sheet, edition->size);
    CHECK(accepted(captions_clear(sheet, edition->size, 0)));
    CHECK(same(sheet, before, edition->header));
    CHECK(all(sheet + edition->header, CAPTIONS_MARK, 0));
    CHECK(refused(read_as(sheet, key_len, 0, window), CAPTIONS_BLANK));
    memcpy(before, sheet, edition->size);
    CHECK(accepted(captions_clear(sheet, edition->size, 0)));
    CHECK(same(sheet, before, edition->size));
}

/* A sheet with a caption in slot 1, for keys of 8 bytes. */
static void make_sheet(const struct edition *edition, uint8_t *sheet)
{
    make_blank(edition, sheet, &classes[0]);
    CHECK(accepted(write_as(sheet, 8, 1, "Clock", 5)));
}

/* Where the sealed field of slot 1 begins. */
static size_t field_place(const struct edition *edition)
{
    return edition->header + CAPTIONS_MARK * SLOTS + CAPTIONS_FIELD;
}

/* The caption of make_sheet, opened from a start block that is put together
 * here: write number, slot, and the serial or two zero bytes. */
static void start_block(const struct edition *edition)
{
    uint8_t plain[CAPTIONS_BLOCK] = {0, 0, 0, 1, 0, 1}, start[CAPTIONS_BLOCK];
    uint8_t sheet[SHEET], opened[CAPTIONS_BLOCK];
    size_t i;
    make_sheet(edition, sheet);
    if (edition->number != 1) {
        plain[6] = SERIAL >> 8;
        plain[7] = SERIAL & 0xff;
    }
    CHECK(accepted(captions_encrypt_block(sealing, 8, plain, 8, 0, start, 8)));
    CHECK(accepted(captions_decrypt_block(sealing, 8,
                                          sheet + field_place(edition), 8, 0,
                                          opened, 8)));
    for (i = 0; i < CAPTIONS_BLOCK; i++)
        opened[i] ^= start[i];
    CHECK(memcmp(opened, "Clock\0\0", CAPTIONS_BLOCK) == 0);
}

static void write_refusals(const struct edition *edition)
{
    uint8_t sheet[SHEET], before[SHEET], overlong[CAPTIONS_FIELD + 1] = {0};
    size_t size = edition->size;
    make_sheet(edition, sheet);
    memcpy(before, sheet, size);
    CHECK(refused(plain(captions_write(sealing, 7, checking, 7, sheet, size, 0,
                                       overlong, 1)),
                  CAPTIONS_WRONG_KEY));
    CHECK(refused(plain(captions_write(sealing, 8, checking, 12, sheet, size, 0,
                                       overlong, 1)),
                  CAPTIONS_WRONG_KEY));
    CHECK(refused(plain(captions_write(sealing, 8, sealing, 8, sheet, size, 0,
                                       overlong, 1)),
                  CAPTIONS_TWIN_KEYS));
    CHECK(refused(plain(captions_write(sealing, 8, checking, 8, sheet,
                                       size - 1, 0, overlong, 1)),
                  CAPTIONS_UNFIT_SHEET));
    CHECK(refused(plain(captions_write(sealing, 8, checking, 8, sheet, 0, 0,
                                       overlong, 1)),
                  CAPTIONS_UNFIT_SHEET));
    CHECK(refused(write_as(sheet, 12, 0, "x", 1), CAPTIONS_OTHER_KEY_CLASS));
    CHECK(refused(write_as(sheet, 8, SLOTS, "x", 1), CAPTIONS_NO_SUCH_SLOT));
    CHECK(refused(write_as(sheet, 8, (size_t)-1, "x", 1),
                  CAPTIONS_NO_SUCH_SLOT));
    CHECK(refused(write_as(sheet, 8, 0, overlong, sizeof overlong),
                  CAPTIONS_OVERLONG));
    memset(overlong, 0xff, sizeof overlong);
    CHECK(refused(write_as(sheet, 8, SLOTS, overlong, sizeof overlong),
                  CAPTIONS_NO_SUCH_SLOT));
    CHECK(refused(write_as(sheet, 8, 0, overlong, sizeof overlong),
                  CAPTIONS_OVERLONG));
    CHECK(refused(write_as(sheet, 8, 0, overlong, CAPTIONS_FIELD),
                  CAPTIONS_BROKEN_TEXT));
    CHECK(same(sheet, before, size));

    memset(sheet + 4, 0xff, 4);
    memcpy(before, sheet, size);
    CHECK(refused(write_as(sheet, 8, 0, overlong, 1), CAPTIONS_BROKEN_TEXT));
    CHECK(refused(write_as(sheet, 8, 0, "x", 1), CAPTIONS_WORN));
    CHECK(same(sheet, before, size));
    sheet[7] = 0xfe;
    CHECK(accepted(write_as(sheet, 8, 0, "x", 1)));
    CHECK(refused(write_as(sheet, 8, 0, "x", 1), CAPTIONS_WORN));
}

static void clear_refusals(const struct edition *edition)
{
    uint8_t sheet[SHEET], before[SHEET];
    size_t size = edition->size;
    make_sheet(edition, sheet);
    memcpy(before, sheet, size);
    CHECK(refused(captions_clear(sheet, size - 1, 0), CAPTIONS_UNFIT_SHEET));
    CHECK(refused(captions_clear(sheet, 0, 0), CAPTIONS_UNFIT_SHEET));
    CHECK(refused(captions_clear(sheet, size, SLOTS), CAPTIONS_NO_SUCH_SLOT));
    CHECK(same(sheet, before, size));
}

/* Whether a read is refused with this number and zeroes its whole window. */
static int read_refused(int number, const uint8_t *sealing_key,
                        size_t sealing_len, const uint8_t *checking_key,
                        size_t checking_len, const uint8_t *sheet,
                        size_t sheet_len, size_t slot, size_t window_len)
{
    uint8_t window[CAPTIONS_FIELD + 2];
    captions_answer answer;
    memset(window, UNTOUCHED, sizeof window);
    answer = plain(captions_read(sealing_key, sealing_len, checking_key,
                                 checking_len, sheet, sheet_len, slot, window,
                                 window_len));
    return refused(answer, number) && all(window, window_len, 0) &&
           all(window + window_len, sizeof window - window_len, UNTOUCHED);
}

static void read_refusals(const struct edition *edition)
{
    uint8_t sheet[SHEET], window[CAPTIONS_FIELD];
    size_t field = field_place(edition), size = edition->size;
    make_sheet(edition, sheet);
    CHECK(read_refused(CAPTIONS_WRONG_KEY, sealing, 9, checking, 9, sheet,
                       size, 1, 192));
    CHECK(read_refused(CAPTIONS_WRONG_KEY, sealing, 8, checking, 16, sheet,
                       size, 1, 192));
    CHECK(read_refused(CAPTIONS_TWIN_KEYS, sealing, 8, sealing, 8, sheet,
                       size, 1, 192));
    CHECK(read_refused(CAPTIONS_WRONG_SPAN, sealing, 8, checking, 8, sheet,
                       size, 1, 191));
    CHECK(read_refused(CAPTIONS_WRONG_SPAN, sealing, 8, checking, 8, sheet,
                       size, 1, 193));
    CHECK(read_refused(CAPTIONS_WRONG_SPAN, sealing, 8, checking, 8, sheet,
                       size, 1, 0));
    CHECK(read_refused(CAPTIONS_UNFIT_SHEET, sealing, 8, checking, 8, sheet,
                       size - 1, 1, 192));
    CHECK(read_refused(CAPTIONS_UNFIT_SHEET, sealing, 8, checking, 8, sheet, 0,
                       1, 192));
    CHECK(read_refused(CAPTIONS_OTHER_KEY_CLASS, sealing, 16, checking, 16,
                       sheet, size, 1, 192));
    CHECK(read_refused(CAPTIONS_NO_SUCH_SLOT, sealing, 8, checking, 8, sheet,
                       size, SLOTS, 192));
    CHECK(read_refused(CAPTIONS_BLANK, sealing, 8, checking, 8, sheet, size,
                       0, 192));
    sheet[field] ^= 1;
    CHECK(read_refused(CAPTIONS_ALTERED, sealing, 8, checking, 8, sheet, size,
                       1, 192));
    sheet[field] ^= 1;
    CHECK(is(read_as(sheet, 8, 1, window), 0, 5));
    CHECK(memcmp(window, "Clock", 5) == 0);
}

/* One bit of a key of 8 bytes flipped. */
static void flip(uint8_t *flipped, const uint8_t *key, size_t bit)
{
    memcpy(flipped, key, 8);
    flipped[bit / 8] ^= (uint8_t)(1 << bit % 8);
}

/* What a stranger's read and write of slot 1, and of no slot, answer: from
 * edition 3 on 14; before that the caption is altered, the write accepted. */
static int strangers(const struct edition *edition, const uint8_t *first,
                     const uint8_t *second)
{
    uint8_t sheet[SHEET], before[SHEET];
    int marked = edition->number == 3;
    captions_answer written;
    make_sheet(edition, sheet);
    memcpy(before, sheet, edition->size);
    written = plain(captions_write(first, 8, second, 8, sheet, edition->size,
                                   1, sealing, 1));
    return is(written, marked ? CAPTIONS_OTHER_KEYS : CAPTIONS_ACCEPTED, 0) &&
           same(sheet, before, edition->size) == marked &&
           read_refused(marked ? CAPTIONS_OTHER_KEYS : CAPTIONS_ALTERED, first,
                        8, second, 8, before, edition->size, 1, 192) &&
           read_refused(marked ? CAPTIONS_OTHER_KEYS : CAPTIONS_NO_SUCH_SLOT,
                        first, 8, second, 8, before, edition->size,
                        (size_t)-1, 192);
}

/* Other keys of the right length: exchanged, one of them another, and every one
 * that differs in one bit. */
static void other_keys(const struct edition *edition)
{
    uint8_t flipped[8];
    size_t bit;
    CHECK(strangers(edition, checking, sealing));
    CHECK(strangers(edition, sealing, strange));
    CHECK(strangers(edition, strange, checking));
    for (bit = 0; bit < 64; bit++) {
        flip(flipped, sealing, bit);
        CHECK(strangers(edition, flipped, checking));
        flip(flipped, checking, bit);
        CHECK(strangers(edition, sealing, flipped));
    }
}

/* ---- Broken text ---- */

/* A text, and where it breaks; one that isn't broken has its length there. */
struct text_case {
    const char *text;
    size_t length, at;
};

static const struct text_case broken_texts[] = {
    {"\x80", 1, 0},
    {"\xbf", 1, 0},
    {"\xc0\x80", 2, 0},
    {"\xc1\xbf", 2, 0},
    {"\xc2", 1, 1},
    {"\xdf\x7f", 2, 1},
    {"\xdf\xc0", 2, 1},
    {"\xe0\x80\x80", 3, 1},
    {"\xe0\x9f\xbf", 3, 1},
    {"\xe2\x82", 2, 2},
    {"\xe2\x82.", 3, 2},
    {"\xed\xa0\x80", 3, 1},
    {"\xed\xbf\xbf", 3, 1},
    {"\xed\xa0\x80\xed\xb0\x80", 6, 1},
    {"\xf0\x80\x80\x80", 4, 1},
    {"\xf0\x8f\xbf\xbf", 4, 1},
    {"\xf0\x9d\x84", 3, 3},
    {"\xf0\x9d\x84\xf0", 4, 3},
    {"\xf4\x90\x80\x80", 4, 1},
    {"\xf5\x80\x80\x80", 4, 0},
    {"\xff", 1, 0},
    {"Caf\xc3\xa9\xa9", 6, 5},
    {"Caf\xe9", 4, 4},
    {"Caf\xe9.", 5, 4},
};
static const struct text_case whole_texts[] = {
    {"", 0, 0},
    {"\0", 1, 1},
    {"\x7f", 1, 1},
    {"\xc2\x80", 2, 2},
    {"\xdf\xbf", 2, 2},
    {"\xe0\xa0\x80", 3, 3},
    {"\xed\x9f\xbf", 3, 3},
    {"\xee\x80\x80", 3, 3},
    {"\xef\xbb\xbf", 3, 3},
    {"\xef\xbf\xbf", 3, 3},
    {"\xf0\x90\x80\x80", 4, 4},
    {"\xf4\x8f\xbf\xbf", 4, 4},
    {"Caf\xc3\xa9", 5, 5},
};
#define BROKEN_TEXTS (sizeof broken_texts / sizeof broken_texts[0])
#define WHOLE_TEXTS (sizeof whole_texts / sizeof whole_texts[0])

/* Behind so many bytes of letters: where it breaks, and what a write answers. */
static void text_behind(const struct edition *edition,
                        const struct text_case *c, size_t letters, int number)
{
    uint8_t sheet[SHEET], before[SHEET], text[CAPTIONS_FIELD];
    memset(text, 'x', letters);
    memcpy(text + letters, c->text, c->length);
    make_sheet(edition, sheet);
    memcpy(before, sheet, edition->size);
    CHECK(captions_broken_at(text, letters + c->length) == letters + c->at);
    CHECK(refused(write_as(sheet, 8, 1, text, letters + c->length), number));
    CHECK(same(sheet, before, edition->size) == (number != 0));
}

/* From both sides of each edge, in texts of few bytes and of 192. */
static void text_refusals(const struct edition *edition)
{
    size_t i;
    for (i = 0; i < BROKEN_TEXTS; i++) {
        const struct text_case *c = &broken_texts[i];
        text_behind(edition, c, 0, CAPTIONS_BROKEN_TEXT);
        text_behind(edition, c, 8, CAPTIONS_BROKEN_TEXT);
        text_behind(edition, c, CAPTIONS_FIELD - c->length,
                    CAPTIONS_BROKEN_TEXT);
    }
    for (i = 0; i < WHOLE_TEXTS; i++) {
        const struct text_case *c = &whole_texts[i];
        text_behind(edition, c, 0, CAPTIONS_ACCEPTED);
        text_behind(edition, c, CAPTIONS_FIELD - c->length,
                    CAPTIONS_ACCEPTED);
    }
}

/* What captions_write stored before it tested texts, put together here by blocks:
 * slot 1 of a sheet as make_sheet has it, written again under number 2. */
static void store_old(const struct edition *edition, uint8_t *sheet,
                      const struct text_case *c)
{
    uint8_t message[8 + CAPTIONS_FIELD] = {0, 0, 0, 2, 0, 1};
    uint8_t plain_block[CAPTIONS_BLOCK] = {0, 0, 0, 2, 0, 1};
    uint8_t sealed[CAPTIONS_BLOCK], *field = message + 8;
    uint8_t *mark = sheet + edition->header + CAPTIONS_MARK;
    size_t i, k;
    make_sheet(edition, sheet);
    if (edition->number != 1) {
        plain_block[6] = SERIAL >> 8;
        plain_block[7] = SERIAL & 0xff;
    }
    CHECK(accepted(captions_encrypt_block(sealing, 8, plain_block, 8, 0,
                                          sealed, 8)));
    memcpy(field, c->text, c->length);
    for (i = 0; i < CAPTIONS_FIELD; i += CAPTIONS_BLOCK) {
        for (k = 0; k < CAPTIONS_BLOCK; k++)
            plain_block[k] = field[i + k] ^ sealed[k];
        CHECK(accepted(captions_encrypt_block(sealing, 8, plain_block, 8, 0,
                                              sealed, 8)));
        memcpy(field + i, sealed, CAPTIONS_BLOCK);
    }
    message[7] = (uint8_t)c->length;
    memcpy(mark, message, 4);
    memcpy(mark + 4, message + 6, 2);
    CHECK(accepted(captions_cmac(checking, 8, message, sizeof message,
                                 mark + 8, 8)));
    memcpy(sheet + field_place(edition), field, CAPTIONS_FIELD);
    sheet[7] = 2;
}

/* Reads, listings and clears take it as it is. */
static void old_texts(const struct edition *edition)
{
    static const char listing[] = "slots 3 key 64 last 2\n0 blank\n"
                                  "1 written 2 1\n2 blank\n";
    uint8_t sheet[SHEET], window[CAPTIONS_FIELD], out[CAPTIONS_LISTING];
    size_t i;
    for (i = 0; i < BROKEN_TEXTS; i++) {
        const struct text_case *c = &broken_texts[i];
        store_old(edition, sheet, c);
        memset(window, UNTOUCHED, sizeof window);
        CHECK(is(read_as(sheet, 8, 1, window), 0, (int)c->length));
        CHECK(memcmp(window, c->text, c->length) == 0);
        CHECK(all(window + c->length, sizeof window - c->length, 0));
        if (c->length == 1) {
            CHECK(captions_list(sheet, edition->size, out, sizeof out) ==
                  sizeof listing - 1);
            CHECK(memcmp(out, listing, sizeof listing - 1) == 0);
        }
        CHECK(accepted(write_as(sheet, 8, 0, "Vase", 4)));
        CHECK(is(read_as(sheet, 8, 1, window), 0, (int)c->length));
        CHECK(accepted(captions_clear(sheet, edition->size, 1)));
    }
}

/* ---- Days and terms ---- */

static int is_day(captions_day answer, int number, int day)
{
    return answer.number == number && answer.day == day;
}

static int is_date(captions_date answer, int number, int year, int month,
                   int day)
{
    return answer.number == number && answer.year == year &&
           answer.month == month && answer.day == day;
}

/* Every day of the range, each date found from the one before. */
static void days_and_dates(void)
{
    static const size_t lengths[] = {31, 28, 31, 30, 31, 30,
                                     31, 31, 30, 31, 30, 31};
    size_t year = 2000, month = 1, day = 1, count;
    for (count = 0; count <= CAPTIONS_LAST_DAY; count++) {
        int leap = (year % 4 == 0 && year % 100 != 0) || year % 400 == 0;
        CHECK(is_day(captions_day_of_date(year, month, day), 0, (int)count));
        CHECK(is_date(captions_date_of_day(count), 0, (int)year, (int)month,
                      (int)day));
        if (day++ == lengths[month - 1] + (month == 2 && leap)) {
            CHECK(is_day(captions_day_of_date(year, month, day),
                         CAPTIONS_NO_SUCH_DATE, 0));
            day = 1;
            month = month % 12 + 1;
            year += month == 1;
        }
    }
    CHECK(year == 2100 && month == 1 && day == 1);
}

static void no_such_dates(void)
{
    static const size_t dates[][3] = {
        {1999, 12, 31}, {2100, 1, 1},   {2026, 0, 1},
        {2026, 13, 1},  {2026, 1, 0},   {2026, 1, 32},
        {2026, 2, 29},  {2028, 2, 30},  {2000, 1, 366},
        {26, 1, 1},     {0, 0, 0},      {67562, 1, 1},
        {2026, 257, 1}, {2026, 1, 257}, {(size_t)-1, 1, 1},
    };
    static const size_t days[] = {36525, 65535, 65536, (size_t)-1};
    size_t i;
    for (i = 0; i < sizeof dates / sizeof dates[0]; i++)
        CHECK(is_day(captions_day_of_date(dates[i][0], dates[i][1],
                                          dates[i][2]),
                     CAPTIONS_NO_SUCH_DATE, 0));
    for (i = 0; i < sizeof days / sizeof days[0]; i++)
        CHECK(is_date(captions_date_of_day(days[i]), CAPTIONS_NO_SUCH_DATE, 0,
                      0, 0));
}

#define TERMS CAPTIONS_TERMS(SLOTS)
#define OPENING 9617
#define CLOSING 9800

static void put_number(uint8_t *terms, size_t place, unsigned number)
{
    terms[2 * place] = (uint8_t)(number >> 8);
    terms[2 * place + 1] = (uint8_t)number;
}

/* Slot 0 is always on show, slot 1 from OPENING to CLOSING, slot 2 never. */
static void make_terms(uint8_t *terms)
{
    static const unsigned numbers[] = {
        SLOTS, 0, OPENING, CAPTIONS_LAST_DAY, CAPTIONS_LAST_DAY, CLOSING, 0};
    size_t i;
    for (i = 0; i < sizeof numbers / sizeof numbers[0]; i++)
        put_number(terms, i, numbers[i]);
}

/* Whether a dated read of that many window bytes is refused with this number
 * and zeroes them all, and no other lent byte. */
static int dated_refused(int number, size_t key_len, const uint8_t *other_key,
                         const uint8_t *sheet, size_t sheet_len,
                         const uint8_t *terms, size_t terms_len, size_t slot,
                         size_t day, size_t window_len)
{
    uint8_t window[CAPTIONS_FIELD + 2];
    captions_answer answer;
    memset(window, UNTOUCHED, sizeof window);
    answer = plain(captions_dated_read(sealing, key_len, other_key, key_len,
                                       sheet, sheet_len, terms, terms_len,
                                       slot, day, window, window_len));
    return refused(answer, number) && all(window, window_len, 0) &&
           all(window + window_len, sizeof window - window_len, UNTOUCHED);
}

static int shown(const uint8_t *sheet, const uint8_t *terms, size_t day)
{
    uint8_t window[CAPTIONS_FIELD];
    captions_answer answer;
    memset(window, UNTOUCHED, sizeof window);
    answer = plain(captions_dated_read(sealing, 8, checking, 8, sheet,
                                       size_of(sheet), terms, TERMS, 1, day,
                                       window, sizeof window));
    return is(answer, CAPTIONS_ACCEPTED, 5) &&
           memcmp(window, "Clock", 5) == 0 && all(window + 5, 187, 0);
}

static void dated_reads(const struct edition *edition)
{
    uint8_t sheet[SHEET], terms[TERMS + 1] = {0};
    size_t size = edition->size;
    make_sheet(edition, sheet);
    make_terms(terms);
    CHECK(TERMS == 14 && CAPTIONS_TERMS(CAPTIONS_SLOTS) == 1026);
    CHECK(shown(sheet, terms, OPENING));
    CHECK(shown(sheet, terms, CLOSING));
    CHECK(dated_refused(CAPTIONS_NOT_ON_SHOW, 8, checking, sheet, size, terms,
                        TERMS, 1, OPENING - 1, 192));
    CHECK(dated_refused(CAPTIONS_NOT_ON_SHOW, 8, checking, sheet, size, terms,
                        TERMS, 1, CLOSING + 1, 192));
    put_number(terms, 2, CLOSING);
    CHECK(shown(sheet, terms, CLOSING));
    put_number(terms, 2, CLOSING + 1);
    CHECK(dated_refused(CAPTIONS_NOT_ON_SHOW, 8, checking, sheet, size, terms,
                        TERMS, 1, CLOSING, 192));
    CHECK(dated_refused(CAPTIONS_NOT_ON_SHOW, 8, checking, sheet, size, terms,
                        TERMS, 1, CLOSING + 1, 192));
    put_number(terms, 2, 0);
    put_number(terms, 5, CAPTIONS_LAST_DAY);
    CHECK(shown(sheet, terms, 0));
    CHECK(shown(sheet, terms, CAPTIONS_LAST_DAY));
}

/* In the order of the tests; what stands later in it is wrong too. */
static void dated_read_refusals(const struct edition *edition)
{
    uint8_t sheet[SHEET], terms[TERMS + 1] = {0};
    size_t field = field_place(edition), size = edition->size;
    size_t place;
    make_sheet(edition, sheet);
    make_terms(terms);
    CHECK(dated_refused(CAPTIONS_WRONG_KEY, 7, sealing, sheet, 0, terms, 0,
                        SLOTS, (size_t)-1, 191));
    CHECK(dated_refused(CAPTIONS_TWIN_KEYS, 12, sealing, sheet, 0, terms, 0,
                        SLOTS, (size_t)-1, 191));
    CHECK(dated_refused(CAPTIONS_WRONG_SPAN, 12, checking, sheet, 0, terms, 0,
                        SLOTS, (size_t)-1, 191));
    CHECK(dated_refused(CAPTIONS_WRONG_SPAN, 8, checking, sheet, size, terms,
                        TERMS, 1, OPENING, 193));
    CHECK(dated_refused(CAPTIONS_WRONG_SPAN, 8, checking, sheet, size, terms,
                        TERMS, 1, OPENING, 0));
    CHECK(dated_refused(CAPTIONS_UNFIT_SHEET, 12, checking, sheet, size - 1,
                        terms, TERMS, SLOTS, (size_t)-1, 192));
    CHECK(dated_refused(CAPTIONS_UNFIT_SHEET, 12, checking, sheet, size,
                        terms, TERMS - 1, SLOTS, (size_t)-1, 192));
    CHECK(dated_refused(CAPTIONS_UNFIT_SHEET, 8, checking, sheet, size, terms,
                        TERMS + 1, 1, OPENING, 192));
    CHECK(dated_refused(CAPTIONS_UNFIT_SHEET, 8, checking, sheet, size, terms,
                        0, 1, OPENING, 192));
    for (place = 0; place < TERMS / 2; place++) {
        /* Another slot count; a day past the last, in each slot. */
        put_number(terms, place, place == 0 ? SLOTS + 1 : 36525);
        CHECK(dated_refused(CAPTIONS_UNFIT_SHEET, 8, checking, sheet, size,
                            terms, TERMS, 1, OPENING, 192));
        make_terms(terms);
    }
    CHECK(dated_refused(CAPTIONS_OTHER_KEY_CLASS, 12, checking, sheet, size,
                        terms, TERMS, SLOTS, 36525, 192));
    CHECK(dated_refused(CAPTIONS_NO_SUCH_DATE, 8, strange, sheet, size,
                        terms, TERMS, SLOTS, 36525, 192));
    CHECK(dated_refused(CAPTIONS_NO_SUCH_DATE, 8, checking, sheet, size,
                        terms, TERMS, 1, (size_t)-1, 192));
    CHECK(dated_refused(edition->number == 3 ? CAPTIONS_OTHER_KEYS
                                             : CAPTIONS_NO_SUCH_SLOT,
                        8, strange, sheet, size, terms, TERMS, SLOTS, OPENING,
                        192));
    CHECK(dated_refused(CAPTIONS_NO_SUCH_SLOT, 8, checking, sheet, size,
                        terms, TERMS, SLOTS, OPENING, 192));
    CHECK(dated_refused(CAPTIONS_BLANK, 8, checking, sheet, size, terms,
                        TERMS, 2, OPENING, 192));
    sheet[field] ^= 1;
    CHECK(dated_refused(CAPTIONS_NOT_ON_SHOW, 8, checking, sheet, size, terms,
                        TERMS, 1, 0, 192));
    CHECK(dated_refused(CAPTIONS_ALTERED, 8, checking, sheet, size, terms,
                        TERMS, 1, OPENING, 192));
}

/* ---- The editions ---- */

/* Whether every call finds these bytes an unfit sheet and leaves them so. */
static int unfit(const uint8_t *bytes, size_t size)
{
    uint8_t sheet[SHEET], terms[TERMS], out[6];
    memcpy(sheet, bytes, size);
    make_terms(terms);
    return read_refused(CAPTIONS_UNFIT_SHEET, sealing, 8, checking, 8, sheet,
                        size, 1, 192) &&
           dated_refused(CAPTIONS_UNFIT_SHEET, 8, checking, sheet, size, terms,
                         TERMS, 1, OPENING, 192) &&
           refused(plain(captions_write(sealing, 8, checking, 8, sheet, size,
                                        1, sealing, 1)),
                   CAPTIONS_UNFIT_SHEET) &&
           refused(captions_clear(sheet, size, 1), CAPTIONS_UNFIT_SHEET) &&
           captions_list(sheet, size, out, sizeof out) == sizeof out &&
           memcmp(out, "unfit\n", sizeof out) == 0 &&
           is(captions_running_order(sheet, size, terms, TERMS,
                                     (const uint8_t *)"2026-05-01", 10, out,
                                     sizeof out),
              CAPTIONS_ACCEPTED, sizeof out) &&
           memcmp(out, "unfit\n", sizeof out) == 0 &&
           same(sheet, bytes, size);
}

/* Whether every call that takes keys finds these bytes another pair's sheet and
 * leaves them so, while a clear and a listing take them as they are. */
static int others(const uint8_t *bytes)
{
    uint8_t sheet[SHEET], terms[TERMS], out[CAPTIONS_LISTING];
    memcpy(sheet, bytes, SHEET);
    make_terms(terms);
    return read_refused(CAPTIONS_OTHER_KEYS, sealing, 8, checking, 8, sheet,
                        SHEET, 1, 192) &&
           dated_refused(CAPTIONS_OTHER_KEYS, 8, checking, sheet, SHEET, terms,
                         TERMS, 1, OPENING, 192) &&
           refused(write_as(sheet, 8, 1, "x", 1), CAPTIONS_OTHER_KEYS) &&
           same(sheet, bytes, SHEET) &&
           captions_list(sheet, SHEET, out, sizeof out) > 6 &&
           accepted(captions_clear(sheet, SHEET, 1));
}

/* Byte 3 at every value with each size that a sheet has. A sheet of edition 2
 * that is called one of edition 3 is fit: its zeros are nobody's mark. */
static void every_edition_byte(const struct edition *edition, uint8_t *sheet)
{
    unsigned value;
    size_t i;
    for (value = 0; value < 256; value++)
        for (i = 0; i < 2; i++) {
            size_t size = editions[i].size;
            sheet[3] = (uint8_t)value;
            CHECK((value == edition->number && size == edition->size) ||
                  (edition->number == 2 && value == 3 && size == SHEET
                       ? others(sheet)
                       : unfit(sheet, size)));
        }
    sheet[3] = edition->number;
}

/* Besides byte 3, each zero byte of edition 2 set, and each bit of edition 3's
 * mark flipped, which breaks no rule. */
static void edition_rules(const struct edition *edition)
{
    uint8_t sheet[SHEET] = {0}, window[CAPTIONS_FIELD];
    size_t i;
    int bit;
    make_sheet(edition, sheet);
    every_edition_byte(edition, sheet);
    for (i = CAPTIONS_HEADER - 6; i < edition->header; i++)
        for (bit = 1; bit < 256; bit *= 2) {
            sheet[i] ^= (uint8_t)bit;
            CHECK(edition->number == 2 ? unfit(sheet, SHEET) : others(sheet));
            sheet[i] ^= (uint8_t)bit;
        }
    CHECK(is(read_as(sheet, 8, 1, window), 0, 5));
}

/* ---- Key classes ---- */

/* What a key of that many bytes comes to in the calls on blocks: mCrypton takes
 * 8, 12 and 16, PRESENT 10 and 16. */
static void keys_of_blocks(size_t key_len)
{
    int mcrypton = key_len == 8 || key_len == 12 || key_len == 16 ? 0 : 1;
    int present = key_len == 10 || key_len == 16 ? 0 : 1;
    uint8_t out[CAPTIONS_BLOCK];
    memset(out, UNTOUCHED, sizeof out);
    CHECK(is(captions_encrypt_block(sealing, key_len, block, 8, 0, out, 8),
             mcrypton, 0));
    CHECK(is(captions_decrypt_block(sealing, key_len, block, 8, 0, out, 8),
             mcrypton, 0));
    CHECK(is(captions_bench_block(sealing, key_len, 5, block, 8, out, 8),
             mcrypton, 0));
    CHECK(is(captions_cmac(sealing, key_len, block, 8, out, 8), mcrypton, 0));
    CHECK(is(captions_panel(sealing, key_len, 1, block, 8, out, 8), mcrypton,
             0));
    CHECK(all(out, sizeof out, UNTOUCHED) == mcrypton);
    memset(out, UNTOUCHED, sizeof out);
    CHECK(is(captions_present_encrypt_block(sealing, key_len, block, 8, out,
                                            8),
             present, 0));
    CHECK(is(captions_present_decrypt_block(sealing, key_len, block, 8, out,
                                            8),
             present, 0));
    CHECK(all(out, sizeof out, UNTOUCHED) == present);
}

/* The same on a sheet of a class: 8, 10, 12 and 16 bytes pass the key test, and
 * those that aren't the class's are another class. */
static void keys_of_sheets(const struct edition *edition,
                           const struct class *class, size_t key_len)
{
    uint8_t sheet[SHEET], before[SHEET], terms[TERMS];
    int number = key_len == class->key_len ? CAPTIONS_ACCEPTED
                 : key_len == 8 || key_len == 10 || key_len == 12 ||
                         key_len == 16
                     ? CAPTIONS_OTHER_KEY_CLASS
                     : CAPTIONS_WRONG_KEY;
    make_terms(terms);
    make_blank(edition, sheet, class);
    CHECK(accepted(write_as(sheet, class->key_len, 1, "Clock", 5)));
    memcpy(before, sheet, edition->size);
    CHECK(is(write_as(sheet, key_len, 1, "Clock", 5), number, 0));
    CHECK(same(sheet, before, edition->size) == (number != 0));
    CHECK(is(blank_as(before, edition->size, SLOTS, class->number, key_len),
             edition->size == SHEET ? number
             : number == CAPTIONS_WRONG_KEY ? number
                                            : CAPTIONS_WRONG_SPAN,
             0));
    if (number == 0)
        return;
    CHECK(read_refused(number, sealing, key_len, checking, key_len, sheet,
                       edition->size, 1, 192));
    CHECK(dated_refused(number, key_len, checking, sheet, edition->size, terms,
                        TERMS, 1, OPENING, 192));
}

static void keys_of_every_length(void)
{
    size_t key_len, i, k;
    for (key_len = 7; key_len <= 17; key_len++) {
        keys_of_blocks(key_len);
        for (i = 0; i < EDITIONS; i++)
            for (k = 0; k < (i == 2 ? CLASSES : MCRYPTON_CLASSES); k++)
                keys_of_sheets(&editions[i], &classes[k], key_len);
    }
}

/* A sheet of each class by a day and by its listing; the pair of another cipher
 * with keys as long is other keys, and the pair itself under the other cipher's
 * class, since the mark has the class. */
static void sheets_of_classes(void)
{
    static const char lines[] = "0 blank\n1 written 1 5\n2 blank\n";
    uint8_t sheet[SHEET], terms[TERMS], window[CAPTIONS_FIELD];
    uint8_t out[CAPTIONS_LISTING];
    size_t k, i;
    make_terms(terms);
    for (k = 0; k < CLASSES; k++) {
        size_t key_len = classes[k].key_len, head = strlen(classes[k].listing);
        make_blank(&editions[2], sheet, &classes[k]);
        CHECK(accepted(write_as(sheet, key_len, 1, "Clock", 5)));
        CHECK(captions_list(sheet, SHEET, out, sizeof out) ==
              head + sizeof lines - 1);
        CHECK(memcmp(out, classes[k].listing, head) == 0);
        CHECK(memcmp(out + head, lines, sizeof lines - 1) == 0);
        CHECK(is(plain(captions_dated_read(sealing, key_len, checking, key_len,
                                           sheet, SHEET, terms, TERMS, 1,
                                           OPENING, window, sizeof window)),
                 0, 5));
        CHECK(memcmp(window, "Clock", 5) == 0);
        CHECK(dated_refused(CAPTIONS_NOT_ON_SHOW, key_len, checking, sheet,
                            SHEET, terms, TERMS, 1, CLOSING + 1, 192));
        CHECK(read_refused(CAPTIONS_OTHER_KEYS, checking, key_len, sealing,
                           key_len, sheet, SHEET, 1, 192));
        for (i = 0; i < CLASSES; i++) {
            sheet[2] = (uint8_t)classes[i].number;
            if (i != k)
                CHECK(read_refused(classes[i].key_len == key_len
                                       ? CAPTIONS_OTHER_KEYS
                                       : CAPTIONS_OTHER_KEY_CLASS,
                                   sealing, key_len, checking, key_len, sheet,
                                   SHEET, 1, 192));
        }
        sheet[2] = (uint8_t)classes[k].number;
        CHECK(accepted(captions_clear(sheet, SHEET, 1)));
        CHECK(read_refused(CAPTIONS_BLANK, sealing, key_len, checking, key_len,
                           sheet, SHEET, 1, 192));
    }
}

/* Byte 2 at every value, in every edition and in two that there aren't: 21 and 24
 * are fit in edition 3 alone. The rule comes before that of the edition. */
static void every_class_byte(void)
{
    unsigned value, edition;
    for (edition = 0; edition <= 4; edition++)
        for (value = 0; value < 256; value++) {
            uint8_t sheet[SHEET] = {0, SLOTS}, window[CAPTIONS_FIELD];
            size_t size = edition == 1 ? CAPTIONS_SHEET_1(SLOTS) : SHEET;
            int mcrypton = value == 4 || value == 6 || value == 8;
            int present = (value == 21 || value == 24) && edition == 3;
            captions_pointed answer;
            sheet[2] = (uint8_t)value;
            sheet[3] = (uint8_t)edition;
            answer = captions_read(sealing, 10, checking, 10, sheet, size, 0,
                                   window, sizeof window);
            CHECK(answer.number == (!mcrypton && !present ? CAPTIONS_UNFIT_SHEET
                                    : edition < 1 || edition > 3
                                        ? CAPTIONS_UNFIT_SHEET
                                    : value == CAPTIONS_PRESENT_80
                                        ? CAPTIONS_OTHER_KEYS
                                        : CAPTIONS_OTHER_KEY_CLASS));
            CHECK(answer.rule == (!mcrypton && !present
                                      ? CAPTIONS_RULE_KEY_WORDS
                                  : edition < 1 || edition > 3
                                      ? CAPTIONS_RULE_EDITION
                                      : CAPTIONS_RULE_NONE));
        }
}

/* ---- Listings and words ---- */

/* The listing, in an output of exactly its size, a larger one, one too small. */
static void listed(const uint8_t *sheet, size_t sheet_len, const char *text)
{
    uint8_t out[CAPTIONS_LISTING + 1];
    size_t length = strlen(text);
    memset(out, UNTOUCHED, sizeof out);
    CHECK(captions_list(sheet, sheet_len, out, length - 1) == 0);
    CHECK(captions_list(sheet, sheet_len, out, 0) == 0);
    CHECK(all(out, sizeof out, UNTOUCHED));
    CHECK(captions_list(sheet, sheet_len, out, length) == length);
    CHECK(memcmp(out, text, length) == 0);
    CHECK(all(out + length, sizeof out - length, UNTOUCHED));
    memset(out, UNTOUCHED, sizeof out);
    CHECK(captions_list(sheet, sheet_len, out, CAPTIONS_LISTING) == length);
    CHECK(memcmp(out, text, length) == 0);
    CHECK(all(out + length, sizeof out - length, UNTOUCHED));
}

static void listing(void)
{
    static uint8_t largest[CAPTIONS_SHEET(CAPTIONS_SLOTS) + 1];
    static uint8_t text[CAPTIONS_LISTING];
    uint8_t sheet[SHEET], two[CAPTIONS_SHEET_1(2)] = {0, 2, 4, 1};
    size_t i, slot;
    listed(two, sizeof two, "slots 2 key 64 last 0\n0 blank\n1 blank\n");
    for (i = 0; i < EDITIONS; i++) {
        make_sheet(&editions[i], sheet);
        listed(sheet, editions[i].size,
               "slots 3 key 64 last 1\n0 blank\n1 written 1 5\n2 blank\n");
        listed(sheet, editions[i].size - 1, "unfit\n");
        listed(sheet, 0, "unfit\n");
    }

    /* Every number of the longest listing has all its digits. */
    CHECK(accepted(blank_as(largest, CAPTIONS_SHEET(256), 256, 8, 16)));
    memset(largest + 4, 0xff, 4);
    for (slot = 0; slot < CAPTIONS_SLOTS; slot++) {
        uint8_t *mark = largest + CAPTIONS_HEADER + CAPTIONS_MARK * slot;
        memset(mark, 0xff, 4);
        mark[5] = CAPTIONS_FIELD;
    }
    CHECK(captions_list(largest, CAPTIONS_SHEET(256), text,
                        CAPTIONS_LISTING - 1) == 0);
    CHECK(captions_list(largest, CAPTIONS_SHEET(256), text,
                        CAPTIONS_LISTING) == CAPTIONS_LISTING);
    CHECK(memcmp(text, "slots 256 key 128 last 4294967295\n", 34) == 0);
    CHECK(memcmp(text + CAPTIONS_LISTING - 27, "255 written 4294967295 192\n",
                 27) == 0);
    CHECK(captions_list(largest, sizeof largest, text, CAPTIONS_LISTING) == 6);
    CHECK(memcmp(text, "unfit\n", 6) == 0);
}

/* ---- The running order of a day ---- */

static captions_answer order_as(const uint8_t *sheet, size_t sheet_len,
                                const uint8_t *terms, size_t terms_len,
                                const char *date, uint8_t *out, size_t out_len)
{
    return captions_running_order(sheet, sheet_len, terms, terms_len,
                                  (const uint8_t *)date, strlen(date), out,
                                  out_len);
}

/* The running order, in an output of exactly its size, the largest one, and every
 * one that is too small, which stays as it was. */
static void ordered(const uint8_t *sheet, size_t sheet_len,
                    const uint8_t *terms, size_t terms_len, const char *date,
                    const char *text)
{
    uint8_t out[CAPTIONS_RUNNING_ORDER + 1];
    size_t length = strlen(text), i;
    memset(out, UNTOUCHED, sizeof out);
    for (i = 0; i < length; i++)
        CHECK(refused(order_as(sheet, sheet_len, terms, terms_len, date, out,
                               i),
                      CAPTIONS_WRONG_SPAN));
    CHECK(all(out, sizeof out, UNTOUCHED));
    for (i = 0; i < 2; i++) {
        memset(out, UNTOUCHED, sizeof out);
        CHECK(is(order_as(sheet, sheet_len, terms, terms_len, date, out,
                          i == 0 ? length : CAPTIONS_RUNNING_ORDER),
                 CAPTIONS_ACCEPTED, (int)length));
        CHECK(memcmp(out, text, length) == 0);
        CHECK(all(out + length, sizeof out - length, UNTOUCHED));
    }
}

/* Slot 0 is always on show, slot 1 from OPENING, 2026-05-01, to CLOSING,
 * 2026-10-31, and slot 2 never. */
static void orders_of(const struct edition *edition)
{
    static const char *const no_dates[] = {
        "",           "2026",       "2026-05-1",  "2026-05-011", "2026/05/01",
        "2026-02-29", "2026-04-31", "1999-12-31", "2100-01-01",  "01.05.2026"};
    uint8_t sheet[SHEET], terms[TERMS + 1] = {0};
    size_t size = edition->size, i;
    make_sheet(edition, sheet);
    make_terms(terms);
    ordered(sheet, size, terms, TERMS, "2026-04-30", "");
    ordered(sheet, size, terms, TERMS, "2026-05-01",
            "1 2026-05-01 2026-10-31 5\n");
    for (i = 0; i < SLOTS; i += 2)
        CHECK(accepted(write_as(sheet, 8, i, "Vase", 4)));
    ordered(sheet, size, terms, TERMS, "2026-10-31",
            "0 2000-01-01 2099-12-31 4\n1 2026-05-01 2026-10-31 5\n");
    ordered(sheet, size, terms, TERMS, "2026-11-01",
            "0 2000-01-01 2099-12-31 4\n");
    /* The earliest opening first, and among equals the lower slot. */
    put_number(terms, 1, OPENING);
    put_number(terms, 3, OPENING - 1);
    put_number(terms, 6, CLOSING);
    ordered(sheet, size, terms, TERMS, "2026-05-01",
            "2 2026-04-30 2026-10-31 4\n0 2026-05-01 2099-12-31 4\n"
            "1 2026-05-01 2026-10-31 5\n");
    /* No keys are asked, so that an altered caption has its line. */
    sheet[field_place(edition)] ^= 1;
    ordered(sheet, size, terms, TERMS, "2026-04-30",
            "2 2026-04-30 2026-10-31 4\n");
    for (i = 0; i < sizeof no_dates / sizeof no_dates[0]; i++) {
        ordered(sheet, size, terms, TERMS, no_dates[i], "no such date\n");
        ordered(sheet, size - 1, terms, TERMS, no_dates[i], "unfit\n");
        ordered(sheet, size, terms, TERMS - 1, no_dates[i], "unfit\n");
    }
    ordered(sheet, 0, terms, 0, "2026-05-01", "unfit\n");
    ordered(sheet, size, terms, TERMS + 1, "2026-05-01", "unfit\n");
    put_number(terms, 0, SLOTS + 1);
    ordered(sheet, size, terms, TERMS, "2026-05-01", "unfit\n");
    put_number(terms, 0, SLOTS);
    put_number(terms, 6, CAPTIONS_LAST_DAY + 1);
    ordered(sheet, size, terms, TERMS, "2026-05-01", "unfit\n");
}

static void running_orders(void)
{
    static uint8_t largest[CAPTIONS_SHEET(CAPTIONS_SLOTS)];
    static uint8_t terms[CAPTIONS_TERMS(CAPTIONS_SLOTS)];
    static uint8_t text[CAPTIONS_RUNNING_ORDER];
    char caption[CAPTIONS_FIELD];
    size_t i, slot;
    for (i = 0; i < EDITIONS; i++)
        orders_of(&editions[i]);

    /* Every number of the longest running order has all its digits. */
    memset(caption, 'x', sizeof caption);
    CHECK(accepted(blank_as(largest, sizeof largest, 256, 4, 8)));
    CHECK(accepted(captions_terms_blank(terms, sizeof terms, 256)));
    for (slot = 0; slot < CAPTIONS_SLOTS; slot++) {
        CHECK(accepted(plain(captions_write(
            sealing, 8, checking, 8, largest, sizeof largest, slot,
            (const uint8_t *)caption, sizeof caption))));
        CHECK(accepted(captions_terms_set(terms, sizeof terms, slot, 0,
                                          CAPTIONS_LAST_DAY)));
    }
    memset(text, UNTOUCHED, sizeof text);
    CHECK(refused(order_as(largest, sizeof largest, terms, sizeof terms,
                           "2026-05-01", text, CAPTIONS_RUNNING_ORDER - 1),
                  CAPTIONS_WRONG_SPAN));
    CHECK(all(text, sizeof text, UNTOUCHED));
    CHECK(is(order_as(largest, sizeof largest, terms, sizeof terms,
                      "2026-05-01", text, CAPTIONS_RUNNING_ORDER),
             CAPTIONS_ACCEPTED, CAPTIONS_RUNNING_ORDER));
    CHECK(memcmp(text, "0 2000-01-01 2099-12-31 192\n", 28) == 0);
    CHECK(memcmp(text + CAPTIONS_RUNNING_ORDER - 30,
                 "255 2000-01-01 2099-12-31 192\n", 30) == 0);
}

/* The last slot opens first, each on a day of its own: the longest text again, and
 * no byte of a sheet is changed. Exchanged or longer, the sheets are unfit. */
static void falling_openings(void)
{
    static uint8_t sheet[CAPTIONS_SHEET(CAPTIONS_SLOTS) + 1];
    static uint8_t sheet_before[CAPTIONS_SHEET(CAPTIONS_SLOTS) + 1];
    static char text[CAPTIONS_RUNNING_ORDER + 1];
    uint8_t terms[CAPTIONS_TERMS(CAPTIONS_SLOTS)], terms_before[sizeof terms];
    size_t size = CAPTIONS_SHEET(CAPTIONS_SLOTS), slot, length = 0;
    CHECK(accepted(blank_as(sheet, size, CAPTIONS_SLOTS, 8, 16)));
    sheet[7] = 1;
    put_number(terms, 0, CAPTIONS_SLOTS);
    for (slot = 0; slot < CAPTIONS_SLOTS; slot++) {
        uint8_t *mark = sheet + CAPTIONS_HEADER + CAPTIONS_MARK * slot;
        mark[3] = 1;
        mark[5] = CAPTIONS_FIELD;
        put_number(terms, 1 + slot, (unsigned)(256 - slot));
        put_number(terms, 1 + CAPTIONS_SLOTS + slot, CAPTIONS_LAST_DAY);
    }
    for (slot = CAPTIONS_SLOTS; slot-- > 0;) {
        captions_date opens = captions_date_of_day(256 - slot);
        length += (size_t)sprintf(text + length,
                                  "%d %04d-%02d-%02d 2099-12-31 192\n",
                                  (int)slot, opens.year, opens.month,
                                  opens.day);
    }
    CHECK(length == CAPTIONS_RUNNING_ORDER && length == 7570);
    memcpy(sheet_before, sheet, sizeof sheet);
    memcpy(terms_before, terms, sizeof terms);
    ordered(sheet, size, terms, sizeof terms, "2000-09-13", text);
    ordered(sheet, size, terms, sizeof terms, "2099-12-31", text);
    ordered(sheet, size + 1, terms, sizeof terms, "2099-12-31", "unfit\n");
    ordered(terms, sizeof terms, sheet, size, "2099-12-31", "unfit\n");
    CHECK(same(sheet, sheet_before, sizeof sheet));
    CHECK(same(terms, terms_before, sizeof terms));
}

/* ---- What a refusal points at ---- */

static int points(captions_pointed answer, int rule, int slot, int place)
{
    int number = rule < CAPTIONS_RULE_CHECK || rule == CAPTIONS_RULE_TERMS
                     ? CAPTIONS_UNFIT_SHEET
                     : CAPTIONS_ALTERED;
    return answer.number == number && answer.length == 0 &&
           answer.rule == rule && answer.slot == slot &&
           answer.place == place;
}

static captions_pointed read_of(const uint8_t *sheet, size_t size)
{
    uint8_t window[CAPTIONS_FIELD];
    return captions_read(sealing, 8, checking, 8, sheet, size, 1, window,
                         sizeof window);
}

/* Whether a read and a write of these bytes point there. */
static int broken(uint8_t *sheet, size_t size, int rule, int slot, int place)
{
    return points(read_of(sheet, size), rule, slot, place) &&
           points(captions_write(sealing, 8, checking, 8, sheet, size, 1,
                                 sealing, 1),
                  rule, slot, place);
}

/* One byte changed, and put back. */
static int broken_at(uint8_t *sheet, size_t size, size_t byte, int value,
                     int rule, int slot, int place)
{
    uint8_t old = sheet[byte];
    int so;
    sheet[byte] = (uint8_t)value;
    so = broken(sheet, size, rule, slot, place);
    sheet[byte] = old;
    return so;
}

static void pointing(const struct edition *edition)
{
    uint8_t sheet[SHEET], terms[TERMS], window[CAPTIONS_FIELD];
    size_t size = edition->size, mark = edition->header + CAPTIONS_MARK, i;
    make_sheet(edition, sheet);
    make_terms(terms);
    CHECK(broken(sheet, 7, CAPTIONS_RULE_SHORT, 0, 0));
    CHECK(broken(sheet, 0, CAPTIONS_RULE_SHORT, 0, 0));
    CHECK(broken(sheet, 8, CAPTIONS_RULE_LENGTH, 0, 0));
    CHECK(broken(sheet, size - 1, CAPTIONS_RULE_LENGTH, 0, 0));
    CHECK(broken_at(sheet, size, 1, 0, CAPTIONS_RULE_SLOTS, 0, 0));
    CHECK(broken_at(sheet, size, 2, 5, CAPTIONS_RULE_KEY_WORDS, 0, 0));
    CHECK(broken_at(sheet, size, 3, 9, CAPTIONS_RULE_EDITION, 0, 0));
    for (i = CAPTIONS_HEADER - 6; i < edition->header; i++) {
        if (edition->number == 2) {
            CHECK(broken_at(sheet, size, i, 1, CAPTIONS_RULE_HEADER_BYTE, 0,
                            (int)i));
            CHECK(broken_at(sheet, i + 1, i, 1, CAPTIONS_RULE_HEADER_BYTE, 0,
                            (int)i));
        } else {
            CHECK(broken_at(sheet, i + 1, i, 1, CAPTIONS_RULE_LENGTH, 0, 0));
        }
        CHECK(broken_at(sheet, i, i, 1, CAPTIONS_RULE_LENGTH, 0, 0));
    }
    CHECK(broken_at(sheet, size, mark, 1, CAPTIONS_RULE_NUMBER, 1, 0));
    CHECK(broken_at(sheet, size, mark + 4, 1, CAPTIONS_RULE_CAPTION, 1, 0));
    CHECK(broken_at(sheet, size, mark + 6, 1, CAPTIONS_RULE_MARK_BYTE, 1, 6));
    CHECK(broken_at(sheet, size, mark + 7, 1, CAPTIONS_RULE_MARK_BYTE, 1, 7));
    CHECK(points(captions_dated_read(sealing, 8, checking, 8, sheet, size,
                                     terms, TERMS - 1, 1, OPENING, window,
                                     sizeof window),
                 CAPTIONS_RULE_TERMS, 0, 0));
    sheet[mark + 8] ^= 1;
    CHECK(points(read_of(sheet, size), CAPTIONS_RULE_CHECK, 1, 0));
}

/* What captions_dated_read says of a slot, on a sheet whose slots are all
 * written, beside what the header's own code says. */
static void judged(const uint8_t *sheet, const uint8_t *terms,
                   size_t terms_len)
{
    static const size_t days[] = {0,           OPENING - 1,
                                  OPENING,     OPENING + 1,
                                  CLOSING - 1, CLOSING,
                                  CLOSING + 1, CAPTIONS_LAST_DAY,
                                  CAPTIONS_LAST_DAY + 1, SIZE_MAX};
    uint8_t window[CAPTIONS_FIELD];
    captions_answer dated;
    size_t slot, i;

    for (slot = 0; slot <= SLOTS; slot++)
        for (i = 0; i < sizeof days / sizeof days[0]; i++) {
            dated = plain(captions_dated_read(
                sealing, 8, checking, 8, sheet, SHEET, terms, terms_len, slot,
                days[i], window, sizeof window));
            dated.length = 0;
            CHECK(is(captions_terms_on_show(terms, terms_len, slot, days[i]),
                     dated.number, 0));
        }
}

/* Term sheets by the header's code: made, set, asked, and each refusal. */
static void term_sheets(void)
{
    static const unsigned edges[] = {0, OPENING, CLOSING, CAPTIONS_LAST_DAY,
                                     CAPTIONS_LAST_DAY + 1};
    uint8_t sheet[SHEET], terms[TERMS + 1], before[TERMS + 1];
    size_t slot, i, k, place;

    CHECK(accepted(blank_as(sheet, SHEET, SLOTS, 4, 8)));
    for (slot = 0; slot < SLOTS; slot++)
        CHECK(accepted(write_as(sheet, 8, slot, "Clock", 5)));
    memset(terms, UNTOUCHED, sizeof terms);
    CHECK(accepted(captions_terms_blank(terms, TERMS, SLOTS)));
    CHECK(terms[TERMS] == UNTOUCHED);
    judged(sheet, terms, TERMS);
    for (i = 0; i < 4; i++)
        for (k = 0; k < 4; k++) {
            CHECK(accepted(
                captions_terms_set(terms, TERMS, 1, edges[i], edges[k])));
            judged(sheet, terms, TERMS);
        }
    /* As bytes put by hand. */
    CHECK(accepted(captions_terms_set(terms, TERMS, 0, 0, CAPTIONS_LAST_DAY)));
    CHECK(accepted(captions_terms_set(terms, TERMS, 1, OPENING, CLOSING)));
    CHECK(accepted(captions_terms_set(terms, TERMS, 2, CAPTIONS_LAST_DAY, 0)));
    make_terms(before);
    CHECK(same(terms, before, TERMS));
    /* Refusals change nothing. */
    CHECK(refused(captions_terms_set(terms, TERMS, SLOTS, 0, 0),
                  CAPTIONS_NO_SUCH_SLOT));
    CHECK(refused(captions_terms_set(terms, TERMS, SLOTS,
                                     CAPTIONS_LAST_DAY + 1, 0),
                  CAPTIONS_NO_SUCH_DATE));
    CHECK(refused(captions_terms_set(terms, TERMS, 0, 0, SIZE_MAX),
                  CAPTIONS_NO_SUCH_DATE));
    CHECK(refused(captions_terms_set(terms, TERMS - 1, SLOTS, SIZE_MAX, 0),
                  CAPTIONS_UNFIT_SHEET));
    CHECK(refused(captions_terms_blank(terms, TERMS, SLOTS + 1),
                  CAPTIONS_WRONG_SPAN));
    CHECK(refused(captions_terms_blank(terms, 2, 0), CAPTIONS_WRONG_SPAN));
    CHECK(refused(captions_terms_blank(terms, TERMS, SIZE_MAX),
                  CAPTIONS_WRONG_SPAN));
    CHECK(same(terms, before, TERMS) && terms[TERMS] == UNTOUCHED);
    /* Every length, another count, and a day past the last in every place. */
    for (i = 0; i <= TERMS + 1; i++)
        judged(sheet, terms, i);
    for (place = 0; place <= 2 * SLOTS; place++)
        for (i = 0; i < sizeof edges / sizeof edges[0]; i++) {
            memcpy(before, terms, sizeof before);
            put_number(before, place, edges[i]);
            judged(sheet, before, TERMS);
        }
}

/* Each rule has words of its own. */
static void rule_words(void)
{
    static const char *const rule[] = CAPTIONS_RULE_WORDS;
    size_t i, k;

    CHECK(sizeof rule / sizeof rule[0] == CAPTIONS_RULE_TERMS + 1);
    for (i = 0; i <= CAPTIONS_RULE_TERMS; i++)
        for (k = 0; k < i; k++)
            CHECK(rule[i][0] != 0 && strcmp(rule[i], rule[k]) != 0);
    CHECK(strcmp(rule[CAPTIONS_RULE_CHECK], "the check differs") == 0);
    CHECK(strcmp(rule[CAPTIONS_RULE_TERMS], "the term sheet does not fit") ==
          0);
    CHECK(strcmp(captions_version(), CAPTIONS_VERSION) == 0);
}

static void words(void)
{
    static const char *const word[] = CAPTIONS_WORDS;
    CHECK(sizeof word / sizeof word[0] == CAPTIONS_BROKEN_TEXT + 1);
    CHECK(strcmp(word[CAPTIONS_WRONG_KEY], "wrong key") == 0);
    CHECK(strcmp(word[CAPTIONS_UNFIT_SHEET], "unfit sheet") == 0);
    CHECK(strcmp(word[CAPTIONS_WORN], "worn") == 0);
    CHECK(strcmp(word[CAPTIONS_ALTERED], "altered") == 0);
    CHECK(strcmp(word[CAPTIONS_NO_SUCH_DATE], "no such date") == 0);
    CHECK(strcmp(word[CAPTIONS_NOT_ON_SHOW], "not on show") == 0);
    CHECK(strcmp(word[CAPTIONS_NO_SUCH_ROUND], "no such round") == 0);
    CHECK(strcmp(word[CAPTIONS_OTHER_KEYS], "other keys") == 0);
    CHECK(CAPTIONS_BROKEN_TEXT == 15);
    CHECK(strcmp(word[CAPTIONS_BROKEN_TEXT], "broken text") == 0);
    CHECK(sizeof(captions_answer) == 4);
    CHECK(offsetof(captions_answer, length) == 2);
    CHECK(sizeof(captions_pointed) == 8);
    CHECK(offsetof(captions_pointed, rule) == 1);
    CHECK(offsetof(captions_pointed, length) == 2);
    CHECK(offsetof(captions_pointed, slot) == 4);
    CHECK(offsetof(captions_pointed, place) == 6);
    CHECK(sizeof(captions_day) == 4 && offsetof(captions_day, day) == 2);
    CHECK(sizeof(captions_date) == 6 && offsetof(captions_date, year) == 2);
    CHECK(offsetof(captions_date, month) == 4);
    CHECK(offsetof(captions_date, day) == 5);
    CHECK(CAPTIONS_SHEET(1) == 224 && CAPTIONS_SHEET(256) == 53264);
    CHECK(CAPTIONS_SHEET_1(1) == 216 && CAPTIONS_SHEET_1(256) == 53256);
}

static void sheets_of(const struct edition *edition)
{
    size_t i;
    for (i = 0; i < (edition->number == 3 ? CLASSES : MCRYPTON_CLASSES); i++)
        writing_and_reading(edition, &classes[i]);
    start_block(edition);
    write_refusals(edition);
    clear_refusals(edition);
    read_refusals(edition);
    other_keys(edition);
    text_refusals(edition);
    old_texts(edition);
    dated_reads(edition);
    dated_read_refusals(edition);
    edition_rules(edition);
    pointing(edition);
}

int main(void)
{
    size_t i;
    blocks_by_every_path();
    block_refusals(captions_encrypt_block);
    block_refusals(captions_decrypt_block);
    present_vectors();
    present_refusals(captions_present_encrypt_block);
    present_refusals(captions_present_decrypt_block);
    bench();
    panel();
    checks_by_cmac();
    days_and_dates();
    no_such_dates();
    blanking();
    blanking_refusals();
    for (i = 0; i < EDITIONS; i++)
        sheets_of(&editions[i]);
    keys_of_every_length();
    sheets_of_classes();
    every_class_byte();
    listing();
    running_orders();
    falling_openings();
    term_sheets();
    rule_words();
    words();
    if (failures != 0) {
        printf("%lu of %lu checks don't hold\n", failures, checks);
        return 1;
    }
    printf("%lu checks\n", checks);
    return 0;
}
