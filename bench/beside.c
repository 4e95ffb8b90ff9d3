/* Two calls by turns, and what the second takes of the first's time. bench/beside
 * builds it in two ways. With BEFORE: block, CMAC, read, dated read and write by the
 * library before and after a change; the functions before_... are the earlier
 * library's, and BEFORE is the answer that its reads and write give; with PRESENT, which
 * is for an earlier library that has it, block, read and write by that too. Without: read,
 * dated read and write by one library on sheets of editions 2 and 3, which differ in
 * byte 3 and the key mark alone, so that the ratio is what the test of the mark
 * costs. */
#define _POSIX_C_SOURCE 199309L
#include "captions.h"
#include <stdio.h>
#include <stdlib.h>
#include <string.h>
#include <time.h>

enum { ROUNDS = 301, FULL = CAPTIONS_SHEET(256), DAY = 9000 };

static uint8_t sealing[16], checking[16], text[65536], terms[CAPTIONS_TERMS(256)], out[192];
static size_t slots, bytes;
static size_t pair = 16; /* the bytes of each key of a sheet's pair */

/* Captions of 192 bytes, well formed: ASCII, and 64 letters of three bytes. */
static uint8_t ascii[192], letters[192];
static const uint8_t *caption = ascii;

typedef captions_answer call(void);

static captions_answer plain(int number, int value)
{
    captions_answer answer = {(uint8_t)number, (uint16_t)value};
    return answer;
}

static captions_answer read_of(const uint8_t *sheet)
{
    captions_pointed answer = captions_read(sealing, pair, checking, pair, sheet, bytes, slots - 1, out, 192);
    return plain(answer.number, answer.length);
}
static captions_answer dated_read_of(const uint8_t *sheet)
{
    captions_pointed answer = captions_dated_read(sealing, pair, checking, pair, sheet, bytes, terms, CAPTIONS_TERMS(slots),
                                                  slots - 1, DAY, out, 192);
    return plain(answer.number, answer.length);
}
static captions_answer write_of(uint8_t *sheet)
{
    captions_pointed answer = captions_write(sealing, pair, checking, pair, sheet, bytes, slots - 1, caption, 192);
    return plain(answer.number, answer.length);
}

#ifdef BEFORE

static uint8_t sheet[FULL];
static size_t key, length;
static uint16_t path;

captions_answer before_captions_encrypt_block(const uint8_t *, size_t, const uint8_t *, size_t, uint16_t, uint8_t *,
                                              size_t);
captions_answer before_captions_decrypt_block(const uint8_t *, size_t, const uint8_t *, size_t, uint16_t, uint8_t *,
                                              size_t);
captions_answer before_captions_cmac(const uint8_t *, size_t, const uint8_t *, size_t, uint8_t *, size_t);
BEFORE before_captions_read(const uint8_t *, size_t, const uint8_t *, size_t, const uint8_t *, size_t,
                            size_t, uint8_t *, size_t);
BEFORE before_captions_dated_read(const uint8_t *, size_t, const uint8_t *, size_t, const uint8_t *, size_t,
                                  const uint8_t *, size_t, size_t, size_t, uint8_t *, size_t);
BEFORE before_captions_write(const uint8_t *, size_t, const uint8_t *, size_t, uint8_t *, size_t, size_t,
                             const uint8_t *, size_t);

static captions_answer encrypt_before(void)
{
    return before_captions_encrypt_block(sealing, key, text, 8, path, out, 8);
}
static captions_answer encrypt_after(void) { return captions_encrypt_block(sealing, key, text, 8, path, out, 8); }
static captions_answer decrypt_before(void)
{
    return before_captions_decrypt_block(sealing, key, text, 8, path, out, 8);
}
static captions_answer decrypt_after(void) { return captions_decrypt_block(sealing, key, text, 8, path, out, 8); }
static captions_answer cmac_before(void) { return before_captions_cmac(sealing, key, text, length, out, 8); }
static captions_answer cmac_after(void) { return captions_cmac(sealing, key, text, length, out, 8); }
static captions_answer read_before(void)
{
    BEFORE answer = before_captions_read(sealing, pair, checking, pair, sheet, bytes, slots - 1, out, 192);
    return plain(answer.number, answer.length);
}
static captions_answer read_after(void) { return read_of(sheet); }
static captions_answer dated_before(void)
{
    BEFORE answer = before_captions_dated_read(sealing, pair, checking, pair, sheet, bytes, terms, CAPTIONS_TERMS(slots),
                                               slots - 1, DAY, out, 192);
    return plain(answer.number, answer.length);
}
static captions_answer dated_after(void) { return dated_read_of(sheet); }
static captions_answer write_before(void)
{
    BEFORE answer = before_captions_write(sealing, pair, checking, pair, sheet, bytes, slots - 1, caption, 192);
    return plain(answer.number, answer.length);
}
static captions_answer write_after(void) { return write_of(sheet); }

#ifdef PRESENT

captions_answer before_captions_present_encrypt_block(const uint8_t *, size_t, const uint8_t *, size_t, uint8_t *,
                                                      size_t);
captions_answer before_captions_present_decrypt_block(const uint8_t *, size_t, const uint8_t *, size_t, uint8_t *,
                                                      size_t);

static captions_answer present_encrypt_before(void)
{
    return before_captions_present_encrypt_block(sealing, key, text, 8, out, 8);
}
static captions_answer present_encrypt_after(void)
{
    return captions_present_encrypt_block(sealing, key, text, 8, out, 8);
}
static captions_answer present_decrypt_before(void)
{
    return before_captions_present_decrypt_block(sealing, key, text, 8, out, 8);
}
static captions_answer present_decrypt_after(void)
{
    return captions_present_decrypt_block(sealing, key, text, 8, out, 8);
}

#endif

#else

static uint8_t second[FULL], third[FULL];

static captions_answer read_second(void) { return read_of(second); }
static captions_answer read_third(void) { return read_of(third); }
static captions_answer dated_second(void) { return dated_read_of(second); }
static captions_answer dated_third(void) { return dated_read_of(third); }
static captions_answer write_second(void) { return write_of(second); }
static captions_answer write_third(void) { return write_of(third); }

#endif

/* Both are accepted, with the same length and the same bytes in out. */
static void agree(const char *name, call *before, call *after)
{
    uint8_t first[sizeof out];
    memset(out, 0, sizeof out);
    captions_answer b = before();
    memcpy(first, out, sizeof out);
    memset(out, 0, sizeof out);
    captions_answer a = after();
    if (b.number != 0 || a.number != 0 || b.length != a.length || memcmp(first, out, sizeof out) != 0) {
        fprintf(stderr, "%s: refused, or the two differ\n", name);
        exit(1);
    }
}

static double nanoseconds(call *made, long times)
{
    struct timespec a, b;
    clock_gettime(CLOCK_MONOTONIC, &a);
    for (long i = 0; i < times; i++)
        made();
    clock_gettime(CLOCK_MONOTONIC, &b);
    return ((b.tv_sec - a.tv_sec) * 1e9 + (b.tv_nsec - a.tv_nsec)) / times;
}

static int order(const void *x, const void *y)
{
    double a = *(const double *)x, b = *(const double *)y;
    return (a > b) - (a < b);
}

static double median(double *values)
{
    qsort(values, ROUNDS, sizeof *values, order);
    return values[ROUNDS / 2];
}

/* Samples of about half a millisecond; which of the two goes first alternates. */
static void row(const char *name, call *before, call *after)
{
    agree(name, before, after);
    static double b[ROUNDS], a[ROUNDS], ratio[ROUNDS];
    long times = 1 + (long)(5e5 / nanoseconds(before, 20));
    for (int i = 0; i < ROUNDS; i++) {
        if (i % 2 == 0)
            b[i] = nanoseconds(before, times);
        a[i] = nanoseconds(after, times);
        if (i % 2 != 0)
            b[i] = nanoseconds(before, times);
        ratio[i] = a[i] / b[i];
    }
    double middle = median(ratio);
    printf("| %s | %.3f | %.3f | %.3f |\n", name, median(b) / 1000, median(a) / 1000, middle);
}

/* A blank sheet, laid out here with serial 0, and a term sheet for as many slots. */
static void lay_out(uint8_t *sheet, size_t n, uint8_t edition)
{
    slots = n;
    memset(sheet, 0, FULL);
    sheet[0] = (uint8_t)(n / 256);
    sheet[1] = (uint8_t)(n % 256);
    sheet[2] = 8;
    sheet[3] = edition;
    memcpy(terms, sheet, 2);
    for (size_t i = 0; i < n; i++) {
        static const uint8_t term[4] = {DAY / 256, DAY % 256, DAY / 256, DAY % 256};
        memcpy(terms + CAPTIONS_TERMS(i), term, sizeof term);
    }
}

static void fill(uint8_t *sheet)
{
    for (size_t i = 0; i < slots; i++)
        captions_write(sealing, pair, checking, pair, sheet, bytes, i, ascii, 192);
}

#ifdef BEFORE

/* Of edition 1: every library takes one, whatever its blanking makes. */
static void full_sheet(size_t n)
{
    bytes = 8 + 208 * n;
    lay_out(sheet, n, 1);
    fill(sheet);
}

/* PRESENT with keys of 80 and 128 bits: blocks, and full sheets of 16 slots. */
static void present_rows(void)
{
#ifdef PRESENT
    static const size_t classes[][2] = {{21, 10}, {24, 16}};
    char name[64];
    for (size_t i = 0; i < 2; i++) {
        key = pair = classes[i][1];
        snprintf(name, sizeof name, "PRESENT block encrypted, %zu-bit key", 8 * key);
        row(name, present_encrypt_before, present_encrypt_after);
        snprintf(name, sizeof name, "PRESENT block decrypted, %zu-bit key", 8 * key);
        row(name, present_decrypt_before, present_decrypt_after);
        slots = 16;
        bytes = CAPTIONS_SHEET(slots);
        captions_blank(sheet, bytes, slots, classes[i][0], 0, sealing, pair, checking, pair);
        fill(sheet);
        caption = ascii;
        snprintf(name, sizeof name, "read, PRESENT, %zu-bit keys, full sheet, 16", 8 * pair);
        row(name, read_before, read_after);
        snprintf(name, sizeof name, "write of ASCII, PRESENT, %zu-bit keys, full sheet, 16", 8 * pair);
        row(name, write_before, write_after);
    }
#endif
}

static void rows(void)
{
    char name[64];
    printf("| Call; slots of a sheet | Before, µs | After, µs | After / before |\n|---|---|---|---|\n");
    static const uint16_t paths[] = {0xffff, 0x0555};
    for (size_t p = 0; p < 2; p++)
        for (key = 8; key <= 16; key += 4) {
            path = paths[p];
            snprintf(name, sizeof name, "block encrypted by path 0x%04x, %zu-bit key", path, 8 * key);
            row(name, encrypt_before, encrypt_after);
            snprintf(name, sizeof name, "block decrypted by path 0x%04x, %zu-bit key", path, 8 * key);
            row(name, decrypt_before, decrypt_after);
        }
    static const size_t lengths[] = {0, 192, 65536};
    for (size_t l = 0; l < 3; l++)
        for (key = 8; key <= 16; key += 4) {
            length = lengths[l];
            snprintf(name, sizeof name, "CMAC of %zu bytes, %zu-bit key", length, 8 * key);
            row(name, cmac_before, cmac_after);
        }
    for (size_t n = 1; n <= 256; n *= 16) {
        full_sheet(n);
        snprintf(name, sizeof name, "read, full sheet, %zu", n);
        row(name, read_before, read_after);
        snprintf(name, sizeof name, "dated read, full sheet, %zu", n);
        row(name, dated_before, dated_after);
        caption = ascii;
        snprintf(name, sizeof name, "write of ASCII, full sheet, %zu", n);
        row(name, write_before, write_after);
        caption = letters;
        snprintf(name, sizeof name, "write of 3-byte letters, full sheet, %zu", n);
        row(name, write_before, write_after);
    }
    present_rows();
}

#else

/* Of editions 2 and 3, with the same serial, so that the captions are sealed alike. */
static void full_sheets(size_t n)
{
    bytes = CAPTIONS_SHEET(n);
    lay_out(second, n, 2);
    captions_blank(third, bytes, n, 8, 0, sealing, 16, checking, 16);
    fill(second);
    fill(third);
    if (memcmp(second + 16, third + 16, bytes - 16) != 0) {
        fprintf(stderr, "the sheets differ in more than their headers\n");
        exit(1);
    }
}

static void rows(void)
{
    char name[64];
    printf("| Call; slots of a sheet | Edition 2, µs | Edition 3, µs | 3 / 2 |\n|---|---|---|---|\n");
    for (size_t n = 1; n <= 256; n *= 16) {
        full_sheets(n);
        snprintf(name, sizeof name, "read, full sheet, %zu", n);
        row(name, read_second, read_third);
        snprintf(name, sizeof name, "dated read, full sheet, %zu", n);
        row(name, dated_second, dated_third);
        snprintf(name, sizeof name, "write, full sheet, %zu", n);
        row(name, write_second, write_third);
    }
}

#endif

int main(void)
{
    for (size_t i = 0; i < sizeof text; i++)
        text[i] = (uint8_t)(53 * i + 7);
    for (size_t i = 0; i < sizeof letters; i++) {
        ascii[i] = (uint8_t)(32 + (53 * i + 7) % 95);
        letters[i] = (uint8_t)"\xe2\x82\xac"[i % 3];
    }
    for (size_t i = 0; i < 16; i++) {
        sealing[i] = (uint8_t)(29 * i + 13);
        checking[i] = (uint8_t)(31 * i + 5);
    }
    rows();
    return 0;
}
