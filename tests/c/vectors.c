/* Prints what `reference vectors blocks`, `present`, `cmac`, `bench`, `panel`,
 * `marks`, `sheet`, `faults`, `dated`, `classes` or `texts` prints, each line made
 * by the library's own calls, so that the two can be compared. The texts
 * themselves it takes from standard input, the lines of `texts`. */
#include "captions.h"

#include <stdio.h>
#include <string.h>

/* The bytes of a sheet of three slots, by the edition in its byte 3. */
static size_t size_of(const uint8_t *sheet)
{
    return sheet[3] == 1 ? CAPTIONS_SHEET_1(3) : CAPTIONS_SHEET(3);
}

/* Byte i is (step * i + start) modulo 256. */
static void ramp(uint8_t *bytes, size_t length, size_t step, size_t start)
{
    size_t i;
    for (i = 0; i < length; i++)
        bytes[i] = (uint8_t)((step * i + start) % 256);
}

/* The key of a length with a number. */
static void make_key_of(uint8_t *key, size_t length, size_t number)
{
    ramp(key, length, 29, 71 * number + 13);
}

/* The same of an mCrypton key, by its 16-bit words. */
static void make_key(uint8_t *key, size_t words, size_t number)
{
    make_key_of(key, 2 * words, number);
}

static void make_text(uint8_t *text, size_t length, size_t number)
{
    ramp(text, length, 53, 31 * number + 7);
}

/* A caption of characters from space to tilde. */
static void make_caption(uint8_t *caption, size_t length, size_t number)
{
    size_t i;
    for (i = 0; i < length; i++)
        caption[i] = (uint8_t)(32 + (53 * i + 31 * number + 7) % 95);
}

static void print_hex(const uint8_t *bytes, size_t length, const char *after)
{
    size_t i;
    for (i = 0; i < length; i++)
        printf("%02x", bytes[i]);
    fputs(after, stdout);
}

static void blocks(void)
{
    size_t words, number;
    for (words = 4; words <= 8; words += 2)
        for (number = 0; number < 16; number++) {
            uint8_t key[16], block[8], encrypted[8], decrypted[8];
            /* The path is another in each line: it makes no difference. */
            uint16_t path = (uint16_t)(number * 0x1111);
            make_key(key, words, number);
            make_text(block, 8, number);
            captions_encrypt_block(key, 2 * words, block, 8, path, encrypted,
                                   8);
            captions_decrypt_block(key, 2 * words, block, 8, path, decrypted,
                                   8);
            print_hex(key, 2 * words, " ");
            print_hex(block, 8, " ");
            print_hex(encrypted, 8, " ");
            print_hex(decrypted, 8, "\n");
        }
}

typedef captions_answer present_call(const uint8_t *, size_t, const uint8_t *,
                                     size_t, uint8_t *, size_t);

static void print_or_dash(const uint8_t *bytes, size_t length,
                          const char *after)
{
    fputs(length == 0 ? "-" : "", stdout);
    print_hex(bytes, length, after);
}

static void print_present(const char *name, present_call *call,
                          const uint8_t *key, size_t key_len,
                          const uint8_t *block, size_t block_len,
                          size_t out_len)
{
    uint8_t out[16];
    captions_answer answer;
    memset(out, 0xff, sizeof out);
    answer = call(key, key_len, block, block_len, out, out_len);
    printf("%s ", name);
    print_hex(key, key_len, " ");
    print_or_dash(block, block_len, " ");
    printf("%lu %d ", (unsigned long)out_len, answer.number);
    print_or_dash(out, out_len, "\n");
}

/* Keys of every length about PRESENT's two, with blocks and outputs about 8. */
static void present(void)
{
    static const size_t lengths[] = {0, 7, 8, 9, 16};
    size_t key_len, number, i, j;
    for (key_len = 7; key_len <= 17; key_len++)
        for (number = 0; number < (key_len == 10 || key_len == 16 ? 32 : 2);
             number++)
            for (i = 0; i < 5; i++)
                for (j = 0; j < 5; j++) {
                    uint8_t key[17], block[16];
                    make_key_of(key, key_len, number);
                    make_text(block, lengths[i], number);
                    print_present("seal", captions_present_encrypt_block, key,
                                  key_len, block, lengths[i], lengths[j]);
                    print_present("open", captions_present_decrypt_block, key,
                                  key_len, block, lengths[i], lengths[j]);
                }
}

static void cmacs(void)
{
    static const size_t lengths[] = {0, 1, 7, 8, 9, 15, 16, 17, 24, 200};
    size_t words, i;
    for (words = 4; words <= 8; words += 2)
        for (i = 0; i < sizeof lengths / sizeof lengths[0]; i++) {
            uint8_t key[16], message[200], out[8];
            size_t length = lengths[i];
            make_key(key, words, length);
            make_text(message, length, length);
            captions_cmac(key, 2 * words, message, length, out, 8);
            printf("%lu %lu ", (unsigned long)words, (unsigned long)length);
            print_hex(out, 8, "\n");
        }
}

static void bench(void)
{
    size_t words, round;
    for (words = 4; words <= 8; words += 2)
        for (round = 0; round <= CAPTIONS_ROUNDS; round++) {
            uint8_t key[16], array[8], block[8];
            make_key(key, words, round);
            make_text(array, 8, round);
            captions_bench_block(key, 2 * words, round, array, 8, block, 8);
            printf("%lu %lu ", (unsigned long)words, (unsigned long)round);
            print_hex(key, 2 * words, " ");
            print_hex(array, 8, " ");
            print_hex(block, 8, "\n");
        }
}

static void panels(void)
{
    static const uint64_t firsts[] = {0, 1, 0xffffffff, UINT64_MAX - 8191,
                                      UINT64_MAX - 1, UINT64_MAX};
    static const size_t lengths[] = {0,  1,  7,  8,  9,  11,  16,  17,  31,
                                     32, 33, 63, 64, 65, 191, 192, 193, 300};
    size_t words, i, j;
    for (words = 4; words <= 8; words += 2)
        for (i = 0; i < sizeof firsts / sizeof firsts[0]; i++)
            for (j = 0; j < sizeof lengths / sizeof lengths[0]; j++) {
                uint8_t key[16], text[300], out[300];
                size_t length = lengths[j];
                make_key(key, words, words);
                make_text(text, length, length);
                captions_panel(key, 2 * words, firsts[i], text, length, out,
                               length);
                printf("%lu %016llx %lu ", (unsigned long)words,
                       (unsigned long long)firsts[i], (unsigned long)length);
                print_or_dash(out, length, "\n");
            }
}

struct keys {
    size_t length;
    uint8_t sealing[16], checking[16];
};

/* The key classes of the lists, and the bytes of their keys. */
static const size_t classes[][2] = {{CAPTIONS_MCRYPTON_64, 8},
                                    {CAPTIONS_MCRYPTON_96, 12},
                                    {CAPTIONS_MCRYPTON_128, 16},
                                    {CAPTIONS_PRESENT_80, 10},
                                    {CAPTIONS_PRESENT_128, 16}};
#define CLASSES (sizeof classes / sizeof classes[0])

static int is_present(size_t key_class)
{
    return key_class == CAPTIONS_PRESENT_80 ||
           key_class == CAPTIONS_PRESENT_128;
}

/* The pair of a sheet of that class. */
static void make_keys(struct keys *keys, size_t key_class)
{
    size_t i;
    memset(keys, 0, sizeof *keys);
    for (i = 0; i < CLASSES; i++)
        if (classes[i][0] == key_class)
            keys->length = classes[i][1];
    make_key_of(keys->sealing, keys->length, key_class);
    make_key_of(keys->checking, keys->length, key_class + 1);
}

static captions_answer blank(uint8_t *sheet, size_t slots, size_t key_class,
                             size_t serial, const struct keys *keys)
{
    return captions_blank(sheet, CAPTIONS_SHEET(slots), slots, key_class,
                          (uint16_t)serial, keys->sealing, keys->length,
                          keys->checking, keys->length);
}

/* A block sealed by the cipher of a class. */
static void seal(size_t key_class, const uint8_t *key, size_t key_len,
                 const uint8_t *block, uint8_t *out)
{
    if (is_present(key_class))
        captions_present_encrypt_block(key, key_len, block, 8, out, 8);
    else
        captions_encrypt_block(key, key_len, block, 8, 0, out, 8);
}

/* CMAC of one whole block by the cipher of a class: L doubled is added. */
static void mac_of_block(size_t key_class, const uint8_t *key, size_t key_len,
                         const uint8_t *block, uint8_t *mac)
{
    uint8_t zero[8] = {0}, l[8], last[8];
    size_t i;
    seal(key_class, key, key_len, zero, l);
    for (i = 0; i < 8; i++)
        last[i] = (uint8_t)(l[i] << 1 | (i < 7 ? l[i + 1] >> 7 : 0));
    last[7] ^= l[0] >> 7 ? 0x1b : 0;
    for (i = 0; i < 8; i++)
        last[i] ^= block[i];
    seal(key_class, key, key_len, last, mac);
}

static void print_mark(size_t key_class, size_t slots, size_t serial)
{
    static uint8_t sheet[CAPTIONS_SHEET(CAPTIONS_SLOTS)];
    uint8_t plain[8] = {0}, sealed[8], mac[8];
    struct keys keys;
    make_keys(&keys, key_class);
    blank(sheet, slots, key_class, serial, &keys);
    /* Slot count, class and edition, then the serial. */
    memcpy(plain, sheet, 4);
    memcpy(plain + 4, sheet + 8, 2);
    seal(key_class, keys.sealing, keys.length, plain, sealed);
    mac_of_block(key_class, keys.checking, keys.length, sealed, mac);
    printf("%lu %lu %lu ", (unsigned long)key_class, (unsigned long)slots,
           (unsigned long)serial);
    print_hex(keys.sealing, keys.length, " ");
    print_hex(keys.checking, keys.length, " ");
    print_hex(sealed, 8, " ");
    print_hex(mac, 8, " ");
    print_hex(sheet + 10, 6, "\n");
}

static void marks(void)
{
    static const size_t slots[] = {1, 2, 255, 256};
    size_t k, i, j;
    for (k = 0; k < CLASSES; k++)
        for (i = 0; i < sizeof slots / sizeof slots[0]; i++) {
            size_t serials[5] = {0, 1, 256, 0, 65535};
            serials[3] = 0x5a00 + classes[k][0];
            for (j = 0; j < 5; j++)
                print_mark(classes[k][0], slots[i], serials[j]);
        }
}

/* ---- The list of calls on a sheet ---- */

/* The CMAC is mCrypton's: of a PRESENT key it gets the first eight bytes. */
static void print_call(const char *call, captions_answer answer,
                       const struct keys *keys, const uint8_t *sheet)
{
    uint8_t mac[8];
    captions_cmac(keys->checking, is_present(sheet[2]) ? 8 : keys->length,
                  sheet, size_of(sheet), mac, 8);
    printf("%s %d %d ", call, answer.number, answer.length);
    print_hex(mac, 8, "\n");
}

/* A write under a checking key of its own; the line keeps to the sheet's. */
static void print_write_with(const struct keys *keys, const uint8_t *checking,
                             uint8_t *sheet, size_t slot, const void *caption,
                             size_t length)
{
    captions_pointed pointed = captions_write(
        keys->sealing, keys->length, checking, keys->length, sheet,
        size_of(sheet), slot, (const uint8_t *)caption, length);
    captions_answer answer;
    answer.number = pointed.number;
    answer.length = pointed.length;
    print_call("write", answer, keys, sheet);
}

static void print_write(const struct keys *keys, uint8_t *sheet, size_t slot,
                        const void *caption, size_t length)
{
    print_write_with(keys, keys->checking, sheet, slot, caption, length);
}

/* Twin keys, and keys that differ in one bit. */
static void print_twin_writes(const struct keys *keys, uint8_t *sheet)
{
    uint8_t near[16];
    memcpy(near, keys->sealing, sizeof near);
    near[0] ^= 1;
    print_write_with(keys, keys->sealing, sheet, 0, "abc", 3);
    print_write_with(keys, near, sheet, 0, "abc", 3);
}

static void print_read(const struct keys *keys, const uint8_t *checking,
                       const uint8_t *sheet, size_t slot)
{
    uint8_t window[CAPTIONS_FIELD];
    captions_pointed answer;
    memset(window, 0xff, sizeof window);
    answer = captions_read(keys->sealing, keys->length, checking,
                           keys->length, sheet, size_of(sheet), slot, window,
                           sizeof window);
    printf("read %lu %d %d ", (unsigned long)slot, answer.number,
           answer.length);
    print_hex(window, sizeof window, "\n");
}

static void print_reads_and_listing(const struct keys *keys,
                                    const uint8_t *sheet)
{
    uint8_t listing[CAPTIONS_LISTING];
    size_t slot, length;
    for (slot = 0; slot <= 3; slot++)
        print_read(keys, keys->checking, sheet, slot);
    print_read(keys, keys->sealing, sheet, 1);
    length = captions_list(sheet, size_of(sheet), listing, sizeof listing);
    fwrite(listing, 1, length, stdout);
}

/* The list, after a line that says where the sheet comes from. */
static void list_of_calls(size_t key_class, const char *origin,
                          captions_answer answer, uint8_t *sheet)
{
    uint8_t seventeen[17], longest[193];
    struct keys keys;
    make_keys(&keys, key_class);
    make_caption(seventeen, sizeof seventeen, 0);
    make_caption(longest, sizeof longest, 1);

    print_call(origin, answer, &keys, sheet);
    print_write(&keys, sheet, 0, "", 0);
    print_write(&keys, sheet, 1, seventeen, 17);
    print_write(&keys, sheet, 2, longest, 192);
    print_write(&keys, sheet, 1, "abc", 3);
    answer = captions_clear(sheet, size_of(sheet), 0);
    print_call("clear", answer, &keys, sheet);
    print_read(&keys, keys.checking, sheet, 0);
    print_write(&keys, sheet, 3, "abc", 3);
    print_write(&keys, sheet, 2, longest, 193);
    print_twin_writes(&keys, sheet);
    print_reads_and_listing(&keys, sheet);
}

static void on_blanked_sheet(size_t key_class)
{
    uint8_t sheet[CAPTIONS_SHEET(3)];
    struct keys keys;
    make_keys(&keys, key_class);
    memset(sheet, 0xff, sizeof sheet);
    list_of_calls(key_class, "blank",
                  blank(sheet, 3, key_class, 0x5a00 + key_class, &keys),
                  sheet);
}

/* A blank sheet of an older edition, which no call makes. */
static void old_sheet(uint8_t *sheet, size_t key_class, uint8_t edition)
{
    memset(sheet, 0, CAPTIONS_SHEET(3));
    sheet[1] = 3;
    sheet[2] = (uint8_t)key_class;
    sheet[3] = edition;
    if (edition == 2) {
        sheet[8] = 0x5a;
        sheet[9] = (uint8_t)key_class;
    }
}

static void on_old_sheet(size_t key_class, uint8_t edition)
{
    uint8_t sheet[CAPTIONS_SHEET(3)];
    captions_answer none = {0, 0};
    old_sheet(sheet, key_class, edition);
    list_of_calls(key_class, "old", none, sheet);
}

static void sheets(void)
{
    size_t k;
    for (k = 0; k < CLASSES; k++) {
        on_blanked_sheet(classes[k][0]);
        if (is_present(classes[k][0]))
            continue;
        on_old_sheet(classes[k][0], 2);
        on_old_sheet(classes[k][0], 1);
    }
}

/* ---- Reads of a sheet of each edition and class ---- */

/* A short caption, a blank slot and the longest caption. */
static void mixed_sheet(uint8_t *sheet, size_t key_class, uint8_t edition,
                        const struct keys *keys)
{
    static const size_t lengths[] = {5, 17, 192};
    size_t slot;
    if (edition == 3)
        blank(sheet, 3, key_class, 0x5a00 + key_class, keys);
    else
        old_sheet(sheet, key_class, edition);
    for (slot = 0; slot < 3; slot++) {
        uint8_t caption[192];
        make_caption(caption, lengths[slot], slot);
        captions_write(keys->sealing, keys->length, keys->checking,
                       keys->length, sheet, size_of(sheet), slot, caption,
                       lengths[slot]);
    }
    captions_clear(sheet, size_of(sheet), 1);
}

static void print_sheet(const struct keys *keys, const uint8_t *sheet,
                        const char *after)
{
    printf("sheet %d %d ", sheet[3], sheet[2]);
    print_hex(keys->sealing, keys->length, " ");
    print_hex(keys->checking, keys->length, " ");
    print_hex(sheet, size_of(sheet), after);
}

typedef void reads(const struct keys *, uint8_t *);

/* Every edition with every class that it has. */
static void on_mixed_sheets(reads *print)
{
    uint8_t sheet[CAPTIONS_SHEET(3)], edition;
    struct keys keys;
    size_t k;
    for (edition = 1; edition <= 3; edition++)
        for (k = 0; k < CLASSES; k++)
            if (edition == 3 || !is_present(classes[k][0])) {
                make_keys(&keys, classes[k][0]);
                mixed_sheet(sheet, classes[k][0], edition, &keys);
                print(&keys, sheet);
            }
}

/* The slot in whose mark or field a byte lies; 0 for a byte of the header. */
static size_t slot_of(size_t header, size_t byte)
{
    if (byte < header)
        return 0;
    return byte < header + 48 ? (byte - header) / 16
                              : (byte - header - 48) / 192;
}

/* Each bit flipped in its turn. */
static void faults(const struct keys *keys, uint8_t *sheet)
{
    size_t size = size_of(sheet), header = size - 3 * 208, bit;
    print_sheet(keys, sheet, "\n");
    for (bit = 0; bit < 8 * size; bit++) {
        uint8_t window[CAPTIONS_FIELD];
        captions_pointed answer;
        sheet[bit / 8] ^= (uint8_t)(1 << bit % 8);
        answer = captions_read(keys->sealing, keys->length, keys->checking,
                               keys->length, sheet, size,
                               slot_of(header, bit / 8), window, sizeof window);
        sheet[bit / 8] ^= (uint8_t)(1 << bit % 8);
        printf("%lu %lu %d %d %d %d\n", (unsigned long)(bit / 8),
               (unsigned long)(bit % 8), answer.number, answer.rule,
               answer.slot, answer.place);
    }
}

/* Days about the ends of three terms and of the calendar. */
static void dated(const struct keys *keys, uint8_t *sheet)
{
    static const unsigned terms[] = {3, 100, 0, 36000, 200, 36524, 36524};
    static const size_t days[] = {0,   99,    100,   150,   200,
                                  201, 35999, 36000, 36524, 36525};
    uint8_t bytes[CAPTIONS_TERMS(3)], window[CAPTIONS_FIELD];
    size_t slot, i;
    for (i = 0; i < sizeof bytes; i++)
        bytes[i] = (uint8_t)(i % 2 == 0 ? terms[i / 2] / 256 : terms[i / 2]);
    print_sheet(keys, sheet, " ");
    print_hex(bytes, sizeof bytes, "\n");
    for (slot = 0; slot <= 3; slot++)
        for (i = 0; i < sizeof days / sizeof days[0]; i++) {
            captions_pointed answer;
            memset(window, 0xff, sizeof window);
            answer = captions_dated_read(
                keys->sealing, keys->length, keys->checking, keys->length,
                sheet, size_of(sheet), bytes, sizeof bytes, slot, days[i],
                window, sizeof window);
            printf("%lu %lu %d %d %d ", (unsigned long)slot,
                   (unsigned long)days[i], answer.number, answer.rule,
                   answer.length);
            print_hex(window, sizeof window, "\n");
        }
}

/* ---- Every byte 2 and several bytes 3, with keys of many lengths ---- */

/* A blank sheet of one slot, in edition 3 with the key mark of the keys if they
 * have one; what blanking answers, with byte 2 as the class. */
static captions_answer class_sheet(uint8_t *sheet, uint8_t byte_2,
                                   uint8_t byte_3, const uint8_t *sealing,
                                   const uint8_t *checking, size_t length)
{
    uint8_t blanked[CAPTIONS_SHEET(1)] = {0};
    captions_answer answer = captions_blank(
        blanked, sizeof blanked, 1, byte_2, (uint16_t)(0x5a00 + byte_2),
        sealing, length, checking, length);
    memset(sheet, 0, CAPTIONS_SHEET(1));
    sheet[1] = 1;
    sheet[2] = byte_2;
    sheet[3] = byte_3;
    if (byte_3 != 1) {
        sheet[8] = 0x5a;
        sheet[9] = byte_2;
    }
    if (byte_3 == 3)
        memcpy(sheet + 10, blanked + 10, 6);
    return answer;
}

static void print_class(uint8_t byte_3, uint8_t byte_2, size_t length)
{
    static const uint8_t terms[CAPTIONS_TERMS(1)] = {0, 1, 0, 0, 0, 0};
    uint8_t sealing[17], checking[17], sheet[CAPTIONS_SHEET(1)];
    uint8_t written[CAPTIONS_SHEET(1)], window[CAPTIONS_FIELD];
    size_t size = byte_3 == 1 ? CAPTIONS_SHEET_1(1) : CAPTIONS_SHEET(1);
    captions_answer blanked, cleared;
    captions_pointed read, dated_read, write;
    make_key_of(sealing, length, byte_2);
    make_key_of(checking, length, byte_2 + 1u);
    blanked = class_sheet(sheet, byte_2, byte_3, sealing, checking, length);
    read = captions_read(sealing, length, checking, length, sheet, size, 0,
                         window, sizeof window);
    dated_read = captions_dated_read(sealing, length, checking, length, sheet,
                                     size, terms, sizeof terms, 0, 0, window,
                                     sizeof window);
    memcpy(written, sheet, sizeof written);
    write = captions_write(sealing, length, checking, length, written, size, 0,
                           (const uint8_t *)"abc", 3);
    cleared = captions_clear(sheet, size, 0);
    printf("%d %d %lu %d %d %d %d %d %d %d %d\n", byte_3, byte_2,
           (unsigned long)length, read.number, read.rule, dated_read.number,
           dated_read.rule, write.number, write.rule, cleared.number,
           blanked.number);
}

static void every_class(void)
{
    static const uint8_t editions[] = {0, 1, 2, 3, 4, 255};
    size_t i, length;
    unsigned byte_2;
    for (i = 0; i < sizeof editions; i++)
        for (byte_2 = 0; byte_2 < 256; byte_2++)
            for (length = 7; length <= 17; length++)
                print_class(editions[i], (uint8_t)byte_2, length);
}

/* ---- Texts ---- */

#define TEXT 200 /* at least the bytes of any text of the list */

/* The bytes of hex digits, or of a dash, at the head of a line. */
static size_t text_of(const char *line, uint8_t *text)
{
    size_t digits = strspn(line, "0123456789abcdef"), i;
    unsigned byte;
    for (i = 0; i < digits / 2 && i < TEXT; i++)
        if (sscanf(line + 2 * i, "%2x", &byte) == 1)
            text[i] = (uint8_t)byte;
    return i;
}

/* Whether a text is well formed: a write takes it. One that is too long for a
 * write is if a blank can stand behind it, which no letter that isn't whole
 * allows. */
static int is_whole(uint8_t *text, size_t length)
{
    uint8_t sheet[CAPTIONS_SHEET(1)];
    struct keys keys;
    captions_pointed answer;
    int whole;
    text[length] = ' ';
    whole = captions_broken_at(text, length + 1) == length + 1;
    make_keys(&keys, 4);
    blank(sheet, 1, 4, 1, &keys);
    answer = captions_write(keys.sealing, keys.length, keys.checking,
                            keys.length, sheet, sizeof sheet, 0, text, length);
    if (answer.number != (length > CAPTIONS_FIELD ? CAPTIONS_OVERLONG
                          : whole                 ? CAPTIONS_ACCEPTED
                                                  : CAPTIONS_BROKEN_TEXT))
        fputs("a write answers otherwise: ", stdout);
    return whole;
}

static void texts(void)
{
    char line[2 * TEXT + 16];
    while (fgets(line, sizeof line, stdin) != NULL) {
        uint8_t text[TEXT + 1];
        size_t length = text_of(line, text);
        int whole = is_whole(text, length);
        if (length == 0)
            fputs("-", stdout);
        print_hex(text, length, " ");
        printf("%d %lu\n", whole,
               (unsigned long)captions_broken_at(text, length));
    }
}

int main(int count, char **words)
{
    const char *kind = count == 2 ? words[1] : "";
    if (strcmp(kind, "blocks") == 0) {
        blocks();
    } else if (strcmp(kind, "present") == 0) {
        present();
    } else if (strcmp(kind, "cmac") == 0) {
        cmacs();
    } else if (strcmp(kind, "bench") == 0) {
        bench();
    } else if (strcmp(kind, "panel") == 0) {
        panels();
    } else if (strcmp(kind, "marks") == 0) {
        marks();
    } else if (strcmp(kind, "sheet") == 0) {
        sheets();
    } else if (strcmp(kind, "faults") == 0) {
        on_mixed_sheets(faults);
    } else if (strcmp(kind, "dated") == 0) {
        on_mixed_sheets(dated);
    } else if (strcmp(kind, "classes") == 0) {
        every_class();
    } else if (strcmp(kind, "texts") == 0) {
        texts();
    } else {
        fputs("usage: vectors blocks|present|cmac|bench|panel|marks|sheet"
              "|faults|dated|classes|texts\n",
              stderr);
        return 64;
    }
    return fflush(stdout) != 0;
}
