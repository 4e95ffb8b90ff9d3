/* Caption sheets: the C interface of the proved library.
 *
 * Link libcaptions_c.a: `make` puts it into build/, and where it is installed
 * `pkg-config --cflags --libs captions` names it. There is a shared library too,
 * libcaptions_c.so.0.7, for languages that load one. It is for Linux on x86-64.
 *
 * The library takes any length and any number: what it can't use, it refuses.
 * It can't see whether a pointer is good, so every caller owes this:
 *
 *   - A pointer is never null, also where its length is 0.
 *   - A pointer and the length after it name bytes of one object that the
 *     caller may read and, where the pointer isn't const, write.
 *   - Bytes lent through a pointer that isn't const overlap no other bytes of
 *     the same call. Bytes that are only read may overlap each other.
 *
 * The library keeps nothing between calls and takes no memory from the heap, so
 * calls on different bytes may run at the same time.
 */
#ifndef CAPTIONS_H
#define CAPTIONS_H

#include <stddef.h>
#include <stdint.h>

#ifdef __cplusplus
extern "C" {
#endif

/* The version of this header, and that of the library that is linked. The two
 * are meant to be equal; where they aren't, a call may not be as it is declared
 * here. The text is the library's own and stays. */
#define CAPTIONS_VERSION "0.7.1"
const char *captions_version(void);

/* What a call answers, reads and writes aside: number is CAPTIONS_ACCEPTED or a
 * refusal, and length is 0, but with an accepted captions_running_order that of
 * its text. */
typedef struct {
    uint8_t number;
    uint16_t length;
} captions_answer;

/* What a read, dated or not, and a write answer: the number, the caption's
 * length with an accepted read, else 0, and the rule that gave
 * CAPTIONS_UNFIT_SHEET or CAPTIONS_ALTERED, one of those below; with every other
 * number rule, slot and place are 0. */
typedef struct {
    uint8_t number;
    uint8_t rule;
    uint16_t length;
    uint16_t slot;  /* with rules 7 to 11 the slot, else 0 */
    uint16_t place; /* with rule 5 the byte of the header, 10 to 15, with rule 9
                       the byte of the mark, 6 or 7, with rule 11 the byte of
                       the field, 0 to 191, else 0 */
} captions_pointed;

/* The rules, in the order in which a sheet is held to them: it answers the
 * first that is broken, the header's before the slots', a lower slot's before a
 * higher one's, and of a rule that several bytes break the lowest byte. Bytes
 * of the header that a short sheet lacks break rule 6 alone. */
enum {
    CAPTIONS_RULE_NONE = 0,
    CAPTIONS_RULE_SHORT = 1,       /* under 8 bytes */
    CAPTIONS_RULE_SLOTS = 2,       /* bytes 0 and 1: not 1 to 256 slots */
    CAPTIONS_RULE_KEY_WORDS = 3,   /* byte 2: not 4, 6 or 8, nor in edition 3 21
                                      or 24 */
    CAPTIONS_RULE_EDITION = 4,     /* byte 3: not 1, 2 or 3 */
    CAPTIONS_RULE_HEADER_BYTE = 5, /* edition 2: a byte from 10 to 15 that isn't
                                      zero */
    CAPTIONS_RULE_LENGTH = 6,      /* another length than so many slots have */
    CAPTIONS_RULE_NUMBER = 7,      /* a slot that isn't all zero: a write number
                                      of 0, or above the sheet's last */
    CAPTIONS_RULE_CAPTION = 8,     /* a slot: a caption length above 192 */
    CAPTIONS_RULE_MARK_BYTE = 9,   /* a slot: byte 6 or 7 of its mark isn't
                                      zero */
    CAPTIONS_RULE_CHECK = 10,      /* CAPTIONS_ALTERED: the check differs */
    CAPTIONS_RULE_BYTE = 11,       /* CAPTIONS_ALTERED: the check agrees, and
                                      place is the first opened byte at or past
                                      the caption's length that isn't zero */
    CAPTIONS_RULE_TERMS = 12       /* the term sheet, where the sheet is fit */
};

/* The words of each rule, for a table of strings:
 *     static const char *const rule_words[] = CAPTIONS_RULE_WORDS;
 * Those of rules 7 to 11 are about the slot that the answer points at. */
#define CAPTIONS_RULE_WORDS                                                    \
    {                                                                          \
        "no rule", "fewer than 8 bytes", "not 1 to 256 slots (bytes 0 and 1)", \
            "not a key class of its edition (byte 2)",                         \
            "not edition 1, 2 or 3 (byte 3)",                                  \
            "a byte of the header that is not zero",                           \
            "another length than so many slots have",                          \
            "no write number, or one above the sheet's last",                  \
            "a length above 192", "a byte of its mark that is not zero",       \
            "the check differs", "a byte behind the caption that is not zero", \
            "the term sheet does not fit"                                      \
    }

/* What a conversion answers: number is CAPTIONS_ACCEPTED or
 * CAPTIONS_NO_SUCH_DATE, and then all else is 0. Day 0 is a true answer too, so
 * that only the number tells. */
typedef struct {
    uint8_t number;
    uint16_t day; /* 0, which is 2000-01-01, to CAPTIONS_LAST_DAY */
} captions_day;
typedef struct {
    uint8_t number;
    uint16_t year; /* 2000 to 2099 */
    uint8_t month; /* 1 to 12 */
    uint8_t day;   /* 1 to 31 */
} captions_date;

/* The numbers. A call tests in the order in which its refusals are listed with
 * it below and gives the first that applies. A refusal changes no lent byte,
 * except that a refused read, dated or not, makes every byte of its window
 * zero, also where the window has a wrong length. */
enum {
    CAPTIONS_ACCEPTED = 0,
    CAPTIONS_WRONG_KEY = 1,       /* a key isn't 8, 12 or 16 bytes (on sheets 10
                                     too, PRESENT's blocks: isn't 10 or 16), or
                                     the two lengths differ; blanking: key_class
                                     isn't 4, 6, 8, 21 or 24 */
    CAPTIONS_TWIN_KEYS = 2,       /* sealing and checking key are equal */
    CAPTIONS_WRONG_SPAN = 3,      /* a block, an array or their output isn't 8
                                     bytes, a check output isn't 8, a window
                                     isn't 192, a panel's output isn't as long
                                     as the panel, a running order's output is
                                     too short for its text;
                                     blanking: slots isn't 1 to 256, or the
                                     sheet isn't CAPTIONS_SHEET(slots) bytes */
    CAPTIONS_UNFIT_SHEET = 4,     /* shorter than 8 bytes, of no edition from 1
                                     to 3, or any rule of its layout broken, in
                                     any slot; a term sheet
                                     with another slot count than the sheet's,
                                     not CAPTIONS_TERMS(slots) bytes, or with a
                                     day above CAPTIONS_LAST_DAY, in any slot */
    CAPTIONS_OTHER_KEY_CLASS = 5, /* keys of another length than the sheet's
                                     cipher has; blanking: than key_class has */
    CAPTIONS_NO_SUCH_SLOT = 6,    /* the slot isn't below the slot count */
    CAPTIONS_OVERLONG = 7,        /* a caption above 192 bytes, a panel above
                                     CAPTIONS_PANEL */
    CAPTIONS_WORN = 8,            /* a write on a sheet whose last write number
                                     is 4294967295 */
    CAPTIONS_BLANK = 9,           /* a read of a blank slot */
    CAPTIONS_ALTERED = 10,        /* the check differs, or an opened byte at or
                                     past the length isn't zero */
    CAPTIONS_NO_SUCH_DATE = 11,   /* a year, month and day that are no date from
                                     2000-01-01 to 2099-12-31; a day above
                                     CAPTIONS_LAST_DAY */
    CAPTIONS_NOT_ON_SHOW = 12,    /* a dated read before the slot's opening day
                                     or after its closing day */
    CAPTIONS_NO_SUCH_ROUND = 13,  /* the bench: a round above CAPTIONS_ROUNDS */
    CAPTIONS_OTHER_KEYS = 14,     /* a sheet of edition 3: its key mark isn't
                                     that of the two keys */
    CAPTIONS_BROKEN_TEXT = 15     /* a write of a caption that isn't UTF-8 of
                                     RFC 3629; captions_broken_at says where */
};

/* The word of each number, for a table of strings:
 *     static const char *const word[] = CAPTIONS_WORDS; */
#define CAPTIONS_WORDS                                                         \
    {                                                                          \
        "accepted", "wrong key", "twin keys", "wrong span", "unfit sheet",     \
            "other key class", "no such slot", "overlong", "worn", "blank",    \
            "altered", "no such date", "not on show", "no such round",         \
            "other keys", "broken text"                                        \
    }

/* The key classes, a cipher with a length of keys each: what captions_blank takes,
 * and byte 2 of a sheet. Only edition 3 has those of PRESENT. Keys of 16 bytes fit
 * two classes; byte 2 says which cipher they are used with. */
enum {
    CAPTIONS_MCRYPTON_64 = 4,  /* keys of 8 bytes */
    CAPTIONS_MCRYPTON_96 = 6,  /* keys of 12 bytes */
    CAPTIONS_MCRYPTON_128 = 8, /* keys of 16 bytes */
    CAPTIONS_PRESENT_80 = 21,  /* keys of 10 bytes */
    CAPTIONS_PRESENT_128 = 24  /* keys of 16 bytes */
};

#define CAPTIONS_BLOCK 8     /* bytes of a block, an array or their output */
#define CAPTIONS_ROUNDS 12   /* the rounds of mCrypton, and the last of them */
#define CAPTIONS_CHECK 8     /* bytes of a check (CMAC) */
#define CAPTIONS_HEADER 16   /* bytes of a sheet before its marks */
#define CAPTIONS_HEADER_1 8  /* the same of a sheet of edition 1 */
#define CAPTIONS_MARK 16     /* bytes of a slot's mark */
#define CAPTIONS_FIELD 192   /* bytes of a sealed field, of a window and of the
                                longest caption */
#define CAPTIONS_SLOTS 256   /* the most slots of a sheet */
#define CAPTIONS_PANEL 65536 /* bytes of the longest panel */
#define CAPTIONS_LISTING 6836 /* bytes of the longest listing */
#define CAPTIONS_RUNNING_ORDER 7570 /* bytes of the longest running order */
#define CAPTIONS_LAST_DAY 36524 /* 2099-12-31; day 0 is 2000-01-01 */

/* The bytes of a sheet with that many slots, 1 to CAPTIONS_SLOTS. Blanking
 * makes sheets of edition 3. Sheets of edition 2, which have no key mark, and
 * of edition 1, which have no serial either, are still read, written and
 * cleared. One of edition 2 has as many bytes, one of edition 1 those of
 * CAPTIONS_SHEET_1. */
#define CAPTIONS_SHEET(slots)                                                  \
    (CAPTIONS_HEADER + (CAPTIONS_MARK + CAPTIONS_FIELD) * (size_t)(slots))
#define CAPTIONS_SHEET_1(slots)                                                \
    (CAPTIONS_HEADER_1 + (CAPTIONS_MARK + CAPTIONS_FIELD) * (size_t)(slots))

/* The bytes of a term sheet for a sheet with that many slots: the slot count,
 * the opening days of all slots, then the closing days, each number 2 bytes,
 * high byte first. A slot is on show from its opening to its closing day, both
 * included; where the opening is above the closing day, never. */
#define CAPTIONS_TERMS(slots) (2 + 4 * (size_t)(slots))

/* Seals (encrypts) or opens (decrypts) one block with mCrypton, under a key of
 * 8, 12 or 16 bytes. Bit r - 1 of path, from the lowest, is 1 for the word path
 * in round r and 0 for the nibble path; the top four bits count for nothing.
 * Every path gives the same bytes, so 0xffff, the word path throughout, will do.
 * Refusals: WRONG_KEY, WRONG_SPAN. */
captions_answer captions_encrypt_block(const uint8_t *key, size_t key_len,
                                       const uint8_t *block, size_t block_len,
                                       uint16_t path,
                                       uint8_t *out, size_t out_len);
captions_answer captions_decrypt_block(const uint8_t *key, size_t key_len,
                                       const uint8_t *block, size_t block_len,
                                       uint16_t path,
                                       uint8_t *out, size_t out_len);

/* Seals or opens one block with PRESENT (ISO/IEC 29192-2), under a key of 10 or
 * 16 bytes. Refusals: WRONG_KEY, WRONG_SPAN. */
captions_answer captions_present_encrypt_block(
    const uint8_t *key, size_t key_len, const uint8_t *block, size_t block_len,
    uint8_t *out, size_t out_len);
captions_answer captions_present_decrypt_block(
    const uint8_t *key, size_t key_len, const uint8_t *block, size_t block_len,
    uint8_t *out, size_t out_len);

/* For a bench that tests mCrypton chips by watching one round: puts into out the
 * one block that leads to the wanted array after that round of sealing it under
 * the key. No other block leads there. Round 0 is after the first key addition,
 * round 12 before the last step (phi). The array is 8 bytes, 16 nibbles row by
 * row, as a block is. Refusals: WRONG_KEY, WRONG_SPAN, NO_SUCH_ROUND. */
captions_answer captions_bench_block(const uint8_t *key, size_t key_len,
                                     size_t round,
                                     const uint8_t *wanted, size_t wanted_len,
                                     uint8_t *out, size_t out_len);

/* Puts the check (CMAC) of a message of any length, with mCrypton, into out.
 * Refusals: WRONG_KEY, WRONG_SPAN. */
captions_answer captions_cmac(const uint8_t *key, size_t key_len,
                              const uint8_t *message, size_t message_len,
                              uint8_t *out, size_t out_len);

/* Seals a wall panel of 0 to CAPTIONS_PANEL bytes into out, as many bytes, by
 * counter mode (CTR of SP 800-38A) with mCrypton. Called again on the sealed bytes
 * with the same key and the same first, it opens them. Block i of 8 bytes, from 0,
 * is added to the sealed number first + i, which wraps at 64 bits.
 *
 * WARNING: never seal two panels under one key from the same numbers: whoever has
 * both has their exclusive or, and with one of the two texts the other. The
 * library keeps nothing and can't see it. Note how far a key's numbers are used:
 * the next panel may begin at first + captions_panel_blocks(panel_len). A key
 * that seals panels is best kept for panels. Nothing shows that a sealed panel was
 * changed: a bit that is flipped in it is flipped in the panel, and nowhere else.
 * Refusals: WRONG_KEY, WRONG_SPAN, OVERLONG. */
captions_answer captions_panel(const uint8_t *key, size_t key_len,
                               uint64_t first,
                               const uint8_t *panel, size_t panel_len,
                               uint8_t *out, size_t out_len);

/* How many numbers a panel of that many bytes uses, that of a last part block
 * too. Plain code, here and not in the library. */
static inline uint64_t captions_panel_blocks(size_t panel_len)
{
    return panel_len / CAPTIONS_BLOCK + (panel_len % CAPTIONS_BLOCK != 0);
}

/* Makes the bytes of sheet, CAPTIONS_SHEET(slots), a sheet of blank slots for
 * this pair of keys. key_class is one of the key classes above: it says which
 * cipher seals, checks and marks the sheet, and how many bytes its keys have.
 * What the bytes were doesn't matter.
 *
 * That pair serves the sheet from then on. Bytes 10 to 15 are the key mark,
 * made from both keys, slots, key_class and serial; a read or write under a
 * pair with another mark is refused, OTHER_KEYS, before anything is opened. It
 * has 48 bits: another pair can have the same one by chance.
 *
 * Write numbers begin again at 1, so give every sheet that a pair of keys
 * serves a serial of its own, a sheet that is blanked again a new one: sheets
 * with unlike serials never seal from the same start. Any serial is taken; with
 * 0 a sheet seals as one of edition 1 does, so keys that served a sheet of
 * edition 1 have used 0.
 * Refusals: WRONG_KEY, TWIN_KEYS, WRONG_SPAN, OTHER_KEY_CLASS. */
captions_answer captions_blank(uint8_t *sheet, size_t sheet_len,
                               size_t slots, size_t key_class,
                               uint16_t serial,
                               const uint8_t *sealing_key, size_t sealing_len,
                               const uint8_t *checking_key,
                               size_t checking_len);

/* Writes a caption of 0 to 192 bytes into a slot, counted from 0, in place of
 * what the slot held. One pair of keys serves a sheet: one of edition 3 refuses
 * every pair with another mark. One of edition 1 or 2 has no key mark: there
 * another pair of the right length writes, and which pair a slot was written
 * with is for the caller to know.
 *
 * A caption is UTF-8 of RFC 3629, of whole letters: no overlong forms, no
 * surrogates, nothing above U+10FFFF. A text that is cut at 192 bytes can end
 * inside a letter. No other call tests the text: what an earlier version wrote
 * is read as it is.
 * Refusals: WRONG_KEY, TWIN_KEYS, UNFIT_SHEET, OTHER_KEY_CLASS, OTHER_KEYS,
 * NO_SUCH_SLOT, OVERLONG, BROKEN_TEXT, WORN. */
captions_pointed captions_write(const uint8_t *sealing_key, size_t sealing_len,
                                const uint8_t *checking_key,
                                size_t checking_len,
                                uint8_t *sheet, size_t sheet_len, size_t slot,
                                const uint8_t *caption, size_t caption_len);

/* Where a text of any length breaks: the place, from 0, of the first byte at
 * which no well-formed text can go on, or text_len where there is none. So it is
 * text_len for a well-formed text, and also for one whose last letter is cut off:
 * a write takes the one and refuses the other. */
size_t captions_broken_at(const uint8_t *text, size_t text_len);

/* Makes a slot blank; a blank one stays blank. It takes no keys, so anybody's
 * clear is done. Refusals: UNFIT_SHEET, NO_SUCH_SLOT. */
captions_answer captions_clear(uint8_t *sheet, size_t sheet_len, size_t slot);

/* Reads a slot: the window of 192 bytes gets the caption, then zero bytes, and
 * the answer carries the caption's length. A refused read makes every byte of
 * the window zero.
 * Refusals: WRONG_KEY, TWIN_KEYS, WRONG_SPAN, UNFIT_SHEET, OTHER_KEY_CLASS,
 * OTHER_KEYS, NO_SUCH_SLOT, BLANK, ALTERED. */
captions_pointed captions_read(const uint8_t *sealing_key, size_t sealing_len,
                               const uint8_t *checking_key, size_t checking_len,
                               const uint8_t *sheet, size_t sheet_len,
                               size_t slot,
                               uint8_t *window, size_t window_len);

/* The day of a date of the Gregorian calendar, and the date of a day.
 * Refusal: NO_SUCH_DATE. */
captions_day captions_day_of_date(size_t year, size_t month, size_t day);
captions_date captions_date_of_day(size_t day);

/* Reads a slot as captions_read does if the slot is on show on that day by the
 * term sheet. A refused read makes every byte of the window zero.
 * Refusals: WRONG_KEY, TWIN_KEYS, WRONG_SPAN, UNFIT_SHEET (the sheet, then the
 * term sheet), OTHER_KEY_CLASS, NO_SUCH_DATE, OTHER_KEYS, NO_SUCH_SLOT, BLANK,
 * NOT_ON_SHOW, ALTERED. */
captions_pointed captions_dated_read(
    const uint8_t *sealing_key, size_t sealing_len,
    const uint8_t *checking_key, size_t checking_len,
    const uint8_t *sheet, size_t sheet_len,
    const uint8_t *terms, size_t terms_len, size_t slot, size_t day,
    uint8_t *window, size_t window_len);

/* Term sheets, made, set and asked, so that nobody need write their bytes. They
 * are plain bytes and so plain code, here and not in the library; the tests hold
 * it to captions_dated_read. */

/* A number of two bytes by its place in a term sheet. */
static inline size_t captions_terms_number(const uint8_t *terms, size_t place)
{
    return (size_t)terms[2 * place] << 8 | terms[2 * place + 1];
}

static inline void captions_terms_put(uint8_t *terms, size_t place,
                                      size_t number)
{
    terms[2 * place] = (uint8_t)(number >> 8);
    terms[2 * place + 1] = (uint8_t)number;
}

static inline captions_answer captions_terms_answer(int number)
{
    captions_answer answer;
    answer.number = (uint8_t)number;
    answer.length = 0;
    return answer;
}

/* The slot count of a term sheet that is fit, else 0. */
static inline size_t captions_terms_slots(const uint8_t *terms,
                                          size_t terms_len)
{
    size_t slots = terms_len < 2 ? 0 : captions_terms_number(terms, 0);
    size_t i;

    if (slots < 1 || slots > CAPTIONS_SLOTS ||
        terms_len != CAPTIONS_TERMS(slots))
        return 0;
    for (i = 1; i <= 2 * slots; i++)
        if (captions_terms_number(terms, i) > CAPTIONS_LAST_DAY)
            return 0;
    return slots;
}

/* Makes the bytes of terms, CAPTIONS_TERMS(slots), a term sheet by which no slot
 * is ever on show. What the bytes were doesn't matter. Refusal: WRONG_SPAN. */
static inline captions_answer captions_terms_blank(uint8_t *terms,
                                                   size_t terms_len,
                                                   size_t slots)
{
    size_t i;

    if (slots < 1 || slots > CAPTIONS_SLOTS ||
        terms_len != CAPTIONS_TERMS(slots))
        return captions_terms_answer(CAPTIONS_WRONG_SPAN);
    captions_terms_put(terms, 0, slots);
    for (i = 1; i <= slots; i++) {
        captions_terms_put(terms, i, CAPTIONS_LAST_DAY);
        captions_terms_put(terms, slots + i, 0);
    }
    return captions_terms_answer(CAPTIONS_ACCEPTED);
}

/* Sets the days from which and to which a slot is on show, both included. Where
 * opening is above closing it never is.
 * Refusals: UNFIT_SHEET, NO_SUCH_DATE, NO_SUCH_SLOT. */
static inline captions_answer captions_terms_set(uint8_t *terms,
                                                 size_t terms_len, size_t slot,
                                                 size_t opening,
                                                 size_t closing)
{
    size_t slots = captions_terms_slots(terms, terms_len);

    if (slots == 0)
        return captions_terms_answer(CAPTIONS_UNFIT_SHEET);
    if (opening > CAPTIONS_LAST_DAY || closing > CAPTIONS_LAST_DAY)
        return captions_terms_answer(CAPTIONS_NO_SUCH_DATE);
    if (slot >= slots)
        return captions_terms_answer(CAPTIONS_NO_SUCH_SLOT);
    captions_terms_put(terms, 1 + slot, opening);
    captions_terms_put(terms, 1 + slots + slot, closing);
    return captions_terms_answer(CAPTIONS_ACCEPTED);
}

/* ACCEPTED where a slot is on show on that day, as captions_dated_read judges
 * it. Refusals: UNFIT_SHEET, NO_SUCH_DATE, NO_SUCH_SLOT, NOT_ON_SHOW. */
static inline captions_answer captions_terms_on_show(const uint8_t *terms,
                                                     size_t terms_len,
                                                     size_t slot, size_t day)
{
    size_t slots = captions_terms_slots(terms, terms_len);

    if (slots == 0)
        return captions_terms_answer(CAPTIONS_UNFIT_SHEET);
    if (day > CAPTIONS_LAST_DAY)
        return captions_terms_answer(CAPTIONS_NO_SUCH_DATE);
    if (slot >= slots)
        return captions_terms_answer(CAPTIONS_NO_SUCH_SLOT);
    if (day < captions_terms_number(terms, 1 + slot) ||
        day > captions_terms_number(terms, 1 + slots + slot))
        return captions_terms_answer(CAPTIONS_NOT_ON_SHOW);
    return captions_terms_answer(CAPTIONS_ACCEPTED);
}

/* Puts the listing of a sheet, lines of text with no zero byte after them,
 * into the first bytes of out and answers how many bytes it has; the bytes
 * after them stay as they were. An unfit sheet has the listing "unfit" and a
 * line feed. Where the listing has more bytes than out, out stays as it was
 * and the answer is 0. An out of CAPTIONS_LISTING bytes holds any listing. */
size_t captions_list(const uint8_t *sheet, size_t sheet_len,
                     uint8_t *out, size_t out_len);

/* Puts the running order of a day, lines of text with no zero byte after them,
 * into the first bytes of out and answers how many bytes it has; the bytes after
 * them stay as they were. Every written slot that is on show on that day by the
 * term sheet has a line, and no other slot has one: slot, opening date, closing
 * date and caption length, one space apart, as in
 *     1 2026-05-01 2026-10-31 71
 * The earliest opening comes first, and among equals the lower slot. It takes no
 * keys and tests no seal: an altered caption has its line too.
 *
 * date is a date's text, ten characters, YYYY-MM-DD, with no zero byte after
 * them. The text is "unfit" and a line feed for an unfit sheet or term sheet,
 * else "no such date" and a line feed where date isn't such a text of a date from
 * 2000-01-01 to 2099-12-31. With ACCEPTED a length of 0 says that nothing is on
 * show. An out of CAPTIONS_RUNNING_ORDER bytes holds any text.
 * Refusal: WRONG_SPAN, where the text has more bytes than out. */
captions_answer captions_running_order(const uint8_t *sheet, size_t sheet_len,
                                       const uint8_t *terms, size_t terms_len,
                                       const uint8_t *date, size_t date_len,
                                       uint8_t *out, size_t out_len);

#ifdef __cplusplus
}
#endif

#endif
