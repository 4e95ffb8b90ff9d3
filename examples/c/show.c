/* A kiosk in small: shows the caption of one slot or, instead of it, the word
 * of the refusal.
 *
 *     cc -std=c99 -Iinclude -o show examples/c/show.c build/libcaptions_c.a
 *     ./show SHEET SLOT KEYS [TERMS DATE]
 *
 * KEYS names a file with two lines of hex digits, the sealing and the checking
 * key: words of a command line can be seen by others on the machine. With a
 * term sheet and a date, YYYY-MM-DD, a slot is shown only while it is on show.
 * Exits with the number of the refusal, 64 for wrong usage, 65 where KEYS isn't
 * two lines of hex digits, 66 where a file can't be read, 74 where standard
 * output fails. */
#include "captions.h"

#include <stdio.h>
#include <string.h>

/* One byte more than the longest key, sheet or term sheet: enough for the
 * library to see, and refuse, what is too long. */
enum {
    KEY_ROOM = 16 + 1,
    SHEET_ROOM = CAPTIONS_SHEET(CAPTIONS_SLOTS) + 1,
    TERMS_ROOM = CAPTIONS_TERMS(CAPTIONS_SLOTS) + 1
};

/* A number in decimal digits and nothing else. One above SIZE_MAX becomes
 * SIZE_MAX, which is no slot either. */
static int number_of(const char *text, size_t length, size_t *number)
{
    size_t i;

    *number = 0;
    for (i = 0; i < length; i++) {
        if (text[i] < '0' || text[i] > '9')
            return 0;
        if (*number > (SIZE_MAX - 9) / 10)
            *number = SIZE_MAX;
        else
            *number = 10 * *number + (size_t)(text[i] - '0');
    }
    return length > 0;
}

/* The day of a date. What is none becomes SIZE_MAX, which is no day either. */
static size_t day_of(const char *text)
{
    size_t year, month, day;
    captions_day answer;

    if (strlen(text) != 10 || text[4] != '-' || text[7] != '-' ||
        !number_of(text, 4, &year) || !number_of(text + 5, 2, &month) ||
        !number_of(text + 8, 2, &day))
        return SIZE_MAX;
    answer = captions_day_of_date(year, month, day);
    return answer.number == CAPTIONS_ACCEPTED ? answer.day : SIZE_MAX;
}

/* The value of a hex digit in either case, else -1. */
static int digit_of(int c)
{
    if (c >= '0' && c <= '9')
        return c - '0';
    if (c >= 'a' && c <= 'f')
        return c - 'a' + 10;
    if (c >= 'A' && c <= 'F')
        return c - 'A' + 10;
    return -1;
}

/* The key on the next line, which has an even number of hex digits and nothing
 * else. Bytes past the room are counted up to it. */
static int key_of_line(FILE *file, uint8_t key[KEY_ROOM], size_t *length)
{
    int high = getc(file), low;

    *length = 0;
    if (high == EOF)
        return 0;
    for (; high != '\n' && high != EOF; high = getc(file)) {
        low = getc(file);
        if (high == '\r' && low == '\n')
            break;
        if (digit_of(high) < 0 || digit_of(low) < 0)
            return 0;
        if (*length < KEY_ROOM)
            key[(*length)++] = (uint8_t)(16 * digit_of(high) + digit_of(low));
    }
    return 1;
}

/* The bytes of a file, as many as there is room for. */
static int bytes_of(const char *name, uint8_t *bytes, size_t room,
                    size_t *length)
{
    FILE *file = fopen(name, "rb");

    if (file == NULL)
        return 0;
    *length = fread(bytes, 1, room, file);
    if (ferror(file))
        return 0;
    fclose(file);
    return 1;
}

static int cannot(const char *name, int status)
{
    perror(name);
    return status;
}

int main(int count, char **words)
{
    static const char *const word[] = CAPTIONS_WORDS;
    static const char *const rule_words[] = CAPTIONS_RULE_WORDS;
    static uint8_t sheet[SHEET_ROOM], terms[TERMS_ROOM];
    uint8_t sealing[KEY_ROOM], checking[KEY_ROOM], window[CAPTIONS_FIELD];
    size_t slot, sheet_len, terms_len, sealing_len, checking_len;
    captions_pointed answer;
    FILE *file;
    int two_lines;

    if ((count != 4 && count != 6) ||
        !number_of(words[2], strlen(words[2]), &slot)) {
        fputs("usage: show SHEET SLOT KEYS [TERMS DATE]\n", stderr);
        return 64;
    }

    file = fopen(words[3], "rb");
    if (file == NULL)
        return cannot(words[3], 66);
    two_lines = key_of_line(file, sealing, &sealing_len) &&
                key_of_line(file, checking, &checking_len) && getc(file) == EOF;
    if (ferror(file))
        return cannot(words[3], 66);
    fclose(file);
    if (!two_lines) {
        fprintf(stderr, "%s: not two lines of hex digits\n", words[3]);
        return 65;
    }

    if (!bytes_of(words[1], sheet, sizeof sheet, &sheet_len))
        return cannot(words[1], 66);
    if (count == 4) {
        answer = captions_read(sealing, sealing_len, checking, checking_len,
                               sheet, sheet_len, slot, window, sizeof window);
    } else {
        if (!bytes_of(words[4], terms, sizeof terms, &terms_len))
            return cannot(words[4], 66);
        answer = captions_dated_read(
            sealing, sealing_len, checking, checking_len, sheet, sheet_len,
            terms, terms_len, slot, day_of(words[5]), window, sizeof window);
    }
    if (answer.number == CAPTIONS_ACCEPTED)
        fwrite(window, 1, answer.length, stdout);
    else
        fputs(word[answer.number], stdout);
    putchar('\n');
    /* A full disk shows when the last bytes leave the buffer. */
    if (fflush(stdout) != 0 || ferror(stdout))
        return cannot("standard output", 74);
    if (answer.rule != CAPTIONS_RULE_NONE)
        fprintf(stderr, "%s (rule %d, slot %d, place %d)\n",
                rule_words[answer.rule], answer.rule, answer.slot,
                answer.place);
    return answer.number;
}
