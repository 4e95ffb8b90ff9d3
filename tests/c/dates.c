/* Holds captions_running_order to another calendar: reads lines of a day, or the word
 * "none", and the text of a date. A date is taken as its day and no other: a slot is
 * on show by a term of that day alone, and by none that ends the day before or begins
 * the day after, and the line has the same text for the day. Prints counts; exits
 * with 1 if a line doesn't hold. */
#include "captions.h"

#include <stdio.h>
#include <stdlib.h>
#include <string.h>

static int prints(const char *date, long opening, long closing,
                  const char *text)
{
    /* One slot of edition 1, written once with a caption of 7 bytes. */
    static const uint8_t sheet[CAPTIONS_SHEET_1(1)] = {
        0, 1, 4, 1, 0, 0, 0, 1, 0, 0, 0, 1, 0, 7};
    uint8_t terms[CAPTIONS_TERMS(1)] = {0, 1};
    uint8_t out[CAPTIONS_RUNNING_ORDER];
    captions_answer answer;
    terms[2] = (uint8_t)(opening >> 8);
    terms[3] = (uint8_t)opening;
    terms[4] = (uint8_t)(closing >> 8);
    terms[5] = (uint8_t)closing;
    answer = captions_running_order(sheet, sizeof sheet, terms, sizeof terms,
                                    (const uint8_t *)date, strlen(date), out,
                                    sizeof out);
    return answer.number == CAPTIONS_ACCEPTED &&
           answer.length == strlen(text) &&
           memcmp(out, text, strlen(text)) == 0;
}

/* A date of the calendar, by its day. */
static int taken(const char *date, long day)
{
    char line[64];
    sprintf(line, "0 %.10s %.10s 7\n", date, date);
    return prints(date, day, day, line) &&
           (day == 0 || prints(date, 0, day - 1, "")) &&
           (day == CAPTIONS_LAST_DAY ||
            prints(date, day + 1, CAPTIONS_LAST_DAY, ""));
}

int main(void)
{
    char number[16], date[16];
    unsigned long dates = 0, others = 0;
    while (scanf("%15s %15s", number, date) == 2) {
        int none = strcmp(number, "none") == 0;
        if (none ? !prints(date, 0, CAPTIONS_LAST_DAY, "no such date\n")
                 : !taken(date, strtol(number, NULL, 10))) {
            printf("%s isn't taken as %s\n", date, number);
            return 1;
        }
        if (none)
            others++;
        else
            dates++;
    }
    printf("%lu taken as their days, %lu other texts as none\n", dates, others);
    return dates == 36525 ? 0 : 1;
}
