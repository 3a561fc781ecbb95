/* Prints what the header says of numbers: the bounds, and each refusal with its words. Then it
 * makes calls, so that it has to be linked with the library. It is a program in C and in C++. */
#include <stdio.h>

#include "tidehinge.h"

static const enum th_refusal refusals[] = {
    TH_SHORT, TH_PADDED,      TH_LIMIT,    TH_ENDS,       TH_NAME,  TH_TWICE,   TH_SUPER,
    TH_LOOP,  TH_RESTRICTION, TH_KIND,     TH_FIELDS,     TH_CHUNK, TH_VALUE,   TH_REFERENCE,
    TH_TABLE, TH_NO_TYPE,     TH_NO_FIELD, TH_OTHER_KIND, TH_ROOM,  TH_LISTING, TH_RANGE,
};

int main(void) {
    printf("%d %d %d\n", TH_WORK, TH_FILE, TH_OBJECTS);
    for (size_t n = 0; n < sizeof refusals / sizeof refusals[0]; n++) {
        printf("%d %s\n", (int)refusals[n], th_words(-(int64_t)refusals[n]));
    }
    const int64_t others[] = {0, INT64_MAX, -22, INT64_MIN};
    for (size_t n = 0; n < sizeof others / sizeof others[0]; n++) {
        printf("%s\n", th_words(others[n]));
    }
    static const uint8_t file[] = {0};
    static uint32_t work[TH_WORK];
    printf("%s\n", th_words(th_check(file, sizeof file, work, TH_WORK)));
    /* Type `a` has two objects and a field `a`, the constant 5. */
    static const uint8_t fives[] = {1, 0, 0, 0, 1, 'a', 1, 1, 0, 2, 0, 1, 0, 0, 5, 1, 0};
    static const uint8_t a[] = {'a'};
    static int64_t values[2];
    int64_t count = th_count_values(fives, sizeof fives, a, 1, a, 1, 0, work, TH_WORK);
    int64_t filled =
        th_fill_values(fives, sizeof fives, a, 1, a, 1, 0, work, TH_WORK, values, (size_t)count);
    printf("%d %d %d %d\n", (int)count, (int)filled, (int)values[0], (int)values[1]);
    filled = th_fill_values(fives, sizeof fives, a, 1, a, 1, 0, work, TH_WORK, values, 1);
    printf("%s\n", th_words(filled));
    /* The number of strings is in two bytes here, and in one when the pair comes back. */
    static const uint8_t pair[] = {0x80, 0, 0};
    static uint8_t text[9 * sizeof pair];
    int64_t length = th_listing(pair, sizeof pair, work, TH_WORK, text, sizeof text);
    printf("%.*s", (int)length, (const char *)text);
    static uint8_t built[TH_FILE];
    int64_t again = th_build(text, (size_t)length, work, TH_WORK, built, sizeof built);
    printf("%d %d %d\n", (int)again, built[0], built[1]);
    printf("%s\n", th_words(th_build(text, 1, work, TH_WORK, built, sizeof built)));
    return 0;
}
