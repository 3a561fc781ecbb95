/* Prints the wear of every drive of a ledger, and marks those that are due to be replaced.
 * Status 0 is done, 1 refused, 2 wrong use or trouble with a file or with memory. */
#include <inttypes.h>
#include <stdbool.h>
#include <stdio.h>
#include <stdlib.h>

#include "tidehinge.h"

/* A drive is replaced at this wear. */
#define REPLACED_AT 300

/* A string as a name that is lent: its first byte and its length. */
#define NAME(text) (const uint8_t *)(text), sizeof(text) - 1

/* What is asked for: a type, a field of it, and the field's kind, which is v64. */
#define WEAR_OF_DRIVES NAME("drive"), NAME("wear"), 11

/* As much as the format allows, so that no ledger is too large for this program. The file has one
 * byte more: a file that is too long is then seen to be, and refused by the library. */
static uint8_t file[TH_FILE + 1];
static uint32_t work[TH_WORK];

static bool read_file(const char *path, size_t *length) {
    FILE *input = fopen(path, "rb");
    if (input == NULL) {
        return false;
    }
    *length = fread(file, 1, sizeof file, input);
    bool whole = !ferror(input);
    fclose(input);
    return whole;
}

/* Says why a call was refused; gives the status for it. */
static int refused(int64_t answer) {
    fprintf(stderr, "refused\t%" PRId64 "\t%s\n", -answer, th_words(answer));
    return 1;
}

/* Says what the system has against it; gives the status for it. */
static int trouble(const char *with) {
    perror(with);
    return 2;
}

static int print_drives(const int64_t *wear, int64_t count) {
    for (int64_t n = 0; n < count; n++) {
        const char *mark = wear[n] >= REPLACED_AT ? "\treplace" : "";
        printf("drive %" PRId64 "\t%" PRId64 "%s\n", n + 1, wear[n], mark);
    }
    return fflush(stdout) != 0 || ferror(stdout) ? trouble("standard output") : 0;
}

/* Asks how many drives there are, makes room for so many numbers, and has it filled. */
static int print_wear(size_t length) {
    int64_t count = th_count_values(file, length, WEAR_OF_DRIVES, work, TH_WORK);
    if (count < 0) {
        return refused(count);
    }
    /* For no drives one number is made all the same: what is lent is never null. */
    size_t room = (size_t)count;
    int64_t *wear = malloc((room > 0 ? room : 1) * sizeof *wear);
    if (wear == NULL) {
        return trouble("memory");
    }
    int64_t filled = th_fill_values(file, length, WEAR_OF_DRIVES, work, TH_WORK, wear, room);
    int status = filled < 0 ? refused(filled) : print_drives(wear, filled);
    free(wear);
    return status;
}

int main(int argc, char **argv) {
    if (argc != 2) {
        fputs("usage: wear FILE\n", stderr);
        return 2;
    }
    size_t length;
    if (!read_file(argv[1], &length)) {
        return trouble(argv[1]);
    }
    return print_wear(length);
}
