/* Tidehinge: a proved reader and writer of SKilL ledgers, for C and C++ on x86-64.
 *
 * Every call gets the bytes of a whole file, or of a whole listing, and a work table, and uses no
 * other memory but its stack: no heap, no globals. So calls share nothing, and threads may call at
 * the same time, each with a table and an output of its own. The file or listing is only read:
 * threads may share it.
 *
 * An answer of 0 or more is the call's result. Below 0 it is minus the number of a refusal.
 *
 * Lent memory is lent as to a Rust slice:
 * - a pointer is not null and aligned for its type, also where the length beside it is 0;
 * - a length counts elements, not bytes;
 * - the work table and the output overlap nothing else that is lent to the same call;
 * - until the call returns nobody else writes to lent memory, or shortens a file that is mapped. */
#ifndef TIDEHINGE_H
#define TIDEHINGE_H

#include <stddef.h>
#include <stdint.h>

/* The numbers that a work table needs at least. They may hold anything. After a call they are 0,
 * and what is lent beyond them is as it was. A shorter table gives TH_TABLE and is untouched. */
#define TH_WORK 16384

/* The most bytes that a file has, and the most objects that all its types have together. */
#define TH_FILE 1048576
#define TH_OBJECTS 65535

/* Why a call was refused. docs/REFUSALS.md says of each when it is given and what to do. TH_PADDED
 * is no longer given: every coding of a number in at most nine bytes is taken. It keeps its number,
 * and no other refusal will get it. */
enum th_refusal {
    TH_SHORT = 1,
    TH_PADDED = 2,
    TH_LIMIT = 3,
    TH_ENDS = 4,
    TH_NAME = 5,
    TH_TWICE = 6,
    TH_SUPER = 7,
    TH_LOOP = 8,
    TH_RESTRICTION = 9,
    TH_KIND = 10,
    TH_FIELDS = 11,
    TH_CHUNK = 12,
    TH_VALUE = 13,
    TH_REFERENCE = 14,
    TH_TABLE = 15,
    TH_NO_TYPE = 16,
    TH_NO_FIELD = 17,
    TH_OTHER_KIND = 18,
    TH_ROOM = 19,
    TH_LISTING = 20,
    TH_RANGE = 21
};

#ifdef __cplusplus
extern "C" {
#endif

/* Checks a file. Gives 0 if it follows every rule of the format. */
int64_t th_check(const uint8_t *file, size_t file_length, uint32_t *work, size_t work_length);

/* Gives the number of objects of the named type, those of its subtypes included. Names are compared
 * byte by byte. */
int64_t th_objects(const uint8_t *file, size_t file_length, const uint8_t *type, size_t type_length,
                   uint32_t *work, size_t work_length);

/* Two calls give the values of one field. th_count_values says how many there are; lend so many
 * numbers, or more, and th_fill_values writes them. Both take the same names and kind.
 *
 * There is one value for each object of the type, in the order of the file. The field is one of the
 * type itself, not of its super types. `kind` has to be the field's kind:
 *   0 to 4     constant i8, i16, i32, i64, v64: its value, for every object
 *   6          bool: 0 or 1
 *   7 to 11    i8, i16, i32, i64, v64
 *   12, 13     f32, f64: the bits; those of an f32 as a number from 0 up
 *   14         string: its number in the file, from 1, or 0 for none
 *   32         reference to any type: the object's number, from 1, or 0 for none
 * Any other number gives TH_OTHER_KIND. So does every number asked of an annotation (kind 5), of an
 * array, list or set (15, 17 to 19) or of a map (20): a value of these is not one number, and
 * th_listing shows them. */

/* Gives the number of values, which th_objects gives too.
 *
 * The refusals are TH_TABLE, those of the file, TH_NO_TYPE, TH_NO_FIELD and TH_OTHER_KIND, looked
 * for in this order. TH_ROOM is never given: no output is lent. */
int64_t th_count_values(const uint8_t *file, size_t file_length, const uint8_t *type,
                        size_t type_length, const uint8_t *field, size_t field_length,
                        uint64_t kind, uint32_t *work, size_t work_length);

/* Writes the values to the front of `out`. Gives their number, which is what th_count_values gives.
 * The rest of `out` is untouched, and a refusal leaves all of it as it was.
 *
 * The refusals are those of th_count_values, in the same order, and behind them TH_ROOM, if `out`
 * has fewer places than there are values.
 *
 * Each of the two reads the whole file anew, and knows nothing of the other. If the bytes change
 * in between, this one answers for the bytes that it gets. There may be another number of values
 * then, and TH_ROOM if it is more than `out` has places: nothing is ever written past these.
 *
 * TH_OBJECTS numbers are always enough. Whoever would rather make one call lends so many, and need
 * not ask. */
int64_t th_fill_values(const uint8_t *file, size_t file_length, const uint8_t *type,
                       size_t type_length, const uint8_t *field, size_t field_length, uint64_t kind,
                       uint32_t *work, size_t work_length, int64_t *out, size_t out_length);

/* Writes the listing of a file, which is text, to the front of `out`. Gives its length in bytes; no
 * zero byte ends it. The rest of `out` is untouched, and a refusal leaves all of it as it was.
 *
 * How much room? It is proved that a listing has at most 9 bytes for each byte of the file. Only
 * values of an array field of fixed length 0 come on top: each takes no byte of the file and 4 of
 * the listing, at most 33,553,920 in all. So lend 9 times the file's length, and after TH_ROOM
 * 33,553,920 bytes more: then TH_ROOM is not given. */
int64_t th_listing(const uint8_t *file, size_t file_length, uint32_t *work, size_t work_length,
                   uint8_t *out, size_t out_length);

/* Builds a file from its listing: writes the shortest file that has this listing to the front of
 * `out`, and gives its length in bytes. The rest of `out` is untouched, and a refusal leaves all of
 * it as it was. What is built is accepted by the other calls, and th_listing gives the same text
 * for it.
 *
 * A listing does not show in how many bytes the file had its numbers. Where they all were in their
 * shortest coding, as in every file that th_build wrote, the same bytes come back. Where some were
 * padded, the built file has the same contents and is shorter, its end offsets worked out again.
 *
 * The text has to be what th_listing would write, byte for byte; a zero byte at its end is not
 * counted in `text_length`. Whatever else it is gives TH_LISTING: a blank too many, a number with a
 * leading zero, no newline at the end, or lines that follow each other in no file. So does a
 * listing whose file would break a rule or pass a bound. The text itself may have any length, and
 * none at all: that is the listing of the empty file.
 *
 * The refusals are TH_TABLE, TH_LISTING and TH_ROOM, looked for in this order. TH_FILE bytes of
 * `out` are always enough: no file is longer. */
int64_t th_build(const uint8_t *text, size_t text_length, uint32_t *work, size_t work_length,
                 uint8_t *out, size_t out_length);

#ifdef __cplusplus
}
#endif

/* An answer in words. */
static inline const char *th_words(int64_t answer) {
    static const char *const words[] = {
        "done",
        "the file ends too early",
        "a number has filler bytes",
        "a bound is passed",
        "an end offset falls",
        "a name is missing",
        "a type or a field name comes twice",
        "the super type is not known yet",
        "the chain of super types returns to itself",
        "restrictions are announced",
        "a kind is unknown",
        "known fields are left out",
        "values and chunk length disagree",
        "a bool is neither 00 nor FF",
        "a number points at nothing",
        "the work table is too short",
        "no such type in the file",
        "the type has no such field",
        "the field has another kind",
        "the lent output is too short",
        "no file has this listing",
        "a subtype's range is wrong",
    };
    if (answer >= 0) {
        return words[0];
    }
    return answer < -TH_RANGE ? "no refusal of this format" : words[-answer];
}

#endif
