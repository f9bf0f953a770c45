/* The proved library for VDV 451 planning files, for C programs.
 *
 * A file or a text is lent by a pointer and a count of bytes; the pointer is not
 * null, also where the count is 0. What is lent to be written to overlaps nothing
 * else that is lent. There are no other conditions, and no call keeps anything
 * of what it is lent. Sections, records and fields count from 1. A field is a
 * column of VDV 452's table, by its number there, wherever the file's `atr` has
 * it; the bytes told of it lie where they lie in the file. The tables are 485,
 * 993, 348, 290, 998, 332, 225, 247, 432 and 232.
 *
 * Each answer begins with its number, VDV_SOUND where the call was not refused,
 * and the place: section, 0 for header and trailer, and line. The values that
 * follow are 0 where the call was refused.
 *
 * The library is built for Linux, on x86-64 and on Arm (aarch64). */
#ifndef VDV_H
#define VDV_H

#include <stdbool.h>
#include <stddef.h>
#include <stdint.h>

#ifdef __cplusplus
extern "C" {
#endif

/* The numbers of documents 01, 0 to 24, and 02. */
enum vdv_number {
    VDV_SOUND = 0, /* sound */
    VDV_FILE_TOO_LONG = 1, /* file over 16,777,216 bytes */
    VDV_HEADER = 2, /* header breaks a rule */
    VDV_TRAILER = 3, /* trailer breaks a rule */
    VDV_BYTE = 4, /* byte not allowed in this line */
    VDV_COMMAND = 5, /* no `;`, or unknown command */
    VDV_ORDER = 6, /* command out of its order, or section without `end` */
    VDV_UNKNOWN_TABLE = 7, /* unknown table */
    VDV_ATR = 8, /* `atr` does not name each of the table's columns once */
    VDV_FRM = 9, /* `frm` differs from the columns' kinds */
    VDV_FIELD_COUNT = 10, /* wrong number of fields */
    VDV_NOT_A_TEXT = 11, /* not a text */
    VDV_NOT_A_NUMBER = 12, /* not a number */
    VDV_RANGE = 13, /* number out of range, or text over its size */
    VDV_SAME_POINTS = 14, /* the two points are the same */
    VDV_MARK = 15, /* mark misplaced, unreadable, not allowed, not rising, on an empty text, or with no record */
    VDV_END_COUNT = 16, /* `end` count wrong */
    VDV_TABLE_TWICE = 17, /* table a second time */
    VDV_PRIMARY_KEY = 18, /* primary key met before */
    VDV_SECOND_KEY = 19, /* second key met before */
    VDV_REFERENCE = 20, /* a reference finds no record */
    VDV_NO_ROOM = 21, /* no room */
    VDV_NOT_EMPTY = 22, /* field to fill is not empty */
    VDV_MAY_NOT_FILL = 23, /* field may not be filled */
    VDV_NO_SUCH = 24, /* no such section, record or field */
    VDV_COMBINATION = 25, /* wrong combination */
    VDV_NO_SUCH_DAY = 26, /* no such day */
};

/* `number` is one of enum vdv_number, as in every answer. */
typedef struct vdv_refusal {
    uint32_t number;
    size_t section;
    size_t line;
} vdv_refusal;

/* One row a section; `table` is 0 if the `tbl` line fails, `place` the
 * section's first byte, from 0. */
typedef struct vdv_row {
    uint32_t table;
    size_t place;
    size_t length;
    size_t records;
    uint32_t verdict;
    size_t line;
} vdv_row;

/* Texts are told by their first place and the place after them, between the
 * quotes; `dve` and `fft` say whether such a line stands, `latin` whether the
 * character set is ISO8859-1. */
typedef struct vdv_header_answer {
    uint32_t number;
    size_t section;
    size_t line;
    size_t source_from;
    size_t source_to;
    uint64_t year;
    uint64_t month;
    uint64_t day;
    uint64_t hour;
    uint64_t minute;
    uint64_t second;
    bool latin;
    size_t ver_from;
    size_t ver_to;
    size_t ifv_from;
    size_t ifv_to;
    bool dve;
    size_t dve_from;
    size_t dve_to;
    bool fft;
    size_t fft_from;
    size_t fft_to;
} vdv_header_answer;

typedef struct vdv_row_answer {
    uint32_t number;
    size_t section;
    size_t line;
    vdv_row row;
} vdv_row_answer;

enum vdv_kind { VDV_NUMBER = 0, VDV_OPERATOR = 1, VDV_SUGGESTION = 2, VDV_MISSING = 3 };

/* `kind` is one of enum vdv_kind: a number has its amount, a text its bytes
 * between the quotes, doubled quotes still doubled, up to the spaces at its end.
 * A missing number, an empty field of a column that allows it, has neither: what
 * follows its kind is 0, and that is no amount. The amount of VER_GUELTIGKEIT or of
 * BETRIEBSTAG is a Gregorian day from 10101 to 99991231: amount / 10000 is its year,
 * amount / 100 % 100 its month, amount % 100 its day. */
typedef struct vdv_value_answer {
    uint32_t number;
    size_t section;
    size_t line;
    uint32_t kind;
    uint64_t amount;
    size_t from;
    size_t to;
} vdv_value_answer;

/* How much was written. */
typedef struct vdv_length_answer {
    uint32_t number;
    size_t section;
    size_t line;
    size_t length;
} vdv_length_answer;

/* How much was written of a text, and whose it is: `owner` is VDV_OPERATOR or
 * VDV_SUGGESTION. */
typedef struct vdv_text_answer {
    uint32_t number;
    size_t section;
    size_t line;
    size_t length;
    uint32_t owner;
} vdv_text_answer;

/* The file's answer: number 0 is sound. */
vdv_refusal vdv_check(const uint8_t *file, size_t length);

/* The header's values, or 1 or 2. */
vdv_header_answer vdv_header(const uint8_t *file, size_t length);

/* One section's row, or the first of 1, 2 and 24. */
vdv_row_answer vdv_section(const uint8_t *file, size_t length, size_t section);

/* "Listing is refused by 1, 2 and 21 only and then writes no row; other verdicts
 * go into the rows and the file's answer." Spare rows keep their values. */
vdv_refusal vdv_list(const uint8_t *file, size_t length, vdv_row *rows, size_t room);

/* One value: refused by the first of 1, 2, 24 for the section, the section's
 * verdict, 24 for the record or field. */
vdv_value_answer vdv_value(const uint8_t *file, size_t length, size_t section, size_t record, size_t field);

/* A text's own bytes, doubled quotes undone and the spaces at its end off, and
 * whose it is: refused as its value is, then 11 for a number, a missing one too,
 * then 21. A refused call leaves what is lent as it was; so it is for every call
 * below. */
vdv_text_answer vdv_text(const uint8_t *file, size_t length, size_t section, size_t record, size_t field,
                         uint8_t *out, size_t room);

/* Every value of a section into lent cells, three a value, record after record,
 * the values of each in the order of VDV 452's table whatever the file's: its
 * kind as in enum vdv_kind, then a number's amount and 0, a text's first place and
 * the place after it, or, for a missing number, 0 and 0. Refused as its values
 * are, then 21. The length counts cells. */
vdv_length_answer vdv_table(const uint8_t *file, size_t length, size_t section, uint64_t *cells, size_t room);

/* The written form: the file's verdict, then 21. Its columns stand in the order of
 * VDV 452's tables, and its marks count so; a missing number is an empty field. */
vdv_length_answer vdv_write(const uint8_t *file, size_t length, uint8_t *out, size_t room);

/* The written form with one more suggestion: the file's verdict, 24, 23, 22, for
 * the text, the spaces at its end off, 11 if it is empty, 4, 13 if it is over 40
 * bytes, then 21. */
vdv_length_answer vdv_fill(const uint8_t *file, size_t length, size_t section, size_t record, size_t field,
                           const uint8_t *text, size_t size, uint8_t *out, size_t room);

/* The written form without suggestions. */
vdv_length_answer vdv_strip(const uint8_t *file, size_t length, uint8_t *out, size_t room);

#ifdef __cplusplus
}
#endif

#endif
