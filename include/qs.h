/*
 * The library qs: reads bracketed query strings into buffers that the caller lends.
 *
 * Every call ends on every input and allocates nothing. A slice is a pointer and a count of its
 * elements; an empty one may be null. Slices that a call writes to must not overlap with each other
 * or with those that it reads.
 */
#ifndef QS_H
#define QS_H

#include <stddef.h>
#include <stdint.h>

/* The version of this header and of the library libqs.a that it is for. */
#define QS_VERSION "0.1.0"

/* The most that brackets may nest, and the most bytes of an input. */
#define QS_MAX_DEPTH 64
#define QS_MAX_INPUT 65535
/* The words of a record. For n bytes of input, n + 1 records and n bytes of text always suffice. */
#define QS_RECORD_WORDS 8
/* The bytes of a sheet's line: 72 characters and a newline. */
#define QS_SHEET_LINE 73
/* The words of a name's answer: number, offset and length. */
#define QS_ANSWER_WORDS 3
/* The bytes of output that suffice for whatever qs_write can write of n bytes of input. */
#define QS_WRITE_ROOM(n) ((n) < QS_MAX_INPUT / 3 ? 3 * (n) + 2 : QS_MAX_INPUT)

/*
 * The numbers that a call answers; the first one met stands. Those met before the first byte come
 * with place 0 and untouched buffers: QS_WRONG_ENDS and QS_SHORT_ANSWERS, and then QS_TOO_DEEP to
 * QS_NO_RECORD. 27 and 28 are kept for calls to come.
 */
enum qs_number {
    QS_ACCEPTED = 0,

    /* Of a reading before its first byte. */
    QS_TOO_DEEP = 1,  /* depth above QS_MAX_DEPTH */
    QS_TOO_LONG = 2,  /* input above QS_MAX_INPUT */
    QS_NO_RECORD = 3, /* fewer words lent than one record has */

    /* Of a reading at the byte that its place tells. */
    QS_END_AFTER_OPENING = 4,       /* the end straight after an open bracket */
    QS_END_BEFORE_CLOSING = 5,      /* the end before the closing bracket */
    QS_SEQUENCE_ON_MAP = 6,         /* `[]` on a map */
    QS_SEQUENCE_ON_SINGLE = 7,      /* `[]` on a single value */
    QS_MAP_ON_SEQUENCE = 8,         /* a map needed on a sequence */
    QS_MAP_ON_STRING = 9,           /* a map needed on a string */
    QS_MAP_ON_NULL = 10,            /* a map needed on null or no value */
    QS_BYTE_AFTER_KEY = 11,         /* another byte after `]` */
    QS_OPENING_AFTER_BRACKETS = 12, /* `[` after `[]` */
    QS_BYTE_AFTER_BRACKETS = 13,    /* another byte after `[]` */
    QS_TOO_FEW_RECORDS = 14,        /* the records lent don't suffice */
    QS_TOO_LITTLE_TEXT = 15,        /* the text lent doesn't suffice */

    /*
     * Of a field read once the reading is accepted, with place 0. They are met in this order: the
     * root, the field, its kind and the words lent for a list, and then at each element's turn its
     * index, its kind, several values and UTF-8; a text is read as an element without an index.
     */
    QS_WRONG_ROOT = 16,     /* the root is a sequence or uninitialized */
    QS_NO_SUCH_FIELD = 17,  /* the root has no field of that name */
    QS_WRONG_KIND = 18,     /* the field or the element is of the wrong kind */
    QS_SEVERAL_VALUES = 19, /* several values for one text */
    QS_MISSING_INDEX = 20,  /* the list lacks an index before this element */
    QS_NOT_UTF8 = 21,       /* the text is not UTF-8 */
    QS_SHORT_SLICE = 22,    /* fewer than two words lent for each element of a list */

    /* Of a sheet once the reading is accepted, with place 0. */
    QS_SHORT_PAGE = 23, /* a page of fewer than QS_SHEET_LINE bytes for each record used */

    /* Of a list of names before anything is read, also before QS_TOO_DEEP. */
    QS_WRONG_ENDS = 24,    /* an end of a name below the one before it or above the names' length */
    QS_SHORT_ANSWERS = 25, /* fewer than QS_ANSWER_WORDS words lent for each name's answer */

    /* Of a writing once the reading is accepted, with place 0. */
    QS_SHORT_OUTPUT = 26 /* a ticket of more bytes than the output holds or than QS_MAX_INPUT */
};

/* The words of a record. Record 0 is the root. */
enum qs_word {
    QS_KIND = 0,     /* what the value is: an enum qs_kind */
    QS_KEY_KIND = 1, /* what its key is: an enum qs_key_kind */
    QS_KEY = 2,      /* the integer, or the offset of the key in text */
    QS_KEY_LEN = 3,  /* the key's length in text */
    QS_TEXT = 4,     /* the offset of a string in text */
    QS_TEXT_LEN = 5, /* the string's length in text */
    QS_CHILD = 6,    /* the record of the first child; 0 for none */
    QS_NEXT = 7      /* the record of the next sibling; 0 for none */
};

/* What a value is. */
enum qs_kind {
    QS_UNINITIALIZED = 0, /* still open, as the root of `&` */
    QS_MAP = 1,           /* its children have keys */
    QS_SEQUENCE = 2,      /* its children have none */
    QS_STRING = 3,        /* its bytes stand in text */
    QS_NULL = 4,          /* an empty value, as in `a=` */
    QS_NO_VALUE = 5       /* no value, as in `a` */
};

/* What a key is. */
enum qs_key_kind {
    QS_NO_KEY = 0,
    QS_INT_KEY = 1,
    QS_STRING_KEY = 2
};

#ifdef __cplusplus
extern "C" {
#endif

/* What a reading answers. */
struct qs_reading {
    /*
     * QS_ACCEPTED or the refusal's number: QS_TOO_DEEP to QS_TOO_LITTLE_TEXT, of qs_sheet also
     * QS_SHORT_PAGE, of qs_fields also QS_WRONG_ENDS or QS_SHORT_ANSWERS.
     */
    uint32_t number;
    /*
     * Where QS_END_AFTER_OPENING to QS_TOO_LITTLE_TEXT were met: the bytes taken, the end counted
     * as one; else 0.
     */
    uint32_t place;
    /* What is used; both are 0 under every number but QS_ACCEPTED and QS_SHORT_PAGE. */
    uint32_t records;
    uint32_t bytes;
};

/* What a field read answers: the reading's answer, and the field. */
struct qs_field_read {
    /* As of a reading, or QS_WRONG_ROOT to QS_SHORT_SLICE with place 0 and the reading's counts. */
    uint32_t number;
    uint32_t place;
    uint32_t records;
    uint32_t bytes;
    /* Both are 0 under every number but QS_ACCEPTED. */
    uint32_t offset; /* qs_text: where the field's bytes start in text; qs_list: 0 */
    uint32_t length; /* qs_text: how many bytes; qs_list: how many elements */
};

/* What a writing answers: the reading's answer, and the written ticket's length. */
struct qs_written {
    /* As of a reading, or QS_SHORT_OUTPUT with place 0 and the reading's counts. */
    uint32_t number;
    uint32_t place;
    uint32_t records;
    uint32_t bytes;
    uint32_t length; /* the bytes of the written ticket; 0 under every number but QS_ACCEPTED */
};

/*
 * Decodes a raw segment into out: '+' becomes a space, '%' with two hex digits that byte; a '%'
 * that starts no escape stays. Answers the decoded length, at most raw_len, and leaves the rest of
 * out as it was. Where the decoded bytes don't fit it answers -1, and out is unchanged.
 */
int64_t qs_decode(const uint8_t *raw, size_t raw_len, uint8_t *out, size_t out_len);

/* 1 if the bytes are well-formed UTF-8 (RFC 3629), else 0. It changes nothing. */
int32_t qs_utf8(const uint8_t *bytes, size_t bytes_len);

/*
 * Reads a query string into records of QS_RECORD_WORDS words, and text; records_len counts words,
 * not records. Brackets nest to depth; where form isn't 0, %5B and %5D are taken as brackets. Where
 * zeros isn't 0, zeros in front of a number count: 07 is a string key then, another than 7; 0 alone
 * stays an integer. What an accepted reading doesn't use is zero. QS_TOO_DEEP to QS_NO_RECORD leave
 * both buffers as they were, and the later refusals zero them.
 */
struct qs_reading qs_parse(uint32_t depth, uint32_t form, uint32_t zeros,
                           const uint8_t *input, size_t input_len,
                           uint32_t *records, size_t records_len, uint8_t *text, size_t text_len);

/*
 * Reads a query string as qs_parse does, and then the text of the root's field of that name; an Int
 * key has no name. Of several values it takes the last where duplicates is 0, and else refuses. The
 * text is UTF-8.
 */
struct qs_field_read qs_text(uint32_t depth, uint32_t form, uint32_t zeros, uint32_t duplicates,
                             const uint8_t *input, size_t input_len,
                             const uint8_t *name, size_t name_len,
                             uint32_t *records, size_t records_len, uint8_t *text, size_t text_len);

/*
 * As qs_text, for a field that is a list: each element is read as a text, and its offset and length
 * in text are written into list, two words an element in order. What list has beyond them is zero.
 * QS_TOO_DEEP to QS_NO_RECORD leave list as it was, and the later refusals zero it.
 */
struct qs_field_read qs_list(uint32_t depth, uint32_t form, uint32_t zeros, uint32_t duplicates,
                             const uint8_t *input, size_t input_len,
                             const uint8_t *name, size_t name_len,
                             uint32_t *records, size_t records_len, uint8_t *text, size_t text_len,
                             uint32_t *list, size_t list_len);

/*
 * Reads a query string once, as qs_parse does, and then the text of the root's field of each name,
 * as qs_text does. The names lie end to end in names, the first from 0, and ends has the end of
 * each; equal ends are an empty name, and the last end may be below names_len. The answers are
 * written into answers in the order of the names, QS_ANSWER_WORDS words each: number, offset and
 * length as qs_text of that name answers them, QS_WRONG_ROOT to QS_NOT_UTF8 with two zeros. The
 * call's own number is QS_ACCEPTED once the reading is accepted, whatever the answers are. The rest
 * of answers stays as it was, and all of it does under every number but QS_ACCEPTED. QS_WRONG_ENDS
 * and QS_SHORT_ANSWERS leave records and text as they were too.
 */
struct qs_reading qs_fields(uint32_t depth, uint32_t form, uint32_t zeros, uint32_t duplicates,
                            const uint8_t *input, size_t input_len,
                            const uint8_t *names, size_t names_len,
                            const uint32_t *ends, size_t ends_len,
                            uint32_t *records, size_t records_len, uint8_t *text, size_t text_len,
                            uint32_t *answers, size_t answers_len);

/*
 * Reads a query string as qs_parse does, and then writes the sheet of its tree into page: a line of
 * QS_SHEET_LINE bytes for each record used, parent before children, the root first. Columns 1 to 3
 * hold the level and 5 to 9 a string's length, both right-aligned, 11 to 14 the kind (map, sequ,
 * stri, null, nova or unin), 16 to 40 the key and 42 to 72 the text; what doesn't fit ends in '>',
 * and a byte outside 33 to 126 shows as '.'. The rest of page stays as it was, and all of it does
 * under every number but QS_ACCEPTED.
 */
struct qs_reading qs_sheet(uint32_t depth, uint32_t form, uint32_t zeros,
                           const uint8_t *input, size_t input_len,
                           uint32_t *records, size_t records_len, uint8_t *text, size_t text_len,
                           uint8_t *page, size_t page_len);

/*
 * Reads a query string as qs_parse does, and then writes its tree into out as a query string again:
 * read at the same depth, form and zeros with as many records and as much text as are used, it
 * gives that tree. It has one pair for each single value, an '&' between two, in the order of keys
 * but an empty key last in its map; of an uninitialized root it is a lone '&', and of an empty
 * input it is empty. A space is written as '+'. The bytes %+&=[] are written as lower-case escapes,
 * and so is the first digit of a string key that would be read as an integer; a key that has the
 * brackets past the depth in it keeps its first '['. Other bytes stand as they are. The rest of out
 * stays as it was, and all of it does under every number but QS_ACCEPTED. QS_SHORT_OUTPUT leaves
 * records and text as the reading left them.
 */
struct qs_written qs_write(uint32_t depth, uint32_t form, uint32_t zeros,
                           const uint8_t *input, size_t input_len,
                           uint32_t *records, size_t records_len, uint8_t *text, size_t text_len,
                           uint8_t *out, size_t out_len);

#ifdef __cplusplus
}
#endif

#endif
