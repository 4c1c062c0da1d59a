/*
 * Calls each export through include/qs.h, and checks its answers and what it leaves. The numbers of
 * the Rust side, RUST_..., are defined on the compiler's command line (tests/c.rs).
 */
#include "qs.h"

#include <stdio.h>
#include <string.h>

static int checks = 0;
static int failures = 0;

#define CHECK(holds) check((holds), #holds, __LINE__)

static void check(int holds, const char *what, int line) {
    checks++;
    if (!holds) {
        failures++;
        printf("line %d: %s\n", line, what);
    }
}

/* A string literal as a slice: a pointer and a count. */
#define SLICE(literal) (const uint8_t *)(literal), sizeof(literal) - 1

/* How many elements an array has. */
#define COUNT(array) (sizeof(array) / sizeof *(array))

/* Whether an answer has these words, all of them; it is nothing but words, as many as RUST_..._SIZE says. */
#define IS(answer, ...) \
    (sizeof (const uint32_t[]){__VA_ARGS__} == sizeof(answer) && \
     memcmp(&(answer), (const uint32_t[]){__VA_ARGS__}, sizeof(answer)) == 0)

/* The buffers, filled with something other than zero before each call. */
static uint32_t words[8 * QS_RECORD_WORDS];
static uint8_t text[16];
static uint32_t list[6];
static uint32_t answers[3 * QS_ANSWER_WORDS + 2];
static uint8_t page[2 * QS_SHEET_LINE + 5];
static uint8_t out[24];

/* Records and text as two slices. */
#define LENT words, COUNT(words), text, sizeof text

static void fill(void) {
    memset(words, 7, sizeof words);
    memset(text, 7, sizeof text);
    memset(list, 7, sizeof list);
    memset(answers, 7, sizeof answers);
    memset(page, 7, sizeof page);
    memset(out, 7, sizeof out);
}

static int all(const void *bytes, size_t length, uint8_t byte) {
    const uint8_t *at = bytes;
    while (length > 0 && *at == byte) {
        at++;
        length--;
    }
    return length == 0;
}

static void decode(void) {
    fill();
    CHECK(qs_decode(SLICE("a+%C3%A9"), text, sizeof text) == 4);
    CHECK(memcmp(text, "a \xC3\xA9\x07", 5) == 0);
    fill();
    CHECK(qs_decode(SLICE("abc"), text, 2) == -1);
    CHECK(all(text, sizeof text, 7));
    CHECK(qs_decode(NULL, 0, NULL, 0) == 0);
}

static void utf8(void) {
    CHECK(qs_utf8(SLICE("\xC3\xA9")) == 1);
    CHECK(qs_utf8(SLICE("\xC3")) == 0);
    CHECK(qs_utf8(NULL, 0) == 1);
}

/* The header's numbers are those of the Rust side. Its enumerators are compared in a file that the test makes. */
static void numbers(void) {
    CHECK(strcmp(QS_VERSION, RUST_VERSION) == 0);
    CHECK(QS_RECORD_WORDS == RUST_RECORD_WORDS);
    CHECK(QS_MAX_DEPTH == RUST_MAX_DEPTH);
    CHECK(QS_MAX_INPUT == RUST_MAX_INPUT);
    CHECK(QS_SHEET_LINE == RUST_SHEET_LINE);
    CHECK(QS_ANSWER_WORDS == RUST_ANSWER_WORDS);
    CHECK(sizeof(struct qs_reading) == RUST_READING_SIZE);
    CHECK(sizeof(struct qs_field_read) == RUST_FIELD_READ_SIZE);
    CHECK(sizeof(struct qs_written) == RUST_WRITTEN_SIZE);
    CHECK(QS_WRITE_ROOM(21844) == RUST_WRITE_ROOM && QS_WRITE_ROOM(0) == 2);
    CHECK(QS_WRITE_ROOM(21845) == QS_MAX_INPUT && QS_WRITE_ROOM((size_t)-1) == QS_MAX_INPUT);
}

static void parse(void) {
    static const uint32_t records[2][QS_RECORD_WORDS] = {
        {QS_MAP, QS_NO_KEY, 0, 0, 0, 0, 1, 0},
        {QS_STRING, QS_STRING_KEY, 0, 1, 1, 1, 0, 0},
    };
    struct qs_reading reading;
    fill();
    reading = qs_parse(5, 0, 0, SLICE("a=1"), LENT);
    CHECK(IS(reading, QS_ACCEPTED, 0, 2, 2));
    CHECK(memcmp(words, records, sizeof records) == 0);
    CHECK(all(words + 2 * QS_RECORD_WORDS, sizeof words - sizeof records, 0));
    CHECK(memcmp(text, "a1", 2) == 0 && all(text + 2, sizeof text - 2, 0));
    fill();
    reading = qs_parse(5, 1, 0, SLICE("a%5B"), LENT);
    CHECK(IS(reading, QS_END_AFTER_OPENING, 5, 0, 0));
    CHECK(all(words, sizeof words, 0) && all(text, sizeof text, 0));
    fill();
    reading = qs_parse(QS_MAX_DEPTH + 1, 0, 0, SLICE("a"), LENT);
    CHECK(IS(reading, QS_TOO_DEEP, 0, 0, 0) && all(words, sizeof words, 7) && all(text, sizeof text, 7));
    reading = qs_parse(5, 0, 0, SLICE("a"), words, QS_RECORD_WORDS - 1, text, sizeof text);
    CHECK(IS(reading, QS_NO_RECORD, 0, 0, 0) && all(words, sizeof words, 7) && all(text, sizeof text, 7));
}

static void read_text(void) {
    struct qs_field_read read;
    fill();
    read = qs_text(5, 0, 0, 0, SLICE("w=fog&w=dew"), SLICE("w"), LENT);
    CHECK(IS(read, QS_ACCEPTED, 0, 4, 7, 4, 3) && memcmp(text, "wfogdew", 8) == 0);
    read = qs_text(5, 0, 0, 1, SLICE("w=fog&w=dew"), SLICE("w"), LENT);
    CHECK(IS(read, QS_SEVERAL_VALUES, 0, 4, 7, 0, 0));
    read = qs_text(5, 0, 0, UINT32_MAX, SLICE("w=fog&w=dew"), SLICE("w"), LENT);
    CHECK(IS(read, QS_SEVERAL_VALUES, 0, 4, 7, 0, 0));
    read = qs_text(5, 0, 0, 0, SLICE("1=x"), SLICE("1"), LENT);
    CHECK(IS(read, QS_NO_SUCH_FIELD, 0, 2, 1, 0, 0));
    read = qs_text(5, 0, 0, 0, SLICE("=x"), NULL, 0, LENT);
    CHECK(IS(read, QS_ACCEPTED, 0, 1, 1, 0, 1));
    read = qs_text(5, 0, 0, 0, SLICE("a["), SLICE("a"), LENT);
    CHECK(IS(read, QS_END_AFTER_OPENING, 3, 0, 0, 0, 0));
}

static void read_list(void) {
    static const uint32_t parts[6] = {1, 2, 3, 1, 0, 0};
    struct qs_field_read read;
    fill();
    read = qs_list(5, 0, 0, 0, SLICE("h[]=10&h[]=9"), SLICE("h"), LENT, list, COUNT(list));
    CHECK(IS(read, QS_ACCEPTED, 0, 4, 4, 0, 2));
    CHECK(memcmp(list, parts, sizeof parts) == 0 && memcmp(text, "h109", 5) == 0);
    fill();
    read = qs_list(5, 0, 0, 0, SLICE("h[]=10&h[]=9"), SLICE("h"), LENT, list, 3);
    CHECK(IS(read, QS_SHORT_SLICE, 0, 4, 4, 0, 0));
    CHECK(all(list, 3 * sizeof *list, 0) && all(list + 3, 3 * sizeof *list, 7));
    fill();
    read = qs_list(QS_MAX_DEPTH + 1, 0, 0, 0, SLICE("h"), SLICE("h"), LENT, list, COUNT(list));
    CHECK(IS(read, QS_TOO_DEEP, 0, 0, 0, 0, 0) && all(list, sizeof list, 7));
    read = qs_list(5, 0, 0, 2, SLICE("h[0]=1&h[0]=2"), SLICE("h"), LENT, list, COUNT(list));
    CHECK(IS(read, QS_SEVERAL_VALUES, 0, 5, 3, 0, 0) && all(list, sizeof list, 0));
}

/* Names: w, absent, and w again. */
#define NAMES SLICE("wabsentw")

/* The answers' words, so many of them lent. */
#define ANSWERS(count) answers, (count)

static void read_fields(void) {
    static const uint32_t ends[3] = {1, 7, 8};
    static const uint32_t last[3 * QS_ANSWER_WORDS] = {QS_ACCEPTED, 4, 3, QS_NO_SUCH_FIELD, 0, 0, QS_ACCEPTED, 4, 3};
    static const uint32_t several[3 * QS_ANSWER_WORDS] = {
        QS_SEVERAL_VALUES, 0, 0, QS_NO_SUCH_FIELD, 0, 0, QS_SEVERAL_VALUES, 0, 0,
    };
    struct qs_reading reading;
    fill();
    reading = qs_fields(5, 0, 0, 0, SLICE("w=fog&w=dew"), NAMES, ends, COUNT(ends), LENT, ANSWERS(COUNT(answers)));
    CHECK(IS(reading, QS_ACCEPTED, 0, 4, 7));
    CHECK(memcmp(answers, last, sizeof last) == 0 && all(answers + COUNT(last), sizeof answers - sizeof last, 7));
    CHECK(words[QS_KIND] == QS_MAP && memcmp(text, "wfogdew", 7) == 0 && all(text + 7, sizeof text - 7, 0));
    reading = qs_fields(5, 0, 0, UINT32_MAX, SLICE("w=fog&w=dew"), NAMES, ends, COUNT(ends), LENT,
                        ANSWERS(COUNT(several)));
    CHECK(IS(reading, QS_ACCEPTED, 0, 4, 7) && memcmp(answers, several, sizeof several) == 0);
    fill();
    reading = qs_fields(5, 1, 0, 0, SLICE("a%5B"), NAMES, ends, COUNT(ends), LENT, ANSWERS(COUNT(answers)));
    CHECK(IS(reading, QS_END_AFTER_OPENING, 5, 0, 0));
    CHECK(all(words, sizeof words, 0) && all(text, sizeof text, 0) && all(answers, sizeof answers, 7));
    reading = qs_fields(5, 0, 0, 0, SLICE("w=fog"), NULL, 0, NULL, 0, LENT, NULL, 0);
    CHECK(IS(reading, QS_ACCEPTED, 0, 2, 4) && words[QS_KIND] == QS_MAP && memcmp(text, "wfog", 4) == 0);
    reading = qs_fields(5, 0, 0, 0, NULL, 0, NULL, 0, NULL, 0, words, COUNT(words), NULL, 0, NULL, 0);
    CHECK(IS(reading, QS_ACCEPTED, 0, 1, 0) && words[QS_KIND] == QS_NO_VALUE);
}

/* Wrong ends and short answers come before a depth that is too great, and leave every slice as it was. */
static void refused_names(void) {
    static const uint32_t ends[3] = {1, 7, 8}, falling[3] = {1, 8, 7}, passing[3] = {1, 7, 9};
    static const size_t enough = 3 * QS_ANSWER_WORDS;
    const uint32_t deep = QS_MAX_DEPTH + 1;
    struct qs_reading reading;
    fill();
    reading = qs_fields(deep, 0, 0, 0, SLICE("w["), NAMES, falling, COUNT(falling), LENT, ANSWERS(0));
    CHECK(IS(reading, QS_WRONG_ENDS, 0, 0, 0));
    reading = qs_fields(5, 0, 0, 0, SLICE("w=fog"), NAMES, passing, COUNT(passing), LENT, ANSWERS(COUNT(answers)));
    CHECK(IS(reading, QS_WRONG_ENDS, 0, 0, 0));
    reading = qs_fields(deep, 0, 0, 0, SLICE("w["), NAMES, ends, COUNT(ends), LENT, ANSWERS(enough - 1));
    CHECK(IS(reading, QS_SHORT_ANSWERS, 0, 0, 0));
    reading = qs_fields(deep, 0, 0, 0, SLICE("w["), NAMES, ends, COUNT(ends), LENT, ANSWERS(enough));
    CHECK(IS(reading, QS_TOO_DEEP, 0, 0, 0));
    CHECK(all(words, sizeof words, 7) && all(text, sizeof text, 7) && all(answers, sizeof answers, 7));
}

static void sheet(void) {
    static const size_t two_lines = 2 * QS_SHEET_LINE;
    char lines[2 * QS_SHEET_LINE + 1];
    struct qs_reading reading;
    snprintf(lines, sizeof lines, "%-72s\n%-72s\n", "  0       map", "  1     1 stri a                         1");
    fill();
    reading = qs_sheet(5, 0, 0, SLICE("a=1"), LENT, page, sizeof page);
    CHECK(IS(reading, QS_ACCEPTED, 0, 2, 2));
    CHECK(memcmp(page, lines, two_lines) == 0 && all(page + two_lines, sizeof page - two_lines, 7));
    CHECK(memcmp(text, "a1", 2) == 0 && all(text + 2, sizeof text - 2, 0));
    fill();
    reading = qs_sheet(5, 0, 0, SLICE("a=1"), LENT, page, two_lines - 1);
    CHECK(IS(reading, QS_SHORT_PAGE, 0, 2, 2) && memcmp(text, "a1", 2) == 0 && all(page, sizeof page, 7));
    CHECK(words[QS_KIND] == QS_MAP && words[QS_RECORD_WORDS + QS_KIND] == QS_STRING);
    reading = qs_sheet(5, 0, 0, NULL, 0, words, COUNT(words), NULL, 0, NULL, 0);
    CHECK(IS(reading, QS_SHORT_PAGE, 0, 1, 0));
    reading = qs_sheet(5, 0, 0, NULL, 0, words, COUNT(words), NULL, 0, page, QS_SHEET_LINE);
    snprintf(lines, sizeof lines, "%-72s\n", "  0       nova");
    CHECK(IS(reading, QS_ACCEPTED, 0, 1, 0) && memcmp(page, lines, QS_SHEET_LINE) == 0);
    fill();
    reading = qs_sheet(5, 1, 0, SLICE("a%5B"), LENT, page, sizeof page);
    CHECK(IS(reading, QS_END_AFTER_OPENING, 5, 0, 0) && all(page, sizeof page, 7));
    reading = qs_sheet(QS_MAX_DEPTH + 1, 0, 0, SLICE("a"), LENT, NULL, 0);
    CHECK(IS(reading, QS_TOO_DEEP, 0, 0, 0));
}

/* Where form isn't 0, whatever it is, `a%5B%5D=` is a sequence of one. */
static void write_ticket(void) {
    static const uint32_t flags[3] = {1, 256, UINT32_MAX};
    struct qs_written written;
    size_t i;
    for (i = 0; i < COUNT(flags); i++) {
        fill();
        written = qs_write(5, flags[i], 0, SLICE("a%5B%5D="), LENT, out, sizeof out);
        CHECK(IS(written, QS_ACCEPTED, 0, 3, 1, 4) && memcmp(out, "a[]=\x07", 5) == 0);
    }
    written = qs_write(5, 0, 0, SLICE("a%5B%5D="), LENT, out, sizeof out);
    CHECK(IS(written, QS_ACCEPTED, 0, 2, 3, 8) && memcmp(out, "a%5b%5d=\x07", 9) == 0);
    fill();
    written = qs_write(5, 0, 0, SLICE("b=%2B&a=1&a="), LENT, out, sizeof out);
    CHECK(IS(written, QS_ACCEPTED, 0, 5, 4, 16));
    CHECK(memcmp(out, "a[]=1&a[]=&b=%2b", 16) == 0 && all(out + 16, sizeof out - 16, 7));
    CHECK(words[QS_KIND] == QS_MAP && memcmp(text, "b+a1", 4) == 0 && all(text + 4, sizeof text - 4, 0));
    written = qs_write(5, 0, 0, NULL, 0, words, COUNT(words), NULL, 0, NULL, 0);
    CHECK(IS(written, QS_ACCEPTED, 0, 1, 0, 0) && words[QS_KIND] == QS_NO_VALUE);
}

static void refused_writing(void) {
    struct qs_written written;
    fill();
    written = qs_write(5, 0, 0, SLICE("b=%2B&a=1&a="), LENT, out, 15);
    CHECK(IS(written, QS_SHORT_OUTPUT, 0, 5, 4, 0) && all(out, sizeof out, 7));
    CHECK(words[QS_KIND] == QS_MAP && memcmp(text, "b+a1", 4) == 0 && all(text + 4, sizeof text - 4, 0));
    written = qs_write(5, 0, 0, SLICE("&"), words, COUNT(words), NULL, 0, NULL, 0);
    CHECK(IS(written, QS_SHORT_OUTPUT, 0, 1, 0, 0));
    fill();
    written = qs_write(5, 1, 0, SLICE("a%5B"), LENT, out, sizeof out);
    CHECK(IS(written, QS_END_AFTER_OPENING, 5, 0, 0, 0));
    CHECK(all(words, sizeof words, 0) && all(text, sizeof text, 0) && all(out, sizeof out, 7));
    fill();
    written = qs_write(QS_MAX_DEPTH + 1, 0, 0, SLICE("a"), LENT, out, sizeof out);
    CHECK(IS(written, QS_TOO_DEEP, 0, 0, 0, 0));
    CHECK(all(words, sizeof words, 7) && all(text, sizeof text, 7) && all(out, sizeof out, 7));
}

/* Where zeros isn't 0, whatever it is, the `07` of each reading is a name. */
static void zeros(void) {
    static const uint32_t flags[4] = {0, 1, 256, UINT32_MAX}, ends[1] = {2};
    size_t i;
    for (i = 0; i < COUNT(flags); i++) {
        const uint32_t on = flags[i] != 0, bytes = on ? 3 : 1, number = on ? QS_ACCEPTED : QS_NO_SUCH_FIELD;
        const uint32_t *const child = words + QS_RECORD_WORDS;
        struct qs_reading reading;
        struct qs_field_read read;
        struct qs_written written;
        reading = qs_parse(5, 0, flags[i], SLICE("07=x"), LENT);
        CHECK(IS(reading, QS_ACCEPTED, 0, 2, bytes));
        CHECK(child[QS_KEY_KIND] == (on ? QS_STRING_KEY : QS_INT_KEY) && child[QS_KEY] == (on ? 0 : 7));
        read = qs_text(5, 0, flags[i], 0, SLICE("07=x"), SLICE("07"), LENT);
        CHECK(IS(read, number, 0, 2, bytes, 2 * on, on));
        read = qs_list(5, 0, flags[i], 0, SLICE("07=x"), SLICE("07"), LENT, list, COUNT(list));
        CHECK(IS(read, number, 0, 2, bytes, 0, on) && list[0] == 2 * on);
        reading = qs_fields(5, 0, flags[i], 0, SLICE("07=x"), SLICE("07"), ends, COUNT(ends), LENT, ANSWERS(3));
        CHECK(IS(reading, QS_ACCEPTED, 0, 2, bytes) && answers[0] == number && answers[2] == on);
        reading = qs_sheet(5, 0, flags[i], SLICE("07=x"), LENT, page, sizeof page);
        CHECK(IS(reading, QS_ACCEPTED, 0, 2, bytes));
        CHECK(memcmp(page + QS_SHEET_LINE + 15, on ? "07 " : "7  ", 3) == 0);
        written = qs_write(5, 0, flags[i], SLICE("07=x"), LENT, out, sizeof out);
        CHECK(IS(written, QS_ACCEPTED, 0, 2, bytes, 3 + on) && memcmp(out, on ? "07=x" : "7=x", 3 + on) == 0);
    }
}

int main(void) {
    numbers();
    decode();
    utf8();
    parse();
    read_text();
    read_list();
    read_fields();
    refused_names();
    sheet();
    write_ticket();
    refused_writing();
    zeros();
    printf("%d checks, %d failed\n", checks, failures);
    return failures > 0;
}
