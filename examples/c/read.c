/*
 * Reads a ticket and prints its tree, a line for each value, or says with which number and where it
 * is refused. Once the library is built (./library.sh), at the repository's top:
 *
 *   cc -Iinclude examples/c/read.c target/staticlib/libqs.a -o target/read
 *   target/read 'plate[0][page]=4&caption=Fog+at+dawn'
 *
 * Exit status: 0, the ticket was read; 1, it was refused.
 */
#include <qs.h>

#include <stdio.h>
#include <string.h>

/* Room for every ticket of so many bytes. A longer one is read too where it fits, or refused. */
#define LONGEST 4096
static uint32_t records[QS_RECORD_WORDS * (LONGEST + 1)];
static uint8_t text[LONGEST];

/* Bytes of the text in quotes; what a terminal would obey is shown as \x1b and the like. */
static void print_text(uint32_t offset, uint32_t length) {
    const uint8_t *bytes = text + offset;
    uint32_t i;
    putchar('"');
    for (i = 0; i < length; i++) {
        if (bytes[i] >= ' ' && bytes[i] <= '~' && bytes[i] != '"' && bytes[i] != '\\') {
            putchar(bytes[i]);
        } else {
            printf("\\x%02x", bytes[i]);
        }
    }
    putchar('"');
}

static void print_key(const uint32_t *record) {
    if (record[QS_KEY_KIND] == QS_INT_KEY) {
        printf("%lu: ", (unsigned long)record[QS_KEY]);
    } else if (record[QS_KEY_KIND] == QS_STRING_KEY) {
        print_text(record[QS_KEY], record[QS_KEY_LEN]);
        printf(": ");
    }
}

static void print_value(const uint32_t *record) {
    static const char *const kinds[] = {
        [QS_UNINITIALIZED] = "uninitialized",
        [QS_MAP] = "map",
        [QS_SEQUENCE] = "sequence",
        [QS_NULL] = "null",
        [QS_NO_VALUE] = "no value",
    };
    if (record[QS_KIND] == QS_STRING) {
        print_text(record[QS_TEXT], record[QS_TEXT_LEN]);
    } else {
        printf("%s", kinds[record[QS_KIND]]);
    }
}

/* A record's line and then those of its children, each level two columns further in. */
static void print_tree(uint32_t number, int level) {
    const uint32_t *record = records + (size_t)QS_RECORD_WORDS * number;
    uint32_t child;
    printf("%*s", 2 * level, "");
    print_key(record);
    print_value(record);
    putchar('\n');
    for (child = record[QS_CHILD]; child != 0; child = records[QS_RECORD_WORDS * child + QS_NEXT]) {
        print_tree(child, level + 1);
    }
}

int main(int count, char **arguments) {
    const char *ticket = count > 1 ? arguments[1] : "plate[0][page]=4&caption=Fog+at+dawn";
    /* Brackets nest to 5, %5B and %5D are no brackets, and 07 is the same key as 7. */
    struct qs_reading reading = qs_parse(5, 0, 0, (const uint8_t *)ticket, strlen(ticket), records,
                                         sizeof records / sizeof *records, text, sizeof text);
    if (reading.number != QS_ACCEPTED) {
        fprintf(stderr, "refused: number %lu at place %lu\n", (unsigned long)reading.number,
                (unsigned long)reading.place);
        return 1;
    }
    print_tree(0, 0);
    return 0;
}
