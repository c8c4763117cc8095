/*
 * Checks of the second reader and writer of schedules as text, each worked out
 * by hand: lines that are taken, every refusal, which of two goes first, and
 * what stays of the output.  Prints what fails; exit status 1 then.
 */
#include "check.h"
#include "text.h"

#include <string.h>

enum {
    FILL = 0xA5, /* the output's bytes before a call; neither text nor a mark */
    UNWRITTEN = 77,
    MOST_TEXT = MAX_LINE * (MAX_LINES + 1),
    MOST_BYTES = ENTRY_BYTES * (MAX_ENTRIES + 1)
};

typedef uint32_t converter(const uint8_t *, size_t, uint8_t *, size_t, size_t *);

static uint8_t output[MOST_TEXT + 1];

/* Whether all of the output from a place on is as it was. */
static bool untouched_from(size_t place)
{
    for (size_t i = place; i < sizeof output; i++)
        if (output[i] != FILL)
            return false;
    return true;
}

/* The result of one call, with the output all FILL before it. */
static uint32_t convert(converter *f, const void *input, size_t length,
                        size_t room, size_t *written)
{
    *written = UNWRITTEN;
    memset(output, FILL, sizeof output);
    return f(input, length, output, room, written);
}

/* A call that is accepted and gives these bytes, and no other byte changes. */
static bool gives(converter *f, const void *input, size_t length, size_t room,
                  const void *due, size_t due_length)
{
    size_t written;
    uint32_t result = convert(f, input, length, room, &written);

    return result == 0 && written == due_length &&
           memcmp(output, due, due_length) == 0 && untouched_from(due_length);
}

/* A call that is refused and changes nothing. */
static bool refuses(converter *f, const void *input, size_t length, size_t room,
                    uint32_t refusal)
{
    size_t written;
    uint32_t result = convert(f, input, length, room, &written);

    return result == refusal && written == UNWRITTEN && untouched_from(0);
}

/* A text of one line that stands for this entry, in both directions. */
static bool stands_for(const char *line, uint8_t task, uint8_t kind, uint8_t cell,
                       uint8_t b0, uint8_t b1, uint8_t b2, uint8_t b3)
{
    const uint8_t entry[] = { 0x45, 0x4E, task, kind, cell, 0, b0, b1, b2, b3 };
    size_t length = strlen(line);

    return gives(text_import, line, length, ENTRY_BYTES, entry, sizeof entry) &&
           gives(text_export, entry, sizeof entry, length, line, length);
}

/* A text whose import is refused, with room for every line that it could have. */
static bool bad_text(const char *text, uint32_t refusal)
{
    return refuses(text_import, text, strlen(text), sizeof output, refusal);
}

#define BAD(text) CHECK(bad_text((text), 30))
#define LARGE(text) CHECK(bad_text((text), 31))

static void check_good_lines(void)
{
    CHECK(gives(text_import, "", 0, 0, "", 0));
    CHECK(gives(text_export, "", 0, 0, "", 0));
    CHECK(gives(text_import, "", 0, 5, "", 0));
    CHECK(stands_for("0,0,0,0\n", 0, 0, 0, 0, 0, 0, 0));
    CHECK(stands_for("1,2,3,4\n", 1, 2, 3, 4, 0, 0, 0));
    CHECK(stands_for("9,10,99,100\n", 9, 10, 99, 100, 0, 0, 0));
    CHECK(stands_for("100,199,200,255\n", 100, 199, 200, 255, 0, 0, 0));
    CHECK(stands_for("255,255,255,256\n", 255, 255, 255, 0, 1, 0, 0));
    CHECK(stands_for("0,0,0,65535\n", 0, 0, 0, 0xFF, 0xFF, 0, 0));
    CHECK(stands_for("0,0,0,65536\n", 0, 0, 0, 0, 0, 1, 0));
    CHECK(stands_for("0,0,0,16909060\n", 0, 0, 0, 4, 3, 2, 1));
    CHECK(stands_for("0,0,0,2147483648\n", 0, 0, 0, 0, 0, 0, 0x80));
    CHECK(stands_for("0,0,0,999999999\n", 0, 0, 0, 0xFF, 0xC9, 0x9A, 0x3B));
    CHECK(stands_for("0,0,0,1000000000\n", 0, 0, 0, 0, 0xCA, 0x9A, 0x3B));
    CHECK(stands_for("0,0,0,4294967295\n", 0, 0, 0, 0xFF, 0xFF, 0xFF, 0xFF));
}

/* What is no line of four numbers. */
static void check_bad_form(void)
{
    BAD("\n");
    BAD("0\n");
    BAD("0,0\n");
    BAD("0,0,0\n");
    BAD("0,0,0,\n");
    BAD("0,0,0,0,\n");
    BAD("0,0,0,0,0\n");
    BAD(",0,0,0\n");
    BAD(",0,0,0,0\n");
    BAD("0,,0,0\n");
    BAD("0,0,,0,0\n");
    BAD(",,,\n");
    BAD("00,0,0,0\n");
    BAD("0,00,0,0\n");
    BAD("0,0,00,0\n");
    BAD("0,0,0,00\n");
    BAD("01,0,0,0\n");
    BAD("0,0,0,01\n");
    BAD("0,0,0,0000000001\n");
    BAD("-1,0,0,0\n");
    BAD("0,0,0,-1\n");
    BAD("-0,0,0,0\n");
    BAD("+1,0,0,0\n");
    BAD("0,0,0,+1\n");
    BAD(" 1,0,0,0\n");
    BAD("1 ,0,0,0\n");
    BAD("1, 0,0,0\n");
    BAD("1,0,0,0 \n");
    BAD("1 1,0,0,0\n");
    BAD("\t1,0,0,0\n");
    BAD("1,\t0,0,0\n");
    BAD("1,0,0,0\t\n");
    BAD("0,0,0,0\r\n");
    BAD("0,0,0,0\n\r");
    BAD("\r\n");
    BAD(" \n");
    BAD("0;0;0;0\n");
    BAD("0.0.0.0\n");
    BAD("0 0 0 0\n");
    BAD("a,0,0,0\n");
    BAD("0,0,0,x\n");
    BAD("0,0,0,0x10\n");
    BAD("0,0,0,1e3\n");
    BAD("0,0,0,1.0\n");
    BAD("load\n");
    BAD("/,0,0,0\n"); /* 0x2F and 0x3A, on either side of the digits */
    BAD("0,0,0,/\n");
    BAD(":,0,0,0\n");
    BAD("0,0,0,:\n");
    BAD("1/,0,0,0\n");
    BAD("1:,0,0,0\n");
    BAD("0,0,0,1:\n");
    BAD("\xB0,0,0,0\n"); /* a digit with its highest bit set */
    BAD("0,0,0,1\xB1\n");
    BAD("\xEF\xBB\xBF" "0,0,0,0\n");
    CHECK(refuses(text_import, "\0,0,0,0\n", 8, ENTRY_BYTES, 30));
    CHECK(refuses(text_import, "0,0,0,0\0\n", 9, ENTRY_BYTES, 30));
    CHECK(refuses(text_import, "0,0\0,0,0\n", 9, ENTRY_BYTES, 30));
    CHECK(refuses(text_import, "0,0,0,0\n\0", 9, ENTRY_BYTES, 30));
    CHECK(refuses(text_import, "\0", 1, ENTRY_BYTES, 30));
}

/* Lines that lack their newline, or have one too many. */
static void check_newlines(void)
{
    BAD("0");
    BAD(",");
    BAD("0,0,0");
    BAD("0,0,0,0");
    BAD("0,0,0,0\n0,0,0,0");
    BAD("0,0,0,0\n0");
    BAD("\n0,0,0,0\n");
    BAD("0,0,0,0\n\n");
    BAD("0,0,0,0\n\n0,0,0,0\n");
    BAD("0,0\n0,0\n");
    BAD("0,0,0,0,0,0,0,0\n");
    BAD("0,0,0,00,0,0,0\n");
    /* a whole line stands behind the end, and is not looked at */
    CHECK(refuses(text_import, "0,0,0,0\n", 7, ENTRY_BYTES, 30));
    CHECK(gives(text_import, "0,0,0,0\n", 0, ENTRY_BYTES, "", 0));
}

#define FIFTY "12345678901234567890123456789012345678901234567890"

static void check_sizes(void)
{
    LARGE("256,0,0,0\n");
    LARGE("0,256,0,0\n");
    LARGE("0,0,256,0\n");
    LARGE("0,0,0,4294967296\n");
    LARGE("300,0,0,0\n");
    LARGE("999,0,0,0\n");
    LARGE("0,1000,0,0\n");
    LARGE("0,0,65536,0\n");      /* 0 where only 16 bits are kept, */
    LARGE("4294967296,0,0,0\n"); /* 32 */
    LARGE("18446744073709551616,0,0,0\n"); /* or 64 */
    LARGE("0,0,0,4294967297\n");
    LARGE("0,0,0,9999999999\n");
    LARGE("0,0,0,10000000000\n");
    LARGE("0,0,0,18446744073709551615\n");
    LARGE("0,0,0,18446744073709551616\n");
    LARGE("0,0,0,18446744073709551617\n");
    LARGE("0,0,0,340282366920938463463374607431768211456\n");
    LARGE(FIFTY ",0,0,0\n");
    LARGE("0," FIFTY ",0,0\n");
    LARGE("0,0," FIFTY ",0\n");
    LARGE("0,0,0," FIFTY "\n");
    LARGE("256,256,256,4294967296\n");
    LARGE("0,0,0,0\n0,0,0,4294967296\n");
}

/* Form before size in one line; of two lines the earlier decides. */
static void check_line_order(void)
{
    BAD("256,0,0\n");
    BAD("256,0,0,00\n");
    BAD("256,0,0,0,0\n");
    BAD("256,0,0,-1\n");
    BAD("0256,0,0,0\n");
    BAD("00,0,0,4294967296\n");
    BAD("0,0,0,4294967296x\n");
    BAD("0,0,0,0" FIFTY "\n");
    BAD("256,0,0,0");
    BAD("0,0,0," FIFTY);
    BAD("0,0,0,0\n256,0,0,0");
    BAD("x\n256,0,0,0\n");
    BAD("\n256,0,0,0\n");
    LARGE("256,0,0,0\nx\n");
    LARGE("256,0,0,0\n\n");
    LARGE("256,0,0,0\n256");
    LARGE("0,0,0,0\n0,256,0,0\n0,0,00,0\n");
    BAD("0,0,0,0\n0,0,00,0\n0,256,0,0\n");
}

/* Bytes with a mark and zeros around: task 1, kind 2, cell 3, value 4. */
static const uint8_t TWO[] = {
    0x45, 0x4E, 1, 2, 3, 0, 4, 0, 0, 0,
    0x45, 0x4E, 250, 251, 252, 0, 253, 254, 255, 0
};

static const char TWO_LINES[] = "1,2,3,4\n250,251,252,16776957\n";

/* Both entries with one byte set to another value, or with two, and how many
 * bytes of them are handed over. */
static const struct bad_entries {
    const char *what;
    uint8_t at, byte, other, other_byte, length, refusal;
} BAD_ENTRIES[] = {
    { "first byte of the mark", 0, 0x44, 0, 0x44, 20, 19 },
    { "second byte of the mark", 1, 0x4F, 1, 0x4F, 20, 19 },
    { "the mark's bytes exchanged", 0, 0x4E, 1, 0x45, 20, 19 },
    { "a reply's mark", 0, 0x41, 0, 0x41, 20, 19 },
    { "a setup's mark", 0, 0x53, 1, 0x55, 20, 19 },
    { "first byte of the second mark", 10, 0, 10, 0, 20, 19 },
    { "second byte of the second mark", 11, 0, 11, 0, 20, 19 },
    { "sixth byte 1", 5, 1, 5, 1, 20, 15 },
    { "sixth byte 0x80", 5, 0x80, 5, 0x80, 20, 15 },
    { "second entry's sixth byte", 15, 0xFF, 15, 0xFF, 20, 15 },
    /* of one entry: cut, then the mark, then the sixth byte */
    { "mark before the sixth byte", 0, 0, 5, 1, 20, 19 },
    { "the same in the second entry", 11, 0, 15, 1, 20, 19 },
    { "a byte short, before both", 10, 0, 15, 1, 19, 20 },
    { "one byte alone, before its mark", 10, 0, 11, 0, 11, 20 },
    /* of two entries: the earlier */
    { "sixth byte, then a mark", 5, 1, 10, 0, 20, 15 },
    { "mark, then a sixth byte", 0, 0, 15, 1, 20, 19 },
    { "sixth byte, then a cut entry", 5, 1, 5, 1, 19, 15 },
    { "mark, then a cut entry", 0, 0, 0, 0, 11, 19 },
};

static void check_bad_entries(void)
{
    for (size_t length = 1; length < sizeof TWO; length++)
        if (length != ENTRY_BYTES)
            CHECK(refuses(text_export, TWO, length, sizeof output, 20));

    for (size_t i = 0; i < sizeof BAD_ENTRIES / sizeof BAD_ENTRIES[0]; i++) {
        const struct bad_entries *bad = &BAD_ENTRIES[i];
        uint8_t entries[sizeof TWO];

        memcpy(entries, TWO, sizeof entries);
        entries[bad->at] = bad->byte;
        entries[bad->other] = bad->other_byte;
        check(refuses(text_export, entries, bad->length, sizeof output, bad->refusal),
              bad->what, __LINE__);
    }
}

static void check_rooms(void)
{
    size_t lines = strlen(TWO_LINES);

    for (size_t room = 0; room < sizeof TWO; room++)
        CHECK(refuses(text_import, TWO_LINES, lines, room, 32));
    for (size_t room = 0; room < lines; room++)
        CHECK(refuses(text_export, TWO, sizeof TWO, room, 32));
    for (size_t more = 0; more < 30; more++) {
        CHECK(gives(text_import, TWO_LINES, lines, sizeof TWO + more, TWO, sizeof TWO));
        CHECK(gives(text_export, TWO, sizeof TWO, lines + more, TWO_LINES, lines));
    }
    /* what is wrong with a line or an entry goes before the room */
    CHECK(refuses(text_import, "0,0,0\n", 6, 0, 30));
    CHECK(refuses(text_import, "0,0,0,0\n0,256,0,0\n", 18, 0, 31));
    CHECK(refuses(text_import, "0,0,0,0\n0", 9, 9, 30));
    CHECK(refuses(text_export, TWO, 19, 0, 20));
    CHECK(refuses(text_export, TWO_LINES, 10, 0, 19));
}

/* How long a schedule may be --------------------------------------------- */

static uint8_t many[MOST_TEXT];

/* A line so many times, and then something more. */
static size_t repeat(const char *line, size_t times, const char *more)
{
    size_t length = strlen(line), at = 0;

    for (size_t i = 0; i < times; i++, at += length)
        memcpy(many + at, line, length);
    memcpy(many + at, more, strlen(more));
    return at + strlen(more);
}

static bool many_refused(size_t length, size_t room, uint32_t refusal)
{
    return refuses(text_import, many, length, room, refusal);
}

static void check_most_lines(void)
{
    static const char longest[] = "255,255,255,4294967295\n";
    static uint8_t entries[MAX_SCHEDULE];
    size_t length = repeat(longest, 6553, "");

    for (size_t i = 0; i < sizeof entries; i++)
        entries[i] = i % 10 == 0 ? 0x45 : i % 10 == 1 ? 0x4E : i % 10 == 5 ? 0 : 0xFF;
    CHECK(length == 150719);
    CHECK(gives(text_import, many, length, 65530, entries, 65530));
    CHECK(gives(text_export, entries, 65530, length, many, length));
    CHECK(many_refused(length, 65529, 32));
    CHECK(refuses(text_export, entries, 65530, length - 1, 32));

    CHECK(many_refused(repeat(longest, 6554, ""), sizeof output, 23));
    CHECK(many_refused(repeat("\n", 6554, ""), sizeof output, 23));
    CHECK(many_refused(repeat("\n", 6553, ""), sizeof output, 30));
    CHECK(many_refused(repeat("\n", 6553, "x\n"), 0, 23));
    /* the newlines are counted, not the lines: the last of these isn't closed */
    CHECK(many_refused(repeat("0,0,0,0\n", 6553, "0,0,0,0"), sizeof output, 30));
    CHECK(many_refused(repeat("0,0,0,0\n", 6553, "256,0,0,0\n"), sizeof output, 23));
    CHECK(many_refused(repeat("256,0,0,0\n", 6553, ""), 0, 31));
    CHECK(many_refused(repeat("256,0,0,0\n", 6553, "\n"), 0, 23));
}

static void check_most_bytes(void)
{
    static uint8_t entries[MOST_BYTES];

    for (size_t i = 0; i < sizeof entries; i += ENTRY_BYTES)
        memcpy(entries + i, TWO, ENTRY_BYTES);
    CHECK(refuses(text_export, entries, 65529, sizeof output, 20));
    CHECK(gives(text_export, entries, 65530, sizeof output, many,
                repeat("1,2,3,4\n", 6553, "")));
    CHECK(refuses(text_export, entries, 65531, sizeof output, 23));
    CHECK(refuses(text_export, entries, 65540, sizeof output, 23));
    CHECK(refuses(text_export, entries, 65540, 0, 23));
    entries[0] = 0;
    CHECK(refuses(text_export, entries, 65531, sizeof output, 23));
    CHECK(refuses(text_export, entries, 65530, sizeof output, 19));
}

int main(void)
{
    check_good_lines();
    check_bad_form();
    check_newlines();
    check_sizes();
    check_line_order();
    check_bad_entries();
    check_rooms();
    check_most_lines();
    check_most_bytes();
    if (failed == 0)
        printf("check of text: all hold\n");
    return failed == 0 ? 0 : 1;
}
