#include "ways.h"

#include "../second/bytes.h"
#include "../second/chance.h"

#include <stdlib.h>
#include <string.h>

#define COUNT_OF(array) (sizeof(array) / sizeof(array)[0])

static uint32_t wide(uint32_t *state)
{
    uint32_t high = chance(state);

    return high << 16 | chance(state);
}

static size_t below(uint32_t *state, size_t n)
{
    return wide(state) % n;
}

/* Good schedules --------------------------------------------------------- */

/* A number of 1 to most digits, each number of them as often; or an edge. */
static uint32_t pick_number(uint32_t *state, size_t most, uint32_t largest)
{
    uint64_t least = 1, number;

    if (chance(state) % 8 == 0)
        return chance(state) % 2 ? largest : 0;
    for (size_t digits = 1 + below(state, most); digits > 1; digits--)
        least *= 10;
    if (chance(state) % 8 == 0)
        return (uint32_t)(chance(state) % 2 ? least : least - 1);
    number = (least == 1 ? 0 : least) + wide(state) % (least == 1 ? 10 : 9 * least);
    return number > largest ? (uint32_t)(least + number % (largest - least + 1))
                            : (uint32_t)number;
}

static void make_entry(uint8_t *entry, uint32_t *state)
{
    memcpy(entry, ENTRY_MARK, sizeof ENTRY_MARK);
    entry[2] = (uint8_t)pick_number(state, 3, 255);
    entry[3] = (uint8_t)pick_number(state, 3, 255);
    entry[4] = (uint8_t)pick_number(state, 3, 255);
    entry[5] = 0;
    write32(entry + 6, pick_number(state, 10, UINT32_MAX));
}

void make_schedule(struct schedule *s, size_t units, uint32_t *state)
{
    size_t written;

    for (size_t i = 0; i < units; i++)
        make_entry(s->entries.bytes + ENTRY_BYTES * i, state);
    s->entries.length = ENTRY_BYTES * units;
    if (text_export(s->entries.bytes, s->entries.length, s->text.bytes,
                    sizeof s->text.bytes, &written) != 0)
        abort();
    s->text.length = written;
    s->text.units = s->entries.units = units;
    s->text.bad = s->entries.bad = UNKNOWN;
}

/* Parts of a text -------------------------------------------------------- */

/* Removes some bytes and puts others there. */
static void splice(struct input *in, struct part gone, const void *bytes,
                   size_t count)
{
    size_t behind = gone.at + gone.length;

    if (in->length - gone.length + count > sizeof in->bytes)
        abort();
    memmove(in->bytes + gone.at + count, in->bytes + behind, in->length - behind);
    memcpy(in->bytes + gone.at, bytes, count);
    in->length += count - gone.length;
}

static void insert(struct input *in, size_t at, const char *text)
{
    splice(in, (struct part){ at, 0 }, text, strlen(text));
}

static void insert_byte(struct input *in, size_t at, uint8_t byte)
{
    splice(in, (struct part){ at, 0 }, &byte, 1);
}

static void cut_out(struct input *in, size_t at, size_t count)
{
    splice(in, (struct part){ at, count }, "", 0);
}

/* Line I without its newline. */
static struct part line_part(const struct input *in, size_t i)
{
    const uint8_t *at = in->bytes, *newline;

    for (;; at = newline + 1) {
        newline = memchr(at, '\n', in->length - (size_t)(at - in->bytes));
        if (i-- == 0)
            return (struct part){ (size_t)(at - in->bytes), (size_t)(newline - at) };
    }
}

/* Number K of a line that has all four. */
static struct part number_part(const struct input *in, size_t line, size_t k)
{
    struct part whole = line_part(in, line), part = { whole.at, 0 };

    for (;; part.at++) {
        if (in->bytes[part.at] == ',') {
            k--;
        } else if (k == 0) {
            while (in->bytes[part.at + part.length] >= '0' &&
                   in->bytes[part.at + part.length] <= '9')
                part.length++;
            return part;
        }
    }
}

static struct part any_number(const struct input *in, size_t line, uint32_t *state)
{
    return number_part(in, line, chance(state) % LINE_NUMBERS);
}

/* The first line, the last and one between, as often as each other. */
static size_t any_unit(const struct input *in, uint32_t *state)
{
    size_t pick = chance(state) % 3;

    return pick == 0 ? 0 : pick == 1 ? in->units - 1 : below(state, in->units);
}

/* Where a way puts something; a part of no bytes is a place between two. */

static struct part before_number(const struct input *in, size_t line, uint32_t *state)
{
    return (struct part){ any_number(in, line, state).at, 0 };
}

static struct part behind_number(const struct input *in, size_t line, uint32_t *state)
{
    struct part number = any_number(in, line, state);

    return (struct part){ number.at + number.length, 0 };
}

static struct part digit(const struct input *in, size_t line, uint32_t *state)
{
    struct part number = any_number(in, line, state);

    return (struct part){ number.at + below(state, number.length), 1 };
}

static struct part comma(const struct input *in, size_t line, uint32_t *state)
{
    size_t k = 1 + chance(state) % (LINE_NUMBERS - 1);

    return (struct part){ number_part(in, line, k).at - 1, 1 };
}

static struct part before_comma(const struct input *in, size_t line, uint32_t *state)
{
    return (struct part){ comma(in, line, state).at, 0 };
}

static struct part comma_and_number(const struct input *in, size_t line,
                                    uint32_t *state)
{
    struct part number = number_part(in, line, 1 + chance(state) % (LINE_NUMBERS - 1));

    return (struct part){ number.at - 1, number.length + 1 };
}

static struct part whole_line(const struct input *in, size_t line, uint32_t *state)
{
    (void)state;
    return line_part(in, line);
}

static struct part front(const struct input *in, size_t line, uint32_t *state)
{
    (void)state;
    return (struct part){ line_part(in, line).at, 0 };
}

static struct part end(const struct input *in, size_t line, uint32_t *state)
{
    struct part whole = line_part(in, line);

    (void)state;
    return (struct part){ whole.at + whole.length, 0 };
}

static struct part anywhere(const struct input *in, size_t line, uint32_t *state)
{
    struct part whole = line_part(in, line);

    return (struct part){ whole.at + below(state, whole.length + 1), 0 };
}

static struct part task(const struct input *in, size_t line, uint32_t *state)
{
    (void)state;
    return number_part(in, line, 0);
}

static struct part kind(const struct input *in, size_t line, uint32_t *state)
{
    (void)state;
    return number_part(in, line, 1);
}

static struct part cell(const struct input *in, size_t line, uint32_t *state)
{
    (void)state;
    return number_part(in, line, 2);
}

static struct part value(const struct input *in, size_t line, uint32_t *state)
{
    (void)state;
    return number_part(in, line, 3);
}

/* Lines of a bad form: 30 ------------------------------------------------ */

static void nul(struct input *in, size_t line, uint32_t *state)
{
    insert_byte(in, anywhere(in, line, state).at, 0);
}

static void nul_at_end(struct input *in, size_t line, uint32_t *state)
{
    insert_byte(in, end(in, line, state).at, 0);
}

static void high_bit(struct input *in, size_t line, uint32_t *state)
{
    struct part whole = line_part(in, line);

    in->bytes[whole.at + below(state, whole.length)] |= 0x80;
}

/* Any byte that a line has no use for, newlines left out. */
static void foreign_byte(struct input *in, size_t line, uint32_t *state)
{
    uint8_t byte;

    do
        byte = (uint8_t)chance(state);
    while (byte == ',' || byte == '\n' || (byte >= '0' && byte <= '9'));
    insert_byte(in, anywhere(in, line, state).at, byte);
}

static const struct way FORMS[] = {
    { "a leading zero", 30, 1, .part = before_number, .put = "0" },
    { "00 for a number", 30, 1, .part = any_number, .put = "00" },
    { "a minus", 30, 1, .part = before_number, .put = "-" },
    { "a plus", 30, 1, .part = before_number, .put = "+" },
    { "a space before a number", 30, 1, .part = before_number, .put = " " },
    { "a space behind a number", 30, 1, .part = behind_number, .put = " " },
    { "a tab", 30, 1, .part = anywhere, .put = "\t" },
    { "CR before the newline", 30, 1, .part = end, .put = "\r" },
    { "a letter", 30, 1, .part = anywhere, .one_of = "aefxABEOlZ" },
    { "a letter for a digit", 30, 1, .part = digit, .one_of = "olOIZSB" },
    { "a NUL byte", 30, 1, .line = nul },
    { "a NUL byte before the newline", 30, 1, .line = nul_at_end },
    { "0x2F for a digit", 30, 1, .part = digit, .put = "\x2F" },
    { "0x3A for a digit", 30, 1, .part = digit, .put = "\x3A" },
    { "a byte's highest bit set", 30, 1, .line = high_bit },
    { "a byte that no line has", 30, 1, .line = foreign_byte },
    { "a number empty", 30, 1, .part = any_number, .put = "" },
    { "a comma missing", 30, 1, .part = comma, .put = "" },
    { "two commas", 30, 1, .part = before_comma, .put = "," },
    { "another sign for a comma", 30, 1, .part = comma, .one_of = ";.: -+/'" },
    { "a comma at the front", 30, 1, .part = front, .put = "," },
    { "a comma at the end", 30, 1, .part = end, .put = "," },
    { "three numbers", 30, 1, .part = comma_and_number, .put = "" },
    { "one number", 30, 1, .part = whole_line, .put = "7" },
    { "five numbers, one put in", 30, 1, .part = before_comma, .put = ",7" },
    { "five numbers, one behind", 30, 1, .part = end, .put = ",0" },
    { "a line emptied", 30, 1, .part = whole_line, .put = "" },
    { "commas only", 30, 1, .part = whole_line, .put = ",,," },
};

/* Lines with a number that is too large: 31 ------------------------------ */

static void put_number(struct input *in, size_t line, size_t k, const char *digits)
{
    splice(in, number_part(in, line, k), digits, strlen(digits));
}

/* Three digits, or ten: no more than numbers that are taken can have. */
static void as_many_digits(struct input *in, size_t line, uint32_t *state)
{
    size_t k = chance(state) % LINE_NUMBERS;
    uint64_t number = k < 3 ? 256 + below(state, 1000 - 256)
                            : 4294967296u + wide(state) % (9999999999u - 4294967295u);
    char digits[24];

    snprintf(digits, sizeof digits, "%llu", (unsigned long long)number);
    put_number(in, line, k, digits);
}

/* Powers of two and a little more: small where the upper bits get lost. */
static void wrapped(struct input *in, size_t line, uint32_t *state)
{
    static const char *const powers[] = {
        "65536", "65537", "131073", "16777216",
        "4294967296", "4294967297", "8589934593", "18446744073709551616",
        "18446744073709551617", "18446744073709551871", "36893488147419103233",
        "340282366920938463463374607431768211456",
        "340282366920938463463374607431768211457",
    };
    size_t k = chance(state) % LINE_NUMBERS;
    size_t first = k < 3 ? 0 : 4; /* a value may have 32 bits */

    put_number(in, line, k, powers[first + below(state, COUNT_OF(powers) - first)]);
}

static void put_digits(struct input *in, size_t line, size_t count, uint32_t *state)
{
    char digits[801];

    digits[0] = (char)('1' + chance(state) % 9);
    for (size_t i = 1; i < count; i++)
        digits[i] = (char)('0' + chance(state) % 10);
    digits[count] = '\0';
    put_number(in, line, chance(state) % LINE_NUMBERS, digits);
}

static void more_digits(struct input *in, size_t line, uint32_t *state)
{
    put_digits(in, line, 11 + below(state, 15), state);
}

static void fifty_digits(struct input *in, size_t line, uint32_t *state)
{
    put_digits(in, line, 50, state);
}

static void hundreds_of_digits(struct input *in, size_t line, uint32_t *state)
{
    put_digits(in, line, 100 + below(state, 700), state);
}

static const struct way SIZES[] = {
    { "task 256", 31, 1, .part = task, .put = "256" },
    { "kind 256", 31, 1, .part = kind, .put = "256" },
    { "cell 256", 31, 1, .part = cell, .put = "256" },
    { "value 4294967296", 31, 1, .part = value, .put = "4294967296" },
    { "too large with no more digits", 31, 1, .line = as_many_digits },
    { "a power of two or a little more", 31, 1, .line = wrapped },
    { "11 to 25 digits", 31, 1, .line = more_digits },
    { "50 digits", 31, 1, .line = fifty_digits },
    { "100 to 799 digits", 31, 1, .line = hundreds_of_digits },
    { "all four too large", 31, 1, .part = whole_line, .put = "256,256,256,4294967296" },
};

/* Damages line I in a way that is about one line. */
static void damage_line(struct input *in, const struct way *way, size_t i,
                        uint32_t *state)
{
    const char *put = way->put;
    size_t count;

    if (way->line != NULL) {
        way->line(in, i, state);
        return;
    }
    if (way->one_of != NULL) {
        put = way->one_of + below(state, strlen(way->one_of));
        count = 1;
    } else {
        count = strlen(put);
    }
    splice(in, way->part(in, i, state), put, count);
}

static void bad_form(struct input *in, size_t line, uint32_t *state)
{
    damage_line(in, &FORMS[chance(state) % COUNT_OF(FORMS)], line, state);
}

static void bad_size(struct input *in, size_t line, uint32_t *state)
{
    damage_line(in, &SIZES[chance(state) % COUNT_OF(SIZES)], line, state);
}

/* Of texts as a whole ---------------------------------------------------- */

/* A line in one way and a later one in another. */
static void two_lines(struct input *in, line_damage *first, line_damage *later,
                      uint32_t *state)
{
    size_t i = below(state, in->units - 1);

    later(in, i + 1 + below(state, in->units - 1 - i), state);
    first(in, i, state);
    in->bad = i;
}

static void form_and_size(struct input *in, uint32_t *state)
{
    in->bad = any_unit(in, state);
    bad_size(in, in->bad, state);
    bad_form(in, in->bad, state);
}

static void form_then_size(struct input *in, uint32_t *state)
{
    two_lines(in, bad_form, bad_size, state);
}

static void size_then_form(struct input *in, uint32_t *state)
{
    two_lines(in, bad_size, bad_form, state);
}

/* The newline stays where it is, behind the end. */
static void unclosed(struct input *in, uint32_t *state)
{
    (void)state;
    in->length--;
    in->bad = in->units - 1;
}

static void unclosed_large(struct input *in, uint32_t *state)
{
    bad_size(in, in->units - 1, state);
    unclosed(in, state);
}

static void size_then_unclosed(struct input *in, uint32_t *state)
{
    size_t line = below(state, in->units - 1);

    bad_size(in, line, state);
    unclosed(in, state);
    in->bad = line;
}

/* Somewhere in a line, not before its first byte; the rest stays behind the end. */
static void cut_text(struct input *in, uint32_t *state)
{
    in->bad = any_unit(in, state);

    struct part whole = line_part(in, in->bad);

    in->length = whole.at + 1 + below(state, whole.length);
}

static void empty_line(struct input *in, uint32_t *state)
{
    in->bad = any_unit(in, state);
    insert(in, line_part(in, in->bad).at, "\n");
}

static void empty_line_behind(struct input *in, uint32_t *state)
{
    (void)state;
    insert(in, in->length, "\n");
}

static void split_line(struct input *in, uint32_t *state)
{
    insert(in, anywhere(in, any_unit(in, state), state).at, "\n");
}

static void joined_lines(struct input *in, uint32_t *state)
{
    in->bad = below(state, in->units - 1);

    struct part whole = line_part(in, in->bad);

    cut_out(in, whole.at + whole.length, 1);
}

static void comma_for_newline(struct input *in, uint32_t *state)
{
    in->bad = any_unit(in, state);

    struct part whole = line_part(in, in->bad);

    in->bytes[whole.at + whole.length] = ',';
}

static void line_more(struct input *in, uint32_t *state)
{
    (void)state;
    insert(in, in->length, "0,0,0,0\n");
}

static void line_more_and_bad(struct input *in, uint32_t *state)
{
    line_more(in, state);
    (chance(state) % 2 ? bad_form : bad_size)(in, any_unit(in, state), state);
}

static void newlines(struct input *in, size_t count)
{
    memset(in->bytes, '\n', count);
    in->length = count;
}

static void newlines_6553(struct input *in, uint32_t *state)
{
    (void)state;
    newlines(in, MAX_LINES);
    in->bad = 0;
}

static void newlines_6554(struct input *in, uint32_t *state)
{
    (void)state;
    newlines(in, MAX_LINES + 1);
}

static void far_more_newlines(struct input *in, uint32_t *state)
{
    for (size_t more = 2 + below(state, MAX_LINES - 2); more > 0; more--)
        in->bytes[in->length++] = '\n';
}

static void unclosed_more(struct input *in, uint32_t *state)
{
    (void)state;
    insert(in, in->length, "0,0,0,0");
}

/* One byte changed, gone or put in, whatever it is. */
static void edit(struct input *in, uint32_t *state)
{
    size_t at = below(state, in->length);

    switch (chance(state) % 5) {
    case 0:
        in->bytes[at] ^= (uint8_t)(1u << chance(state) % 8);
        break;
    case 1:
        in->bytes[at] = (uint8_t)chance(state);
        break;
    case 2:
        if (in->length > 1)
            cut_out(in, at, 1);
        break;
    case 3:
        insert_byte(in, at, in->bytes[below(state, in->length)]);
        break;
    default:
        in->bytes[at] = in->bytes[below(state, in->length)];
    }
}

static void edits(struct input *in, uint32_t *state)
{
    for (size_t times = 1 + chance(state) % 3; times > 0; times--)
        edit(in, state);
}

/* Bytes that lines are made of, in any order. */
static void text_noise(struct input *in, uint32_t *state)
{
    static const char some[] = "00112256789,,,,,,,\n\n";
    size_t length = below(state, 60);

    for (in->length = 0; in->length < length; in->length++)
        in->bytes[in->length] = (uint8_t)some[below(state, sizeof some - 1)];
}

static void noise(struct input *in, uint32_t *state)
{
    size_t length = below(state, 60);

    for (in->length = 0; in->length < length; in->length++)
        in->bytes[in->length] = (uint8_t)chance(state);
}

static const struct way WHOLE[] = {
    { "form and size in one line", 30, 1, .whole = form_and_size },
    { "a form, later a size", 30, 2, .whole = form_then_size },
    { "a size, later a form", 31, 2, .whole = size_then_form },
    { "the last line not closed", 30, 1, .whole = unclosed },
    { "not closed, and too large", 30, 1, .whole = unclosed_large },
    { "a size, later not closed", 31, 2, .whole = size_then_unclosed },
    { "the text cut in a line", 30, 1, .whole = cut_text },
    { "an empty line put in", 30, 1, .whole = empty_line },
    { "an empty line behind", 30, 1, .whole = empty_line_behind },
    { "a line split", 30, 1, .whole = split_line },
    { "two lines joined", 30, 2, .whole = joined_lines },
    { "a comma for a newline", 30, 1, .whole = comma_for_newline },
    { "6,554 lines", 23, MAX_LINES, .whole = line_more },
    { "6,554 lines, one of them bad", 23, MAX_LINES, .whole = line_more_and_bad },
    { "6,553 newlines alone", 30, 1, .whole = newlines_6553 },
    { "6,554 newlines alone", 23, 1, .whole = newlines_6554 },
    { "far more newlines", 23, MAX_LINES, .whole = far_more_newlines },
    { "6,553 lines and one not closed", 30, MAX_LINES, .whole = unclosed_more },
    { "any bytes edited", ANY, 1, .whole = edits },
    { "noise of digits and commas", ANY, 0, .whole = text_noise },
    { "noise", ANY, 0, .whole = noise },
};

const struct way *text_way(size_t i)
{
    if (i < COUNT_OF(FORMS))
        return &FORMS[i];
    i -= COUNT_OF(FORMS);
    if (i < COUNT_OF(SIZES))
        return &SIZES[i];
    i -= COUNT_OF(SIZES);
    return i < COUNT_OF(WHOLE) ? &WHOLE[i] : NULL;
}

/* Of entry bytes --------------------------------------------------------- */

static uint8_t *entry_at(struct input *in, size_t i)
{
    return in->bytes + ENTRY_BYTES * i;
}

static uint8_t not_zero(uint32_t *state)
{
    return (uint8_t)(1 + chance(state) % 255);
}

static void wrong_mark(uint8_t *entry, uint32_t *state)
{
    entry[chance(state) % 2] ^= not_zero(state);
}

static void wrong_sixth(uint8_t *entry, uint32_t *state)
{
    entry[5] = not_zero(state);
}

static uint8_t *bad_entry(struct input *in, uint32_t *state)
{
    in->bad = any_unit(in, state);
    return entry_at(in, in->bad);
}

static void first_mark_byte(struct input *in, uint32_t *state)
{
    bad_entry(in, state)[0] ^= not_zero(state);
}

static void second_mark_byte(struct input *in, uint32_t *state)
{
    bad_entry(in, state)[1] ^= not_zero(state);
}

static void turned_mark(struct input *in, uint32_t *state)
{
    memcpy(bad_entry(in, state), "\x4E\x45", 2);
}

static void other_mark(struct input *in, uint32_t *state)
{
    memcpy(bad_entry(in, state), chance(state) % 2 ? "\x53\x55" : "\x41\x4E", 2);
}

static void sixth_byte(struct input *in, uint32_t *state)
{
    wrong_sixth(bad_entry(in, state), state);
}

static void mark_and_sixth(struct input *in, uint32_t *state)
{
    uint8_t *entry = bad_entry(in, state);

    wrong_mark(entry, state);
    wrong_sixth(entry, state);
}

/* The last entry, its missing bytes left behind the end. */
static void cut_entry(struct input *in, size_t left)
{
    in->length -= ENTRY_BYTES - left;
    in->bad = in->units - 1;
}

static void cut(struct input *in, uint32_t *state)
{
    cut_entry(in, 1 + below(state, ENTRY_BYTES - 1));
}

static void cut_and_mark(struct input *in, uint32_t *state)
{
    wrong_mark(entry_at(in, in->units - 1), state);
    cut_entry(in, 2 + below(state, ENTRY_BYTES - 2));
}

static void cut_and_sixth(struct input *in, uint32_t *state)
{
    wrong_sixth(entry_at(in, in->units - 1), state);
    cut_entry(in, 6 + below(state, ENTRY_BYTES - 6));
}

typedef void entry_damage(uint8_t *entry, uint32_t *state);

/* An entry in one way and a later one in another. */
static void two_entries(struct input *in, entry_damage *first,
                        entry_damage *later, uint32_t *state)
{
    size_t i = below(state, in->units - 1);

    later(entry_at(in, i + 1 + below(state, in->units - 1 - i)), state);
    first(entry_at(in, i), state);
    in->bad = i;
}

static void mark_then_sixth(struct input *in, uint32_t *state)
{
    two_entries(in, wrong_mark, wrong_sixth, state);
}

static void sixth_then_mark(struct input *in, uint32_t *state)
{
    two_entries(in, wrong_sixth, wrong_mark, state);
}

static void then_cut(struct input *in, entry_damage *first, uint32_t *state)
{
    size_t i = below(state, in->units - 1);

    first(entry_at(in, i), state);
    cut(in, state);
    in->bad = i;
}

static void mark_then_cut(struct input *in, uint32_t *state)
{
    then_cut(in, wrong_mark, state);
}

static void sixth_then_cut(struct input *in, uint32_t *state)
{
    then_cut(in, wrong_sixth, state);
}

static void byte_more(struct input *in, uint32_t *state)
{
    in->bytes[in->length++] = chance(state) % 2 ? ENTRY_MARK[0] : (uint8_t)chance(state);
}

static void entry_more(struct input *in, uint32_t *state)
{
    make_entry(in->bytes + in->length, state);
    in->length += ENTRY_BYTES;
}

static void far_more_entries(struct input *in, uint32_t *state)
{
    for (size_t more = 2 + below(state, 1000); more > 0; more--)
        entry_more(in, state);
    in->length -= chance(state) % ENTRY_BYTES;
}

static void more_and_bad(struct input *in, uint32_t *state)
{
    uint8_t *entry = entry_at(in, any_unit(in, state));

    (chance(state) % 2 ? wrong_mark : wrong_sixth)(entry, state);
    (chance(state) % 2 ? byte_more : entry_more)(in, state);
}

static void byte_gone(struct input *in, uint32_t *state)
{
    cut_out(in, below(state, in->length), 1);
}

static void byte_put_in(struct input *in, uint32_t *state)
{
    insert_byte(in, below(state, in->length), (uint8_t)chance(state));
}

static const struct way ENTRIES[] = {
    { "a mark's first byte", 19, 1, .whole = first_mark_byte },
    { "a mark's second byte", 19, 1, .whole = second_mark_byte },
    { "a mark turned round", 19, 1, .whole = turned_mark },
    { "another record's mark", 19, 1, .whole = other_mark },
    { "a sixth byte not zero", 15, 1, .whole = sixth_byte },
    { "mark and sixth byte of one entry", 19, 1, .whole = mark_and_sixth },
    { "the last entry cut", 20, 1, .whole = cut },
    { "cut, its mark wrong", 20, 1, .whole = cut_and_mark },
    { "cut, its sixth byte not zero", 20, 1, .whole = cut_and_sixth },
    { "a mark, later a sixth byte", 19, 2, .whole = mark_then_sixth },
    { "a sixth byte, later a mark", 15, 2, .whole = sixth_then_mark },
    { "a mark, later cut", 19, 2, .whole = mark_then_cut },
    { "a sixth byte, later cut", 15, 2, .whole = sixth_then_cut },
    { "65,531 bytes", 23, MAX_ENTRIES, .whole = byte_more },
    { "65,540 bytes", 23, MAX_ENTRIES, .whole = entry_more },
    { "far more bytes", 23, MAX_ENTRIES, .whole = far_more_entries },
    { "too many bytes and a bad entry", 23, MAX_ENTRIES, .whole = more_and_bad },
    { "a byte gone", ANY, 1, .whole = byte_gone },
    { "a byte put in", ANY, 1, .whole = byte_put_in },
    { "any bytes edited", ANY, 1, .whole = edits },
    { "noise", ANY, 0, .whole = noise },
};

const struct way *entry_way(size_t i)
{
    return i < COUNT_OF(ENTRIES) ? &ENTRIES[i] : NULL;
}

void damage(struct input *in, const struct way *way, uint32_t *state)
{
    if (way->whole != NULL) {
        way->whole(in, state);
        return;
    }
    in->bad = any_unit(in, state);
    damage_line(in, way, in->bad, state);
}
