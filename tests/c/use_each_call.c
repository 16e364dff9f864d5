/*
 * Each call of include/sii_decode.h, on the scope's worked file, on damaged ones and on files for what the worked one lacks. Every member of
 * every answer is compared, and after every call all that was lent: the file as it was, the table all 0, the output the text and behind it what
 * it held, and the bytes around each of them. Prints a line for each check that failed and a count, and exits with 1 if one did.
 */
#include <inttypes.h>
#include <stddef.h>
#include <stdio.h>
#include <stdlib.h>
#include <string.h>

#include "sii_decode.h"

static unsigned long checks, failures;
static const char *label = "";

static void equal(const char *what, uint64_t expected, uint64_t got)
{
    checks++;
    if (got == expected)
        return;
    failures++;
    printf("%s, %s: expected %" PRIu64 ", got %" PRIu64 "\n", label, what, expected, got);
}

static void same_bytes(const char *what, const uint8_t *expected, const uint8_t *got, size_t count)
{
    size_t at = 0;
    if (count == 0)
        return;
    checks++;
    if (memcmp(expected, got, count) == 0)
        return;
    failures++;
    while (expected[at] == got[at])
        at++;
    printf("%s, %s: expected 0x%02x at %lu, got 0x%02x\n", label, what, expected[at], (unsigned long)at, got[at]);
}

/* ---- what is lent to a call */

/*
 * All checks are made three times. First there is a guard on both sides of what is lent: a byte written outside is seen here. Its odd length takes
 * away any alignment of file, name and output. Then there is none: every area is an allocation of just its size, and valgrind or a sanitizer sees
 * what is read or written outside. At last what has length 0 is NULL.
 */
enum { GUARD = 35, GUARD_BYTE = 0xc5 };
static int guarded, null_for_nothing;
static unsigned long nulls;

/* What the table holds before: in the second round what an entry of the worked file's prototype would start with. */
static uint32_t garbage(size_t at)
{
    return guarded ? 0xdeadbeef + (uint32_t)at : 7;
}

static uint8_t output_byte(size_t at)
{
    return (uint8_t)(at * 31 + 201);
}

typedef struct Lent {
    uint8_t *all;
    uint8_t *start;
    size_t size;
    size_t guard;
} Lent;

static Lent lend(size_t size, size_t guard)
{
    Lent lent;
    lent.size = size;
    lent.guard = guarded ? guard : 0;
    if (null_for_nothing && size == 0) {
        nulls++;
        lent.all = lent.start = NULL;
        return lent;
    }
    lent.all = malloc(size + 2 * lent.guard + (size == 0));
    if (lent.all == NULL) {
        printf("no memory for %lu bytes\n", (unsigned long)size);
        exit(1);
    }
    lent.start = lent.all + lent.guard;
    memset(lent.all, GUARD_BYTE, lent.guard);
    memset(lent.start + size, GUARD_BYTE, lent.guard);
    return lent;
}

static Lent lend_copy(const void *bytes, size_t size)
{
    Lent lent = lend(size, GUARD);
    if (size != 0)
        memcpy(lent.start, bytes, size);
    return lent;
}

static void give_back(const char *what, Lent lent)
{
    uint8_t guard[GUARD + 1];
    if (lent.all == NULL)
        return;
    memset(guard, GUARD_BYTE, sizeof guard);
    same_bytes(what, guard, lent.all, lent.guard);
    same_bytes(what, guard, lent.start + lent.size, lent.guard);
    free(lent.all);
}

/* a file, a table and, where a call takes it, a name */
typedef struct Loan {
    const uint8_t *bytes;
    Lent file;
    Lent table;
    Lent name;
} Loan;

static Loan begin(const uint8_t *bytes, size_t len, size_t words, const char *name)
{
    Loan loan;
    size_t at;
    loan.bytes = bytes;
    loan.file = lend_copy(bytes, len);
    loan.table = lend(words * sizeof(uint32_t), 32);
    for (at = 0; at < words; at++)
        ((uint32_t *)(void *)loan.table.start)[at] = garbage(at);
    loan.name = lend_copy(name, strlen(name));
    return loan;
}

#define FILE_AND_TABLE(loan) \
    (loan).file.start, (loan).file.size, (uint32_t *)(void *)(loan).table.start, (loan).table.size / sizeof(uint32_t)
#define NAME(loan) (loan).name.start, (loan).name.size

static void end(Loan loan, const char *name)
{
    size_t at, left = 0;
    for (at = 0; at < loan.table.size; at++)
        left += loan.table.start[at] != 0;
    equal("bytes of the table that are not 0", 0, left);
    same_bytes("file", loan.bytes, loan.file.start, loan.file.size);
    same_bytes("name", (const uint8_t *)name, loan.name.start, loan.name.size);
    give_back("around the file", loan.file);
    give_back("around the table", loan.table);
    give_back("around the name", loan.name);
}

/* ---- the calls, each with the answer it must give */

static void reading(const uint8_t *bytes, size_t len, size_t words, SiiReading expected)
{
    Loan loan = begin(bytes, len, words, "");
    SiiReading got = sii_read(FILE_AND_TABLE(loan));
    equal("sii_read, number", expected.number, got.number);
    equal("sii_read, offset", expected.offset, got.offset);
    equal("sii_read, lacking", expected.lacking, got.lacking);
    equal("sii_read, prototypes", expected.prototypes, got.prototypes);
    equal("sii_read, blocks", expected.blocks, got.blocks);
    equal("sii_read, next", expected.next, got.next);
    end(loan, "");
}

static void prototype(const uint8_t *bytes, size_t len, size_t words, uint32_t id, SiiPrototype expected)
{
    Loan loan = begin(bytes, len, words, "");
    SiiPrototype got = sii_get_prototype(FILE_AND_TABLE(loan), id);
    equal("sii_get_prototype, number", expected.number, got.number);
    equal("sii_get_prototype, offset", expected.offset, got.offset);
    equal("sii_get_prototype, lacking", expected.lacking, got.lacking);
    equal("sii_get_prototype, name_offset", expected.name_offset, got.name_offset);
    equal("sii_get_prototype, name_len", expected.name_len, got.name_len);
    equal("sii_get_prototype, fields", expected.fields, got.fields);
    end(loan, "");
}

static void block(const uint8_t *bytes, size_t len, size_t words, uint64_t n, SiiBlock expected)
{
    Loan loan = begin(bytes, len, words, "");
    SiiBlock got = sii_block_at(FILE_AND_TABLE(loan), n);
    equal("sii_block_at, number", expected.number, got.number);
    equal("sii_block_at, offset", expected.offset, got.offset);
    equal("sii_block_at, lacking", expected.lacking, got.lacking);
    equal("sii_block_at, prototype_id", expected.prototype_id, got.prototype_id);
    equal("sii_block_at, id_offset", expected.id_offset, got.id_offset);
    equal("sii_block_at, id_len", expected.id_len, got.id_len);
    end(loan, "");
}

static void named_block(const uint8_t *bytes, size_t len, size_t words, const char *name, uint64_t n, SiiNumber expected)
{
    Loan loan = begin(bytes, len, words, name);
    SiiNumber got = sii_blocks_by_prototype_name(FILE_AND_TABLE(loan), NAME(loan), n);
    equal("sii_blocks_by_prototype_name, number", expected.number, got.number);
    equal("sii_blocks_by_prototype_name, offset", expected.offset, got.offset);
    equal("sii_blocks_by_prototype_name, lacking", expected.lacking, got.lacking);
    equal("sii_blocks_by_prototype_name, value", expected.value, got.value);
    end(loan, name);
}

static void field(const uint8_t *bytes, size_t len, size_t words, uint64_t n, const char *name, SiiField expected)
{
    Loan loan = begin(bytes, len, words, name);
    SiiField got = sii_field_of(FILE_AND_TABLE(loan), n, NAME(loan));
    equal("sii_field_of, number", expected.number, got.number);
    equal("sii_field_of, offset", expected.offset, got.offset);
    equal("sii_field_of, lacking", expected.lacking, got.lacking);
    equal("sii_field_of, type_id", expected.type_id, got.type_id);
    equal("sii_field_of, part_offset", expected.part_offset, got.part_offset);
    equal("sii_field_of, part_len", expected.part_len, got.part_len);
    end(loan, name);
}

static void element_in(uint32_t version, uint32_t type_id, const void *part, size_t len, uint64_t index, SiiElement expected)
{
    Lent lent = lend_copy(part, len);
    SiiElement got = sii_element_of(version, type_id, lent.start, lent.size, index);
    equal("sii_element_of, number", expected.number, got.number);
    equal("sii_element_of, offset", expected.offset, got.offset);
    equal("sii_element_of, lacking", expected.lacking, got.lacking);
    equal("sii_element_of, kind", expected.kind, got.kind);
    equal("sii_element_of, place_offset", expected.place_offset, got.place_offset);
    equal("sii_element_of, place_len", expected.place_len, got.place_len);
    equal("sii_element_of, value", expected.value, got.value);
    equal("sii_element_of, a", expected.a, got.a);
    equal("sii_element_of, b", expected.b, got.b);
    equal("sii_element_of, c", expected.c, got.c);
    equal("sii_element_of, d", expected.d, got.d);
    equal("sii_element_of, e", expected.e, got.e);
    equal("sii_element_of, f", expected.f, got.f);
    equal("sii_element_of, g", expected.g, got.g);
    equal("sii_element_of, h", expected.h, got.h);
    same_bytes("part", part, lent.start, lent.size);
    give_back("around the part", lent);
}

/* other versions than 1: some have bytes of it */
static const uint32_t versions[] = {2, 0, 3, 257, 0x01000000, 0x01000001, UINT32_MAX};
enum { VERSIONS = sizeof versions / sizeof versions[0] };

/* An element in every version but 1, and if it is no placement's in that one too. */
static void element(uint32_t type_id, const void *part, size_t len, uint64_t index, SiiElement expected)
{
    size_t at;
    for (at = 0; at < VERSIONS; at++)
        element_in(versions[at], type_id, part, len, index, expected);
    if (type_id != 0x19 && type_id != 0x1a)
        element_in(1, type_id, part, len, index, expected);
}

/* TEXT is what the output must start with: "" for a refusal. */
static void text(const uint8_t *bytes, size_t len, size_t words, size_t output_len, SiiText expected, const char *text)
{
    Loan loan = begin(bytes, len, words, "");
    Lent output = lend(output_len, GUARD);
    size_t at, changed = 0, text_len = strlen(text);
    SiiText got;
    for (at = 0; at < output_len; at++)
        output.start[at] = output_byte(at);
    got = sii_to_siin(FILE_AND_TABLE(loan), output.start, output.size);
    equal("sii_to_siin, number", expected.number, got.number);
    equal("sii_to_siin, offset", expected.offset, got.offset);
    equal("sii_to_siin, lacking", expected.lacking, got.lacking);
    equal("sii_to_siin, length", expected.length, got.length);
    equal("sii_to_siin, steps", expected.steps, got.steps);
    same_bytes("text", (const uint8_t *)text, output.start, text_len);
    for (at = text_len; at < output_len; at++)
        changed += output.start[at] != output_byte(at);
    equal("bytes of the output beyond the text that changed", 0, changed);
    give_back("around the output", output);
    end(loan, "");
}

/* The space must start with the bytes of the expected length if the call answers; else it must be as it was. */
static void write_index(const uint8_t *bytes, size_t len, size_t words, size_t space_len, SiiLength expected, const void *index)
{
    Loan loan = begin(bytes, len, words, "");
    Lent space = lend(space_len, GUARD);
    size_t at, changed = 0, written = expected.number == 0 ? (size_t)expected.length : 0;
    SiiLength got;
    for (at = 0; at < space_len; at++)
        space.start[at] = output_byte(at);
    got = sii_write_index(FILE_AND_TABLE(loan), space.start, space.size);
    equal("sii_write_index, number", expected.number, got.number);
    equal("sii_write_index, offset", expected.offset, got.offset);
    equal("sii_write_index, lacking", expected.lacking, got.lacking);
    equal("sii_write_index, length", expected.length, got.length);
    same_bytes("index", index, space.start, written);
    for (at = written; at < space_len; at++)
        changed += space.start[at] != output_byte(at);
    equal("bytes of the space beyond the index that changed", 0, changed);
    give_back("around the space", space);
    end(loan, "");
}

static void check_index(const uint8_t *bytes, size_t len, size_t words, const void *index, size_t index_len, SiiChecked expected)
{
    Loan loan = begin(bytes, len, words, "");
    Lent lent = lend_copy(index, index_len);
    SiiChecked got = sii_check_index(FILE_AND_TABLE(loan), lent.start, lent.size);
    equal("sii_check_index, number", expected.number, got.number);
    equal("sii_check_index, offset", expected.offset, got.offset);
    equal("sii_check_index, lacking", expected.lacking, got.lacking);
    same_bytes("index", index, lent.start, lent.size);
    give_back("around the index", lent);
    end(loan, "");
}

static void by_index(const uint8_t *bytes, size_t len, const void *index, size_t index_len, uint64_t n, const char *name, SiiField expected)
{
    Loan loan = begin(bytes, len, 0, name);
    Lent lent = lend_copy(index, index_len);
    SiiField got = sii_field_by_index(loan.file.start, loan.file.size, lent.start, lent.size, n, NAME(loan));
    equal("sii_field_by_index, number", expected.number, got.number);
    equal("sii_field_by_index, offset", expected.offset, got.offset);
    equal("sii_field_by_index, lacking", expected.lacking, got.lacking);
    equal("sii_field_by_index, type_id", expected.type_id, got.type_id);
    equal("sii_field_by_index, part_offset", expected.part_offset, got.part_offset);
    equal("sii_field_by_index, part_len", expected.part_len, got.part_len);
    same_bytes("index", index, lent.start, lent.size);
    give_back("around the index", lent);
    end(loan, name);
}

static void defines_once(const uint8_t *bytes, size_t len, size_t words, SiiNumber expected)
{
    Loan loan = begin(bytes, len, words, "");
    SiiNumber got = sii_defines_once(FILE_AND_TABLE(loan));
    equal("sii_defines_once, number", expected.number, got.number);
    equal("sii_defines_once, offset", expected.offset, got.offset);
    equal("sii_defines_once, lacking", expected.lacking, got.lacking);
    equal("sii_defines_once, value", expected.value, got.value);
    end(loan, "");
}

static void forecast(const uint8_t *bytes, size_t len, size_t words, SiiForecast expected)
{
    Loan loan = begin(bytes, len, words, "");
    SiiForecast got = sii_forecast(FILE_AND_TABLE(loan));
    equal("sii_forecast, number", expected.number, got.number);
    equal("sii_forecast, offset", expected.offset, got.offset);
    equal("sii_forecast, lacking", expected.lacking, got.lacking);
    equal("sii_forecast, table_words", expected.table_words, got.table_words);
    equal("sii_forecast, text_len", expected.text_len, got.text_len);
    equal("sii_forecast, index_len", expected.index_len, got.index_len);
    equal("sii_forecast, largest_block", expected.largest_block, got.largest_block);
    equal("sii_forecast, steps", expected.steps, got.steps);
    end(loan, "");
}

/* what a file will need, but for its text */
static SiiForecast needs(uint64_t table_words, uint64_t blocks, uint64_t largest_block, uint64_t steps)
{
    return (SiiForecast){.table_words = table_words, .index_len = 12 * blocks, .largest_block = largest_block, .steps = steps};
}

static SiiForecast no_forecast(uint32_t number, uint64_t offset, uint64_t lacking)
{
    return (SiiForecast){.number = number, .offset = offset, .lacking = lacking};
}

/* with fewer words than foretold, whatever the output is */
static void too_few_words(const uint8_t *bytes, size_t len, size_t words, size_t output_len)
{
    Loan loan = begin(bytes, len, words, "");
    Lent output = lend(output_len, GUARD);
    equal("sii_forecast with too few words", SII_TABLE_FULL, sii_forecast(FILE_AND_TABLE(loan)).number);
    equal("sii_to_siin with too few words", SII_TABLE_FULL, sii_to_siin(FILE_AND_TABLE(loan), output.start, output.size).number);
    give_back("around the output", output);
    end(loan, "");
}

/* The index is written as a text is, and accepted; and by each of its bytes it is another. */
static void has_index(const uint8_t *bytes, size_t len, size_t words, const void *index, size_t length)
{
    uint8_t other[64];
    size_t at;
    write_index(bytes, len, words, length, (SiiLength){0, 0, 0, length}, index);
    write_index(bytes, len, words, length + 50, (SiiLength){0, 0, 0, length}, index);
    check_index(bytes, len, words, index, length, (SiiChecked){0, 0, 0});
    if (length == 0)
        return;
    write_index(bytes, len, words, length - 1, (SiiLength){SII_OUTPUT_SHORT, 0, 0, length}, "");
    write_index(bytes, len, words, 0, (SiiLength){SII_OUTPUT_SHORT, 0, 0, length}, "");
    memcpy(other, index, length);
    memset(other + length, 0, 13);
    for (at = 0; at < length; at++) {
        check_index(bytes, len, words, index, at, (SiiChecked){SII_MISFIT, at / 12 * 12, 0});
        other[at] ^= 0x10;
        check_index(bytes, len, words, other, length, (SiiChecked){SII_MISFIT, at / 12 * 12, 0});
        other[at] ^= 0x10;
    }
    for (at = 1; at <= 13; at++)
        check_index(bytes, len, words, other, length + at, (SiiChecked){SII_MISFIT, length, 0});
}

/*
 * It is foretold, with these words, with just those that it needs and with those that are enough for its length. The text whole, into an output of
 * just its length and into a longer one, and refused for an output that is a byte short and for none, and for every smaller table.
 */
static void converts(const uint8_t *bytes, size_t len, size_t words, const char *expected, SiiForecast foretold)
{
    size_t length = strlen(expected), fewer;
    foretold.text_len = length;
    forecast(bytes, len, words, foretold);
    forecast(bytes, len, (size_t)foretold.table_words, foretold);
    forecast(bytes, len, len / 17 * 3, foretold);
    for (fewer = 0; fewer < foretold.table_words; fewer++) {
        too_few_words(bytes, len, fewer, 0);
        too_few_words(bytes, len, fewer, length + 50);
    }
    text(bytes, len, (size_t)foretold.table_words, length, (SiiText){0, 0, 0, length, foretold.steps}, expected);
    text(bytes, len, words, length, (SiiText){0, 0, 0, length, foretold.steps}, expected);
    text(bytes, len, words, length + 50, (SiiText){0, 0, 0, length, foretold.steps}, expected);
    text(bytes, len, words, length - 1, (SiiText){SII_OUTPUT_SHORT, 0, 0, length, 0}, "");
    text(bytes, len, words, 0, (SiiText){SII_OUTPUT_SHORT, 0, 0, length, 0}, "");
}

static SiiElement place(uint32_t kind, uint64_t offset, uint64_t len)
{
    return (SiiElement){.kind = kind, .place_offset = offset, .place_len = len};
}

static SiiElement value(uint32_t kind, uint64_t n)
{
    return (SiiElement){.kind = kind, .value = n};
}

static SiiElement no_element(uint32_t number, uint64_t offset)
{
    return (SiiElement){.number = number, .offset = offset};
}

static SiiElement cut_element(uint64_t offset, uint64_t lacking)
{
    return (SiiElement){.number = SII_MALFORMED, .offset = offset, .lacking = lacking};
}

/* A fault of the file is the answer of every call that takes it, whatever is asked for. */
static void fault(const char *name, const uint8_t *bytes, size_t len, size_t words, uint32_t number, uint64_t offset, uint64_t lacking)
{
    label = name;
    reading(bytes, len, words, (SiiReading){number, offset, lacking, 0, 0, 0});
    prototype(bytes, len, words, 7, (SiiPrototype){number, offset, lacking, 0, 0, 0});
    prototype(bytes, len, words, 8, (SiiPrototype){number, offset, lacking, 0, 0, 0});
    block(bytes, len, words, 0, (SiiBlock){number, offset, lacking, 0, 0, 0});
    block(bytes, len, words, 9, (SiiBlock){number, offset, lacking, 0, 0, 0});
    named_block(bytes, len, words, "trip", 0, (SiiNumber){number, offset, lacking, 0});
    named_block(bytes, len, words, "", 0, (SiiNumber){number, offset, lacking, 0});
    field(bytes, len, words, 0, "km", (SiiField){number, offset, lacking, 0, 0, 0});
    field(bytes, len, words, 0, "", (SiiField){number, offset, lacking, 0, 0, 0});
    text(bytes, len, words, 100, (SiiText){number, offset, lacking, 0, 0}, "");
    text(bytes, len, words, 0, (SiiText){number, offset, lacking, 0, 0}, "");
    write_index(bytes, len, words, 100, (SiiLength){number, offset, lacking, 0}, "");
    write_index(bytes, len, words, 0, (SiiLength){number, offset, lacking, 0}, "");
    check_index(bytes, len, words, "another", 7, (SiiChecked){number, offset, lacking});
    check_index(bytes, len, words, "", 0, (SiiChecked){number, offset, lacking});
    defines_once(bytes, len, words, (SiiNumber){number, offset, lacking, 0});
    forecast(bytes, len, words, no_forecast(number, offset, lacking));
}

/* any but 3: nothing is lacking */
static void refused(const char *name, const uint8_t *bytes, size_t len, size_t words, uint32_t number, uint64_t offset)
{
    fault(name, bytes, len, words, number, offset, 0);
}

/* the bytes run out in the item at the offset, which has so many more */
static void cut(const char *name, const uint8_t *bytes, size_t len, uint64_t offset, uint64_t lacking)
{
    fault(name, bytes, len, 3, SII_MALFORMED, offset, lacking);
}

/* ---- the worked file, and files made from it */

enum { WORKED = 82 };

static const uint8_t worked[WORKED] = {
    'B', 'S', 'I', 'I', 2, 0, 0, 0,
    /* 8: the prototype, its name at 21, the definitions at 25 and 35 */
    0, 0, 0, 0, 1, 7, 0, 0, 0, 4, 0, 0, 0, 't', 'r', 'i', 'p',
    0x27, 0, 0, 0, 2, 0, 0, 0, 'k', 'm',
    0x06, 0, 0, 0, 1, 0, 0, 0, 'w',
    0, 0, 0, 0,
    /* 48: the block, its id at 52, the values at 61 and 65 */
    7, 0, 0, 0, 1, 0x57, 0, 0, 0, 0, 0, 0, 0,
    0x2c, 1, 0, 0,
    2, 0, 0, 0, 0, 0, 0xc0, 0x3f, 0, 0, 0, 0xc0,
    /* 77: the end record */
    0, 0, 0, 0, 0,
};

static const char worked_text[] =
    "SiiNunit\n"
    "{\n"
    "trip : a1 {\n"
    "  km: 300\n"
    "  w: 2\n"
    "  w[0]: &3fc00000\n"
    "  w[1]: -2\n"
    "}\n"
    "}\n";

static uint8_t made[256];
static size_t made_len;

static void start(void)
{
    memcpy(made, worked, WORKED);
    made_len = WORKED;
}

static void insert(size_t at, const void *bytes, size_t count)
{
    memmove(made + at + count, made + at, made_len - at);
    memcpy(made + at, bytes, count);
    made_len += count;
}

/* The worked file with one byte changed is refused. */
static void damaged(const char *name, size_t at, uint8_t byte, uint32_t number, uint64_t offset)
{
    start();
    made[at] = byte;
    refused(name, made, made_len, 3, number, offset);
}

/* a number whose low 32 bits are 0: it must not be taken for 0 */
#define ABOVE_32_BITS ((uint64_t)1 << 32)

static void the_worked_file(void)
{
    size_t words;
    for (words = 3; words <= 12; words += 3) {
        label = "worked file";
        reading(worked, WORKED, words, (SiiReading){0, 0, 0, 1, 1, 82});
        prototype(worked, WORKED, words, 7, (SiiPrototype){0, 0, 0, 21, 4, 2});
        block(worked, WORKED, words, 0, (SiiBlock){0, 0, 0, 7, 52, 9});
        named_block(worked, WORKED, words, "trip", 0, (SiiNumber){0, 0, 0, 0});
        field(worked, WORKED, words, 0, "km", (SiiField){0, 0, 0, 0x27, 61, 4});
        field(worked, WORKED, words, 0, "w", (SiiField){0, 0, 0, 0x06, 65, 12});
        converts(worked, WORKED, words, worked_text, needs(3, 1, 29, 5));
        has_index(worked, WORKED, words, "\x30\0\0\x1d\0\0\x8\0\0\2\0\0", 12);
        defines_once(worked, WORKED, words, (SiiNumber){0, 0, 0, 1});
    }
    element(0x27, worked + 61, 4, 0, value(SII_KIND_U32, 300));
    element(0x06, worked + 65, 12, 0, (SiiElement){.kind = SII_KIND_F32, .a = 0x3fc00000});
    element(0x06, worked + 65, 12, 1, (SiiElement){.kind = SII_KIND_F32, .a = 0xc0000000});

    label = "worked file, bytes behind the end record";
    start();
    insert(82, "BSII\1\0\0\0", 8);
    reading(made, made_len, 3, (SiiReading){0, 0, 0, 1, 1, 82});
    converts(made, made_len, 3, worked_text, needs(3, 1, 29, 5));

    label = "worked file, what is not there";
    prototype(worked, WORKED, 3, 8, (SiiPrototype){SII_ABSENT, 0, 0, 0, 0, 0});
    prototype(worked, WORKED, 3, 0x107, (SiiPrototype){SII_ABSENT, 0, 0, 0, 0, 0});
    prototype(worked, WORKED, 3, 0x10007, (SiiPrototype){SII_ABSENT, 0, 0, 0, 0, 0});
    prototype(worked, WORKED, 3, 0, (SiiPrototype){SII_ABSENT, 0, 0, 0, 0, 0});
    block(worked, WORKED, 3, 1, (SiiBlock){SII_ABSENT, 0, 0, 0, 0, 0});
    block(worked, WORKED, 3, ABOVE_32_BITS, (SiiBlock){SII_ABSENT, 0, 0, 0, 0, 0});
    block(worked, WORKED, 3, UINT64_MAX, (SiiBlock){SII_ABSENT, 0, 0, 0, 0, 0});
    named_block(worked, WORKED, 3, "trip", 1, (SiiNumber){SII_ABSENT, 0, 0, 0});
    named_block(worked, WORKED, 3, "trip", ABOVE_32_BITS, (SiiNumber){SII_ABSENT, 0, 0, 0});
    named_block(worked, WORKED, 3, "trip", UINT64_MAX, (SiiNumber){SII_ABSENT, 0, 0, 0});
    named_block(worked, WORKED, 3, "tri", 0, (SiiNumber){SII_ABSENT, 0, 0, 0});
    named_block(worked, WORKED, 3, "trips", 0, (SiiNumber){SII_ABSENT, 0, 0, 0});
    named_block(worked, WORKED, 3, "", 0, (SiiNumber){SII_ABSENT, 0, 0, 0});
    named_block(worked, WORKED, 3, "\xff", 0, (SiiNumber){SII_ABSENT, 0, 0, 0});
    field(worked, WORKED, 3, 0, "k", (SiiField){SII_ABSENT, 0, 0, 0, 0, 0});
    field(worked, WORKED, 3, 0, "kmh", (SiiField){SII_ABSENT, 0, 0, 0, 0, 0});
    field(worked, WORKED, 3, 0, "", (SiiField){SII_ABSENT, 0, 0, 0, 0, 0});
    field(worked, WORKED, 3, 1, "km", (SiiField){SII_ABSENT, 0, 0, 0, 0, 0});
    field(worked, WORKED, 3, ABOVE_32_BITS, "km", (SiiField){SII_ABSENT, 0, 0, 0, 0, 0});
    field(worked, WORKED, 3, UINT64_MAX, "km", (SiiField){SII_ABSENT, 0, 0, 0, 0, 0});
    element(0x27, worked + 61, 4, 1, no_element(SII_ABSENT, 0));
    element(0x06, worked + 65, 12, 2, no_element(SII_ABSENT, 0));
}

/* each cut of the worked file, and of a file whose strings say to be longer than any file */
static void cuts(void)
{
    /* where the numbers, bytes and strings of the worked file start, behind its first four bytes */
    static const size_t items[] = {4, 8, 12, 13, 17, 21, 25, 29, 33, 35, 39, 43, 44, 48, 52, 53, 61, 65, 69, 73, 77, 81, 82};
    size_t item, len;

    for (len = 0; len < 4; len++)
        refused("cut in the first 4 bytes", worked, len, 3, SII_INVALID_HEADER, 0);
    for (item = 0; items[item] < WORKED; item++)
        for (len = items[item]; len < items[item + 1]; len++)
            cut("cut file", worked, len, items[item], items[item + 1] - len);

    start();
    memset(made + 17, 0xff, 4);
    for (len = 21; len <= made_len; len++)
        cut("prototype name of 4294967295 bytes", made, len, 21, UINT32_MAX - (len - 21));
    start();
    made[32] = 0x80;
    cut("field name of 2147483650 bytes", made, made_len, 33, 0x80000002 - (made_len - 33));
    start();
    memset(made + 33, 0xff, 2);
    cut("field name not UTF-8, and cut", made, 34, 33, 1);
}

/* bytes without a terminator, and how many */
#define BYTES(literal) (literal), sizeof(literal) - 1

/* a u16 in two blocks, at 35 and 42; the literal's own zero is the end record's mark */
static const char save[] = "BSII\2\0\0\0"
                           "\0\0\0\0\1\3\0\0\0\1\0\0\0t\x2b\0\0\0\1\0\0\0n\0\0\0\0"
                           "\3\0\0\0\0\5\0"
                           "\3\0\0\0\1\x22\0\0\0\0\0\0\0\7\0"
                           "\0\0\0\0";
static const uint8_t *const save_bytes = (const uint8_t *)save;

/* cuts, by their offsets and lacking bytes: a name, and a save with a u16 in two blocks */
static void worked_cuts(void)
{
    const uint8_t *bytes = save_bytes;
    cut("version", bytes, 5, 4, 3);
    cut("record number", bytes, 10, 8, 2);
    start();
    made[12] = 3;
    refused("mark 3", made, 13, 3, SII_BAD_MARK, 12);
    fault("name", (const uint8_t *)BYTES("BSII\2\0\0\0\0\0\0\0\1\3\0\0\0\5\0\0\0ab"), 3, SII_MALFORMED, 21, 3);
    cut("u16", bytes, 41, 40, 1);
    label = "save with a u16 in two blocks";
    reading(bytes, sizeof save, 3, (SiiReading){0, 0, 0, 1, 2, 62});
}

/* the two saves that the forecast was worked out for: the second has three fields, an array of bools and a string among them, in two blocks */
static void worked_forecasts(void)
{
    static const char sheet[] = "BSII\2\0\0\0"
                                "\0\0\0\0\1\3\0\0\0\1\0\0\0t\x2b\0\0\0\1\0\0\0n\x36\0\0\0\1\0\0\0f\1\0\0\0\1\0\0\0s\0\0\0\0"
                                "\3\0\0\0\0\5\0\2\0\0\0\1\0\3\0\0\0a\tb"
                                "\3\0\0\0\1\x22\0\0\0\0\0\0\0\xff\xff\0\0\0\0\2\0\0\0ok"
                                "\0\0\0\0";
    label = "worked forecasts";
    converts(save_bytes, sizeof save, 3, "SiiNunit\n{\nt : null {\n  n: 5\n}\nt : x {\n  n: 7\n}\n}\n", needs(3, 2, 15, 6));
    forecast(save_bytes, sizeof save, 3, (SiiForecast){0, 0, 0, 3, 50, 24, 15, 6});
    refused("worked forecast, 2 words", save_bytes, sizeof save, 2, SII_TABLE_FULL, 8);
    label = "worked forecasts";
    equal("bytes of the second save", 103, sizeof sheet);
    forecast((const uint8_t *)sheet, sizeof sheet, 3, (SiiForecast){0, 0, 0, 3, 115, 24, 25, 10});
    converts((const uint8_t *)sheet, sizeof sheet, 3,
             "SiiNunit\n{\nt : null {\n  n: 5\n  f: 2\n  f[0]: true\n  f[1]: false\n  s: \"a\\x09b\"\n}\n"
             "t : x {\n  n: nil\n  f: 0\n  s: ok\n}\n}\n",
             needs(3, 2, 25, 10));
}

/* The mark is there and is neither 0 nor 1, whatever stands behind it. */
static void marks(void)
{
    static const size_t places[] = {12, 81};
    size_t at, place;
    unsigned mark;
    for (at = 0; at < 2; at++) {
        place = places[at];
        for (mark = 2; mark < 256; mark++) {
            start();
            made[place] = (uint8_t)mark;
            label = "a mark above 1";
            reading(made, made_len, 3, (SiiReading){SII_BAD_MARK, place, 0, 0, 0, 0});
            reading(made, place + 1, 3, (SiiReading){SII_BAD_MARK, place, 0, 0, 0, 0});
        }
        refused("mark 255", made, made_len, 3, SII_BAD_MARK, place);
        refused("mark 255, and nothing behind it", made, place + 1, 3, SII_BAD_MARK, place);
        cut("a mark that is not there", made, place, place, 1);
    }
}

static void damage(void)
{
    static const uint8_t other_prototype[] = {0, 0, 0, 0, 1, 7, 0, 0, 0, 1, 0, 0, 0, 'q', 0x27, 0, 0, 0, 1, 0, 0, 0, 'x', 0, 0, 0, 0};
    static const uint8_t enum_list[] = {1, 0, 0, 0, 5, 0, 0, 0, 4, 0, 0, 0, 'f', 'i', 'v', 'e'};
    size_t len;

    damaged("first byte", 0, 'b', SII_INVALID_HEADER, 0);
    damaged("fourth byte", 3, 'i', SII_INVALID_HEADER, 0);
    damaged("mark 2", 12, 2, SII_BAD_MARK, 12);
    damaged("prototype name not UTF-8", 21, 0xff, SII_NOT_UTF8, 21);
    damaged("field name not UTF-8", 34, 0xc3, SII_NOT_UTF8, 33);
    damaged("word 38", 53, 38, SII_ZERO_DIGIT, 53);
    damaged("undefined prototype", 48, 8, SII_UNDEFINED_PROTOTYPE, 48);
    damaged("unlisted type of the first field", 25, 0x08, SII_UNLISTED_TYPE, 61);
    damaged("unlisted type of the second field", 36, 1, SII_UNLISTED_TYPE, 65);

    for (len = 0; len < 3; len++)
        refused("no room in the table", worked, WORKED, len, SII_TABLE_FULL, 8);

    start();
    insert(77, other_prototype, sizeof other_prototype);
    label = "the last definition has fewer fields";
    reading(made, made_len, 3, (SiiReading){0, 0, 0, 1, 1, made_len});
    prototype(made, made_len, 3, 7, (SiiPrototype){0, 0, 0, 90, 1, 1});
    field(made, made_len, 3, 0, "x", (SiiField){0, 0, 0, 0x27, 61, 4});
    field(made, made_len, 3, 0, "km", (SiiField){SII_ABSENT, 0, 0, 0, 0, 0});
    has_index(made, made_len, 3, "\x30\0\0\x1d\0\0\x8\0\0\2\0\0", 12);
    defines_once(made, made_len, 3, (SiiNumber){0, 0, 0, 0});
    text(made, made_len, 3, 100, (SiiText){SII_FIELD_COUNT, 48, 0, 0, 0}, "");
    text(made, made_len, 3, 0, (SiiText){SII_FIELD_COUNT, 48, 0, 0, 0}, "");
    forecast(made, made_len, 3, no_forecast(SII_FIELD_COUNT, 48, 0));

    start();
    made[25] = 0x37;
    insert(35, enum_list, sizeof enum_list);
    label = "an enum value that its list lacks";
    reading(made, made_len, 3, (SiiReading){0, 0, 0, 1, 1, made_len});
    field(made, made_len, 3, 0, "km", (SiiField){0, 0, 0, 0x37, 77, 4});
    element(0x37, made + 77, 4, 0, value(SII_KIND_ENUM, 300));
    has_index(made, made_len, 3, "\x40\0\0\x1d\0\0\x8\0\0\2\0\0", 12);
    text(made, made_len, 3, 100, (SiiText){SII_ENUM_VALUE, 77, 0, 0, 0}, "");
    text(made, made_len, 3, 0, (SiiText){SII_ENUM_VALUE, 77, 0, 0, 0}, "");
    forecast(made, made_len, 3, no_forecast(SII_ENUM_VALUE, 77, 0));
}

/* two prototypes and two blocks, with an enum: the worked list of insertions of FORMAT.md, "Widening" */
static void the_widened_file(void)
{
    static const uint8_t definition[] = {0x37, 0, 0, 0, 1, 0, 0, 0, 'e', 1, 0, 0, 0, 5, 0, 0, 0, 4, 0, 0, 0, 'f', 'i', 'v', 'e'};
    static const uint8_t new_prototype[] = {0, 0, 0, 0, 1, 9, 0, 0, 0, 1, 0, 0, 0, 'p', 0x35, 0, 0, 0, 1, 0, 0, 0, 'b', 0, 0, 0, 0};
    static const uint8_t new_block[] = {9, 0, 0, 0, 0, 1};
    static const uint8_t five[] = {5, 0, 0, 0};
    static const char expected[] =
        "SiiNunit\n"
        "{\n"
        "trip : a1 {\n"
        "  km: 300\n"
        "  e: five\n"
        "  w: 2\n"
        "  w[0]: &3fc00000\n"
        "  w[1]: -2\n"
        "}\n"
        "p : null {\n"
        "  b: true\n"
        "}\n"
        "}\n";
    start();
    insert(77, new_block, sizeof new_block);
    insert(65, five, sizeof five);
    insert(35, definition, sizeof definition);
    insert(8, new_prototype, sizeof new_prototype);
    refused("widened file, 5 words", made, made_len, 5, SII_TABLE_FULL, 35);
    label = "widened file";
    reading(made, made_len, 6, (SiiReading){0, 0, 0, 2, 2, 144});
    prototype(made, made_len, 6, 7, (SiiPrototype){0, 0, 0, 48, 4, 3});
    prototype(made, made_len, 6, 9, (SiiPrototype){0, 0, 0, 21, 1, 1});
    block(made, made_len, 6, 0, (SiiBlock){0, 0, 0, 7, 104, 9});
    block(made, made_len, 6, 1, (SiiBlock){0, 0, 0, 9, 137, 1});
    named_block(made, made_len, 6, "trip", 0, (SiiNumber){0, 0, 0, 0});
    named_block(made, made_len, 6, "p", 0, (SiiNumber){0, 0, 0, 1});
    named_block(made, made_len, 6, "p", 1, (SiiNumber){SII_ABSENT, 0, 0, 0});
    field(made, made_len, 6, 0, "km", (SiiField){0, 0, 0, 0x27, 113, 4});
    field(made, made_len, 6, 0, "e", (SiiField){0, 0, 0, 0x37, 117, 4});
    field(made, made_len, 6, 0, "w", (SiiField){0, 0, 0, 0x06, 121, 12});
    field(made, made_len, 6, 1, "b", (SiiField){0, 0, 0, 0x35, 138, 1});
    field(made, made_len, 6, 1, "km", (SiiField){SII_ABSENT, 0, 0, 0, 0, 0});
    converts(made, made_len, 6, expected, needs(6, 2, 33, 9));
    has_index(made, made_len, 6, "\x64\0\0\x21\0\0\x23\0\0\3\0\0\x85\0\0\6\0\0\x8\0\0\1\0\0", 24);
    defines_once(made, made_len, 6, (SiiNumber){0, 0, 0, 1});
}

/* a prototype id defined again behind its block: FORMAT.md, "A prototype id defined again" */
static void the_redefined_file(void)
{
    static const uint8_t file[] = {
        'B', 'S', 'I', 'I', 2, 0, 0, 0,
        0, 0, 0, 0, 1, 1, 0, 0, 0, 1, 0, 0, 0, 'p', 0x27, 0, 0, 0, 1, 0, 0, 0, 'f', 0, 0, 0, 0,
        1, 0, 0, 0, 0, 9, 0, 0, 0,
        0, 0, 0, 0, 1, 1, 0, 0, 0, 1, 0, 0, 0, 'q', 0x06, 0, 0, 0, 1, 0, 0, 0, 'g', 0, 0, 0, 0,
        0, 0, 0, 0, 0,
    };
    label = "redefined prototype";
    reading(file, sizeof file, 3, (SiiReading){0, 0, 0, 1, 1, 76});
    prototype(file, sizeof file, 3, 1, (SiiPrototype){0, 0, 0, 57, 1, 1});
    block(file, sizeof file, 3, 0, (SiiBlock){0, 0, 0, 1, 39, 1});
    named_block(file, sizeof file, 3, "q", 0, (SiiNumber){0, 0, 0, 0});
    named_block(file, sizeof file, 3, "p", 0, (SiiNumber){SII_ABSENT, 0, 0, 0});
    field(file, sizeof file, 3, 0, "g", (SiiField){0, 0, 0, 0x27, 40, 4});
    field(file, sizeof file, 3, 0, "f", (SiiField){SII_ABSENT, 0, 0, 0, 0, 0});
    /* the definition that is replaced is a step, and needs no words */
    converts(file, sizeof file, 3, "SiiNunit\n{\nq : null {\n  g: 9\n}\n}\n", needs(3, 1, 9, 5));
    /* by the definition in force */
    has_index(file, sizeof file, 3, "\x23\0\0\x9\0\0\x8\0\0\1\0\0", 12);
    by_index(file, sizeof file, BYTES("\x23\0\0\x9\0\0\x8\0\0\1\0\0"), 0, "f", (SiiField){0, 0, 0, 0x27, 40, 4});
    by_index(file, sizeof file, BYTES("\x23\0\0\x9\0\0\x8\0\0\1\0\0"), 0, "g", (SiiField){SII_ABSENT, 0, 0, 0, 0, 0});
    defines_once(file, sizeof file, 3, (SiiNumber){0, 0, 0, 0});
}

static SiiField no_field(uint32_t number, uint64_t offset)
{
    return (SiiField){.number = number, .offset = offset};
}

static SiiField cut_field(uint64_t offset, uint64_t lacking)
{
    return (SiiField){.number = SII_MALFORMED, .offset = offset, .lacking = lacking};
}

/* A record with these two offsets: its length and its number of fields are nonsense, which no call by it looks at. */
static const uint8_t *pointing(uint32_t to_block, uint32_t to_prototype)
{
    static uint8_t record[12];
    int i;
    memset(record, 0xff, sizeof record);
    for (i = 0; i < 3; i++) {
        record[i] = (uint8_t)(to_block >> 8 * i);
        record[6 + i] = (uint8_t)(to_prototype >> 8 * i);
    }
    return record;
}

/* The save with one byte changed, looked up by its index: block 0, `n`. */
static void changed(size_t at, uint8_t byte, SiiField expected)
{
    uint8_t other[sizeof save];
    memcpy(other, save, sizeof save);
    other[at] = byte;
    by_index(other, sizeof other, pointing(35, 8), 12, 0, "n", expected);
}

/* the look-ups by an index: the worked ones, and indexes of any kind */
static void look_ups(void)
{
    /* the literal's own zero is the last byte */
    static const char index[] = "\x23\0\0\7\0\0\x8\0\0\1\0\0\x2a\0\0\xf\0\0\x8\0\0\1\0";
    static const uint8_t inserted[] = {3, 0, 0, 0, 0, 9, 0};
    static const uint8_t empty[] = {'B', 'S', 'I', 'I', 2, 0, 0, 0, 0, 0, 0, 0, 0};
    const SiiField second = {0, 0, 0, 0x2b, 55, 2};
    /* where the items of the prototype start */
    static const size_t items[] = {8, 12, 13, 17, 21, 22, 26, 30, 31, 35};
    uint8_t wider[sizeof save + sizeof inserted];
    size_t len, item;
    unsigned mark;

    label = "index";
    has_index(save_bytes, sizeof save, 3, index, 24);
    has_index(empty, sizeof empty, 0, "", 0);
    check_index(empty, sizeof empty, 0, "\0", 1, (SiiChecked){SII_MISFIT, 0, 0});
    check_index(save_bytes, sizeof save, 3, BYTES("\x2a\0\0\xf\0\0\x8\0\0\1\0\0\x23\0\0\7\0\0\x8\0\0\1\0\0"), (SiiChecked){SII_MISFIT, 0, 0});
    defines_once(save_bytes, sizeof save, 3, (SiiNumber){0, 0, 0, 1});
    label = "look-up";
    by_index(save_bytes, sizeof save, index, 24, 0, "n", (SiiField){0, 0, 0, 0x2b, 40, 2});
    by_index(save_bytes, sizeof save, index, 24, 1, "n", second);
    by_index(save_bytes, sizeof save, pointing(42, 8), 12, 0, "n", second);
    by_index(save_bytes, sizeof save, index, 24, 1, "zz", no_field(SII_ABSENT, 0));
    by_index(save_bytes, sizeof save, index, 24, 1, "", no_field(SII_ABSENT, 0));
    label = "look-up, no record";
    by_index(save_bytes, sizeof save, index, 24, 2, "n", no_field(SII_ABSENT, 0));
    by_index(save_bytes, sizeof save, index, 23, 1, "n", no_field(SII_ABSENT, 0));
    by_index(save_bytes, sizeof save, index, 24, ABOVE_32_BITS, "n", no_field(SII_ABSENT, 0));
    by_index(save_bytes, sizeof save, index, 24, UINT64_MAX / 12 + 1, "n", no_field(SII_ABSENT, 0));
    by_index(save_bytes, sizeof save, index, 24, UINT64_MAX, "n", no_field(SII_ABSENT, 0));
    by_index(save_bytes, sizeof save, "", 0, 0, "n", no_field(SII_ABSENT, 0));
    label = "look-up, other offsets";
    by_index(save_bytes, sizeof save, BYTES("\x2a\0\0\0\0\0\x2a\0\0\0\0\0"), 0, "n", no_field(SII_UNDEFINED_PROTOTYPE, 42));
    by_index(save_bytes, sizeof save, BYTES("\x3c\0\0\0\0\0\x8\0\0\0\0\0"), 0, "zz", cut_field(60, 2));
    by_index(save_bytes, sizeof save, pointing(8, 35), 12, 0, "n", no_field(SII_UNDEFINED_PROTOTYPE, 8));
    by_index(save_bytes, sizeof save, pointing(8, 8), 12, 0, "n", no_field(SII_UNDEFINED_PROTOTYPE, 8));
    by_index(save_bytes, sizeof save, pointing(35, 57), 12, 0, "n", no_field(SII_UNDEFINED_PROTOTYPE, 35));
    by_index(save_bytes, sizeof save, pointing(35, 62), 12, 0, "n", cut_field(62, 4));
    by_index(save_bytes, sizeof save, pointing(99, 61), 12, 0, "n", cut_field(61, 3));
    by_index(save_bytes, sizeof save, pointing(0xffffff, 8), 12, 0, "n", cut_field(0xffffff, 4));
    by_index(save_bytes, sizeof save, pointing(0xffffff, 0xfffffe), 12, 0, "n", cut_field(0xfffffe, 4));
    by_index(save_bytes, sizeof save, pointing(0xffffff, 35), 12, 0, "n", no_field(SII_UNDEFINED_PROTOTYPE, 0xffffff));
    label = "look-up, cut save";
    for (len = 0; len < 8; len++) {
        by_index(save_bytes, len, index, 24, 0, "n", cut_field(4, len < 4 ? 4 : 8 - len));
        by_index(save_bytes, len, index, 24, 2, "n", no_field(SII_ABSENT, 0));
    }
    for (item = 0; items[item] < 35; item++)
        for (len = items[item]; len < items[item + 1]; len++) {
            by_index(save_bytes, len, index, 24, 0, "n", cut_field(items[item], items[item + 1] - len));
            by_index(save_bytes, len, pointing(99, 8), 12, 0, "n", cut_field(items[item], items[item + 1] - len));
        }
    by_index(save_bytes, 41, index, 24, 0, "zz", cut_field(40, 1));
    by_index(save_bytes, 50, index, 24, 1, "n", cut_field(47, 5));
    /* nothing behind the block is read, and nothing of the header but the version */
    by_index(save_bytes, 57, index, 24, 1, "n", second);
    label = "look-up, changed save";
    changed(0, 'b', (SiiField){0, 0, 0, 0x2b, 40, 2});
    changed(11, 1, no_field(SII_UNDEFINED_PROTOTYPE, 35));
    for (mark = 0; mark < 256; mark++)
        if (mark != 1)
            changed(12, (uint8_t)mark, no_field(SII_UNDEFINED_PROTOTYPE, 35));
    changed(13, 4, no_field(SII_UNDEFINED_PROTOTYPE, 35));
    changed(21, 0xff, no_field(SII_NOT_UTF8, 21));
    changed(22, 8, no_field(SII_UNLISTED_TYPE, 40));
    changed(30, 0xff, no_field(SII_NOT_UTF8, 30));
    changed(35, 0, no_field(SII_UNDEFINED_PROTOTYPE, 35));

    label = "stale index";
    memcpy(wider, save, 35);
    memcpy(wider + 35, inserted, sizeof inserted);
    memcpy(wider + 35 + sizeof inserted, save + 35, sizeof save - 35);
    check_index(wider, sizeof wider, 3, index, 24, (SiiChecked){SII_MISFIT, 12, 0});
    by_index(wider, sizeof wider, index, 24, 0, "n", (SiiField){0, 0, 0, 0x2b, 40, 2});
    equal("the value that a stale index finds", 9, wider[40]);
}

/* Every value of a block is read, also behind the one that is asked for. */
static void values_behind_the_asked_one(void)
{
    /* the literal's own zero is the last byte */
    static const char index[] = "\x30\0\0\x1d\0\0\x8\0\0\2\0";
    label = "values behind the asked one";
    by_index(worked, WORKED, index, 12, 0, "km", (SiiField){0, 0, 0, 0x27, 61, 4});
    by_index(worked, WORKED, index, 12, 0, "w", (SiiField){0, 0, 0, 0x06, 65, 12});
    by_index(worked, 76, index, 12, 0, "km", cut_field(73, 1));
    by_index(worked, 76, index, 12, 0, "zz", cut_field(73, 1));
    start();
    made[35] = 8;
    by_index(made, made_len, index, 12, 0, "km", no_field(SII_UNLISTED_TYPE, 65));
    start();
    made[53] = 38;
    by_index(made, made_len, index, 12, 0, "zz", no_field(SII_ZERO_DIGIT, 53));
}

/* one block with an array of three f32 and a single four f32; each of its cuts from the array on; other types in their place */
static void the_file_with_vectors(void)
{
    static const uint8_t file[] = {
        'B', 'S', 'I', 'I', 2, 0, 0, 0,
        /* 8: the prototype, its definitions at 22 and 31 */
        0, 0, 0, 0, 1, 3, 0, 0, 0, 1, 0, 0, 0, 't',
        0x0a, 0, 0, 0, 1, 0, 0, 0, 'v',
        0x17, 0, 0, 0, 1, 0, 0, 0, 'r',
        0, 0, 0, 0,
        /* 44: the block, its id at 48, the values at 49 and 65 */
        3, 0, 0, 0, 0,
        1, 0, 0, 0, 0, 0, 0, 0x3f, 0, 0, 0x80, 0x3f, 0, 0, 0, 0xc0,
        0, 0, 0x80, 0x3f, 0, 0, 0, 0, 0, 0, 0, 0, 0, 0, 0, 0x80,
        /* 81: the end record */
        0, 0, 0, 0, 0,
    };
    static const uint8_t unlisted[] = {0x08, 0x0b, 0x16, 0x38};
    const SiiElement three = {.kind = SII_KIND_THREE_F32, .a = 0x3f000000, .b = 0x3f800000, .c = 0xc0000000};
    const SiiElement four = {.kind = SII_KIND_FOUR_F32, .a = 0x3f800000, .d = 0x80000000};
    uint8_t other[sizeof file];
    size_t at, len, item;
    label = "vectors";
    reading(file, sizeof file, 3, (SiiReading){0, 0, 0, 1, 1, 86});
    field(file, sizeof file, 3, 0, "v", (SiiField){0, 0, 0, 0x0a, 49, 16});
    field(file, sizeof file, 3, 0, "r", (SiiField){0, 0, 0, 0x17, 65, 16});
    element(0x0a, file + 49, 16, 0, three);
    element(0x0a, file + 49, 16, 1, no_element(SII_ABSENT, 0));
    element(0x17, file + 65, 16, 0, four);
    element(0x17, file + 65, 16, 1, no_element(SII_ABSENT, 0));
    converts(file, sizeof file, 3, "SiiNunit\n{\nt : null {\n  v: 1\n  v[0]: (&3f000000, 1, -2)\n  r: (1; 0, 0, -0)\n}\n}\n", needs(3, 1, 37, 5));
    for (len = 49; len < 81; len++) {
        item = 49 + (len - 49) / 4 * 4;
        cut("cut vectors", file, len, item, item + 4 - len);
    }
    for (at = 0; at < sizeof unlisted; at++) {
        memcpy(other, file, sizeof file);
        other[22] = unlisted[at];
        refused("unlisted in place of 0x0a", other, sizeof other, 3, SII_UNLISTED_TYPE, 49);
        memcpy(other, file, sizeof file);
        other[31] = unlisted[at];
        refused("unlisted in place of 0x17", other, sizeof other, 3, SII_UNLISTED_TYPE, 65);
        element(unlisted[at], file + 65, 16, 0, no_element(SII_UNLISTED_TYPE, 0));
    }
}

static void set_version(uint8_t *file, uint32_t version)
{
    int i;
    for (i = 0; i < 4; i++)
        file[4 + i] = (uint8_t)(version >> 8 * i);
}

/* The version is no fault, and without placements it changes nothing. */
static void every_version(void)
{
    size_t at;
    for (at = 0; at <= VERSIONS; at++) {
        start();
        set_version(made, at < VERSIONS ? versions[at] : 1);
        label = "worked file of another version";
        reading(made, made_len, 3, (SiiReading){0, 0, 0, 1, 1, 82});
        field(made, made_len, 3, 0, "w", (SiiField){0, 0, 0, 0x06, 65, 12});
        converts(made, made_len, 3, worked_text, needs(3, 1, 29, 5));
        cut("header alone", made, 8, 8, 4);
        cut("header and a byte", made, 9, 8, 3);
        cut("version without its last byte", made, 7, 4, 1);
    }
}

/* a placement of seven floats, each of its cuts, and the same bytes in other versions: there the eighth float takes bytes of the end record */
static void the_file_of_version_1(void)
{
    static const uint8_t file[] = {
        'B', 'S', 'I', 'I', 1, 0, 0, 0,
        0, 0, 0, 0, 1, 2, 0, 0, 0, 1, 0, 0, 0, 'j', 0x19, 0, 0, 0, 1, 0, 0, 0, 'w', 0, 0, 0, 0,
        /* 35: the block, its id at 39, the value at 40 */
        2, 0, 0, 0, 0,
        0, 0, 0x80, 0x3f, 0, 0, 0, 0x80, 0, 0, 0, 0x80, 2, 0, 0x80, 0x7f, 0, 0, 0, 0, 0, 0, 0xc0, 0x3f, 0, 0, 0, 0xc0,
        /* 68: the end record */
        0, 0, 0, 0, 0,
    };
    const SiiElement seven = {
        .kind = SII_KIND_SEVEN_F32, .a = 0x3f800000, .b = 0x80000000, .c = 0x80000000, .d = 0x7fc00000, .f = 0x3fc00000, .g = 0xc0000000};
    uint8_t other[sizeof file];
    size_t at, len, item;
    label = "version 1";
    reading(file, sizeof file, 3, (SiiReading){0, 0, 0, 1, 1, 73});
    field(file, sizeof file, 3, 0, "w", (SiiField){0, 0, 0, 0x19, 40, 28});
    converts(file, sizeof file, 3, "SiiNunit\n{\nj : null {\n  w: (1, -0, -0) (&7f800002; 0, &3fc00000, -2)\n}\n}\n", needs(3, 1, 33, 4));
    has_index(file, sizeof file, 3, "\x23\0\0\x21\0\0\x8\0\0\1\0\0", 12);
    by_index(file, sizeof file, pointing(35, 8), 12, 0, "w", (SiiField){0, 0, 0, 0x19, 40, 28});
    element_in(1, 0x19, file + 40, 28, 0, seven);
    element_in(1, 0x19, file + 40, 33, 0, seven);
    element_in(1, 0x19, file + 40, 28, 1, no_element(SII_ABSENT, 0));
    for (len = 0; len < 28; len++) {
        item = len / 4 * 4;
        cut("cut placement of version 1", file, 40 + len, 40 + item, item + 4 - len);
        element_in(1, 0x19, file + 40, len, 0, cut_element(item, item + 4 - len));
    }
    element(0x19, file + 40, 28, 0, cut_element(28, 4));
    for (at = 0; at < VERSIONS; at++) {
        memcpy(other, file, sizeof file);
        set_version(other, versions[at]);
        cut("placement of seven floats in another version", other, sizeof other, 72, 3);
        by_index(other, sizeof other, pointing(35, 8), 12, 0, "w", (SiiField){0, 0, 0, 0x19, 40, 32});
        by_index(other, 68, pointing(35, 8), 12, 0, "w", cut_field(68, 4));
    }
}

/* an array of placements of version 1, of seven floats each, and a field behind it */
static void placements_of_version_1(void)
{
    static const uint8_t file[] = {
        'B', 'S', 'I', 'I', 1, 0, 0, 0,
        0, 0, 0, 0, 1, 2, 0, 0, 0, 1, 0, 0, 0, 'j', 0x1a, 0, 0, 0, 1, 0, 0, 0, 'w', 0x27, 0, 0, 0, 1, 0, 0, 0, 'n', 0, 0, 0, 0,
        /* 44: the block, its id at 48, the values at 49 and 109 */
        2, 0, 0, 0, 0,
        2, 0, 0, 0,
        0, 0, 0, 0x80, 0, 0, 0x80, 0x3f, 1, 0, 0xc0, 0xff, 0, 8, 0, 0x4b, 1, 0, 0, 0, 0, 0, 0, 0, 0, 0, 0, 0,
        0, 0, 0x80, 0x7f, 0, 0, 0x80, 0xff, 0, 0, 0, 0x40, 0, 0, 0xc0, 0xbf, 0, 0, 0x80, 0x3f, 0, 0, 0, 0, 0, 0, 0, 0x80,
        9, 0, 0, 0,
        0, 0, 0, 0, 0,
    };
    const SiiElement first = {.kind = SII_KIND_SEVEN_F32, .a = 0x80000000, .b = 0x3f800000, .c = 0x7fc00000, .d = 0x4b000800, .e = 1};
    const SiiElement second = {
        .kind = SII_KIND_SEVEN_F32, .a = 0x7f800000, .b = 0xff800000, .c = 0x40000000, .d = 0xbfc00000, .e = 0x3f800000, .g = 0x80000000};
    size_t len, item;
    label = "array of version 1";
    reading(file, sizeof file, 3, (SiiReading){0, 0, 0, 1, 1, 118});
    field(file, sizeof file, 3, 0, "w", (SiiField){0, 0, 0, 0x1a, 49, 60});
    field(file, sizeof file, 3, 0, "n", (SiiField){0, 0, 0, 0x27, 109, 4});
    converts(file, sizeof file, 3,
             "SiiNunit\n{\nj : null {\n  w: 2\n  w[0]: (-0, 1, &ffc00001) (8390656; &1, 0, 0)\n"
             "  w[1]: (&7f800000, &ff800000, 2) (&bfc00000; 1, 0, -0)\n  n: 9\n}\n}\n",
             needs(3, 1, 69, 5));
    element_in(1, 0x1a, file + 49, 60, 0, first);
    element_in(1, 0x1a, file + 49, 60, 1, second);
    element_in(1, 0x1a, file + 49, 60, 2, no_element(SII_ABSENT, 0));
    for (len = 0; len < 60; len++) {
        item = len / 4 * 4;
        element_in(1, 0x1a, file + 49, len, 0, cut_element(item, item + 4 - len));
    }
    /* with two of eight floats the second one ends behind the field */
    element(0x1a, file + 49, 60, 0, cut_element(60, 4));
}

/* The smallest file, and the smallest prototypes: 17 bytes each, without a name and without fields. */
static void small_files(void)
{
    static const uint8_t smallest[] = {'B', 'S', 'I', 'I', 2, 0, 0, 0, 0, 0, 0, 0, 0};
    static const uint8_t nameless[] = {0, 0, 0, 0, 1, 1, 0, 0, 0, 0, 0, 0, 0, 0, 0, 0, 0};
    static const uint8_t its_block[] = {1, 0, 0, 0, 0};
    size_t count;

    label = "smallest file";
    reading(smallest, sizeof smallest, 0, (SiiReading){0, 0, 0, 0, 0, 13});
    reading(smallest, sizeof smallest, 2, (SiiReading){0, 0, 0, 0, 0, 13});
    block(smallest, sizeof smallest, 0, 0, (SiiBlock){SII_ABSENT, 0, 0, 0, 0, 0});
    converts(smallest, sizeof smallest, 0, "SiiNunit\n{\n}\n", needs(0, 0, 0, 1));

    memcpy(made, smallest, sizeof smallest);
    made_len = sizeof smallest;
    for (count = 1; count <= 8; count++) {
        insert(8, nameless, sizeof nameless);
        made[13] = (uint8_t)count;
        label = "smallest prototypes";
        reading(made, made_len, made_len / 17 * 3, (SiiReading){0, 0, 0, count, 0, made_len});
        reading(made, made_len, made_len / 17 * 3 - 1, (SiiReading){SII_TABLE_FULL, 8 + 17 * (count - 1), 0, 0, 0, 0});
        forecast(made, made_len, made_len / 17 * 3 - 1, no_forecast(SII_TABLE_FULL, 8 + 17 * (count - 1), 0));
        converts(made, made_len, made_len / 17 * 3, "SiiNunit\n{\n}\n", needs(3 * count, 0, 0, count + 1));
    }

    memcpy(made, smallest, sizeof smallest);
    made_len = sizeof smallest;
    insert(8, its_block, sizeof its_block);
    insert(8, nameless, sizeof nameless);
    label = "empty names";
    prototype(made, made_len, 3, 1, (SiiPrototype){0, 0, 0, 21, 0, 0});
    named_block(made, made_len, 3, "", 0, (SiiNumber){0, 0, 0, 0});
    field(made, made_len, 3, 0, "", (SiiField){SII_ABSENT, 0, 0, 0, 0, 0});
    converts(made, made_len, 3, "SiiNunit\n{\n : null {\n}\n}\n", needs(3, 1, 5, 3));
}

static void the_length_limit(void)
{
    uint8_t *file = calloc(1, (size_t)SII_LENGTH_LIMIT + 1);
    if (file == NULL) {
        printf("no memory for a file above the length limit\n");
        exit(1);
    }
    memcpy(file, worked, WORKED);
    label = "16,777,216 bytes";
    reading(file, 16777216, 3, (SiiReading){0, 0, 0, 1, 1, 82});
    text(file, 16777216, 3, 73, (SiiText){0, 0, 0, 73, 5}, worked_text);
    forecast(file, 16777216, 3, (SiiForecast){0, 0, 0, 3, 73, 12, 29, 5});
    write_index(file, 16777216, 3, 12, (SiiLength){0, 0, 0, 12}, "\x30\0\0\x1d\0\0\x8\0\0\2\0\0");
    by_index(file, 16777216, pointing(48, 8), 12, 0, "km", (SiiField){0, 0, 0, 0x27, 61, 4});
    by_index(file, 16777216, pointing(0xffffff, 8), 12, 0, "km", cut_field(0xffffff, 3));
    refused("16,777,217 bytes", file, 16777217, 3, SII_INPUT_LONG, 0);
    by_index(file, 16777217, pointing(48, 8), 12, 0, "km", no_field(SII_INPUT_LONG, 0));
    by_index(file, 16777217, "", 0, 0, "km", no_field(SII_INPUT_LONG, 0));
    file[0] = 0;
    label = "16,777,217 bytes, and not BSII";
    reading(file, 16777217, 4, (SiiReading){SII_INPUT_LONG, 0, 0, 0, 0, 0});
    free(file);
}

/* a needed length above 32 bits: an array of 2^20 bools, all false, under a name of 2^20 bytes */
static void a_long_text(void)
{
    static const uint8_t head[] = {'B', 'S', 'I', 'I', 2, 0, 0, 0, 0, 0, 0, 0, 1, 1, 0, 0, 0, 1, 0, 0, 0, 'p', 0x36, 0, 0, 0, 0, 0, 0x10, 0};
    static const uint8_t value[] = {0, 0, 0, 0, 1, 0, 0, 0, 0, 0, 0, 0x10, 0};
    const size_t many = (size_t)1 << 20, len = sizeof head + many + sizeof value + many + 5;
    uint8_t *file = calloc(1, len);
    if (file == NULL) {
        printf("no memory for a file with a long text\n");
        exit(1);
    }
    memcpy(file, head, sizeof head);
    memset(file + sizeof head, 'n', many);
    memcpy(file + sizeof head + many, value, sizeof value);
    label = "a long text";
    reading(file, len, 3, (SiiReading){0, 0, 0, 1, 1, len});
    text(file, len, 3, 100, (SiiText){SII_OUTPUT_SHORT, 0, 0, 1099531488224, 0}, "");
    forecast(file, len, 3, (SiiForecast){0, 0, 0, 3, 1099531488224, 12, 5 + 4 + many, 4});
    free(file);
}

static void elements(void)
{
    label = "string";
    element(0x01, BYTES("\2\0\0\0hi"), 0, place(SII_KIND_STRING, 4, 2));
    element(0x01, BYTES("\0\0\0\0"), 0, place(SII_KIND_STRING, 4, 0));
    element(0x02, BYTES("\2\0\0\0\1\0\0\0a\2\0\0\0bc"), 1, place(SII_KIND_STRING, 13, 2));
    element(0x01, BYTES("\2\0\0\0h"), 0, cut_element(4, 1));
    element(0x01, BYTES("\2\0\0\0\xc3h"), 0, no_element(SII_NOT_UTF8, 4));
    label = "encoded word";
    element(0x03, BYTES("\xe2\xb9\x37\x86\0\0\0\x80"), 0, value(SII_KIND_WORD, 0x8637b9e2));
    element(0x04, BYTES("\2\0\0\0\x57\0\0\0\0\0\0\0\1\0\0\0\0\0\0\0"), 0, value(SII_KIND_WORD, 0x57));
    element(0x04, BYTES("\2\0\0\0\x57\0\0\0\0\0\0\0\x26\0\0\0\0\0\0\0"), 0, no_element(SII_ZERO_DIGIT, 12));
    label = "floats";
    element(0x05, BYTES("\0\0\xc0\x3f"), 0, (SiiElement){.kind = SII_KIND_F32, .a = 0x3fc00000});
    element(0x05, BYTES("\0\0\0\x80"), 0, (SiiElement){.kind = SII_KIND_F32, .a = 0x80000000});
    element(0x05, BYTES("\1\0\xc0\xff"), 0, (SiiElement){.kind = SII_KIND_F32, .a = 0x7fc00000});
    element(0x07, BYTES("\1\0\0\0\2\0\0\0"), 0, (SiiElement){.kind = SII_KIND_TWO_F32, .a = 1, .b = 2});
    element(0x09, BYTES("\1\0\0\0\2\0\0\0\3\0\0\0"), 0, (SiiElement){.kind = SII_KIND_THREE_F32, .a = 1, .b = 2, .c = 3});
    element(0x0a, BYTES("\2\0\0\0\1\0\0\0\2\0\0\0\3\0\0\0\4\0\0\0\5\0\0\0\1\0\xc0\xff"), 1,
            (SiiElement){.kind = SII_KIND_THREE_F32, .a = 4, .b = 5, .c = 0x7fc00000});
    element(0x17, BYTES("\1\0\0\0\2\0\0\0\3\0\0\0\4\0\0\0"), 0,
            (SiiElement){.kind = SII_KIND_FOUR_F32, .a = 1, .b = 2, .c = 3, .d = 4});
    element(0x18, BYTES("\1\0\0\0\1\0\0\0\2\0\0\0\3\0\0\0\4\0\0\0"), 0,
            (SiiElement){.kind = SII_KIND_FOUR_F32, .a = 1, .b = 2, .c = 3, .d = 4});
    element(0x19, BYTES("\1\0\0\0\2\0\0\0\3\0\0\0\4\0\0\0\5\0\0\0\6\0\0\0\7\0\0\0\x8\0\0\0"), 0,
            (SiiElement){.kind = SII_KIND_PLACEMENT, .a = 1, .b = 2, .c = 3, .d = 4, .e = 5, .f = 6, .g = 7, .h = 8});
    element(0x1a, BYTES("\1\0\0\0\1\0\0\0\2\0\0\0\3\0\0\0\4\0\0\0\5\0\0\0\6\0\0\0\7\0\0\0\x8\0\0\0"), 0,
            (SiiElement){.kind = SII_KIND_PLACEMENT, .a = 1, .b = 2, .c = 3, .d = 4, .e = 5, .f = 6, .g = 7, .h = 8});
    label = "whole numbers";
    element(0x11, BYTES("\1\0\0\0\xfe\xff\xff\xff\3\0\0\0"), 0, (SiiElement){.kind = SII_KIND_THREE_I32, .a = 1, .b = 0xfffffffe, .c = 3});
    element(0x25, BYTES("\xfe\xff\xff\xff"), 0, value(SII_KIND_I32, 0xfffffffffffffffe));
    element(0x25, BYTES("\xfe\xff\xff\x7f"), 0, value(SII_KIND_I32, 0x7ffffffe));
    element(0x27, BYTES("\xff\xff\xff\xff"), 0, value(SII_KIND_U32, 0xffffffff));
    element(0x2f, BYTES("\1\2\3\4"), 0, value(SII_KIND_U32, 0x04030201));
    element(0x2b, BYTES("\xff\xfe"), 0, value(SII_KIND_U16, 0xfeff));
    element(0x31, BYTES("\0\0\0\0\0\0\0\x80"), 0, value(SII_KIND_I64, 0x8000000000000000));
    element(0x33, BYTES("\1\2\3\4\5\6\7\x8"), 0, value(SII_KIND_U64, 0x0807060504030201));
    label = "bool and enum";
    element(0x35, BYTES("\2"), 0, value(SII_KIND_BOOL, 1));
    element(0x36, BYTES("\2\0\0\0\1\0"), 1, value(SII_KIND_BOOL, 0));
    element(0x37, BYTES("\5\0\0\0"), 0, value(SII_KIND_ENUM, 5));
    label = "id";
    element(0x39, BYTES("\0"), 0, place(SII_KIND_ID, 0, 1));
    element(0x3b, BYTES("\2\1\0\0\0\0\0\0\0\2\0\0\0\0\0\0\0"), 0, place(SII_KIND_ID, 0, 17));
    element(0x3d, BYTES("\xff\0\0\0\0\0\0\0\0"), 0, place(SII_KIND_ID, 0, 9));
    element(0x3a, BYTES("\2\0\0\0\0\1\1\0\0\0\0\0\0\0"), 1, place(SII_KIND_ID, 5, 9));
    element(0x39, BYTES("\2\1\0\0\0\0\0\0\0\x26\0\0\0\0\0\0\0"), 0, no_element(SII_ZERO_DIGIT, 9));
    label = "element refused";
    element(0x08, BYTES("\1\2\3\4"), 0, no_element(SII_UNLISTED_TYPE, 0));
    element(0x127, BYTES(""), 3, no_element(SII_UNLISTED_TYPE, 0));
    element(0x28, BYTES("\0\0\0\0"), 0, no_element(SII_ABSENT, 0));
    element(0x27, BYTES("\1\2\3\4"), 1, no_element(SII_ABSENT, 0));
    element(0x27, BYTES("\1\2\3\4"), ABOVE_32_BITS, no_element(SII_ABSENT, 0));
    element(0x27, BYTES("\1\2\3\4"), UINT64_MAX, no_element(SII_ABSENT, 0));
    label = "bytes behind the value";
    element(0x27, BYTES("\1\0\0\0\2\0\0\0"), 0, value(SII_KIND_U32, 1));
}

/* Each cut of a value whose bytes are a head and then numbers of one size. */
static void cut_value(uint32_t type_id, const void *part, size_t part_len, size_t head, size_t size)
{
    size_t len, start;
    for (len = 0; len < part_len; len++) {
        start = len < head ? 0 : head + (len - head) / size * size;
        element(type_id, part, len, 0, cut_element(start, (len < head ? head : start + size) - len));
    }
}

static void cut_elements(void)
{
    label = "cut number";
    cut_value(0x2b, BYTES("\1\2"), 0, 2);
    cut_value(0x27, BYTES("\1\2\3\4"), 0, 4);
    cut_value(0x31, BYTES("\1\2\3\4\5\6\7\x8"), 0, 8);
    cut_value(0x03, BYTES("\1\0\0\0\0\0\0\0"), 0, 8);
    cut_value(0x35, BYTES("\1"), 0, 1);
    label = "cut vector";
    cut_value(0x07, BYTES("\1\0\0\0\2\0\0\0"), 0, 4);
    cut_value(0x11, BYTES("\1\0\0\0\2\0\0\0\3\0\0\0"), 0, 4);
    cut_value(0x17, BYTES("\1\0\0\0\2\0\0\0\3\0\0\0\4\0\0\0"), 0, 4);
    cut_value(0x19, BYTES("\1\0\0\0\2\0\0\0\3\0\0\0\4\0\0\0\5\0\0\0\6\0\0\0\7\0\0\0\x8\0\0\0"), 0, 4);
    label = "cut array";
    cut_value(0x28, BYTES("\2\0\0\0\1\0\0\0\2\0\0\0"), 4, 4);
    cut_value(0x0a, BYTES("\2\0\0\0\1\0\0\0\2\0\0\0\3\0\0\0\4\0\0\0\5\0\0\0\6\0\0\0"), 4, 4);
    cut_value(0x18, BYTES("\1\0\0\0\1\0\0\0\2\0\0\0\3\0\0\0\4\0\0\0"), 4, 4);
    cut_value(0x2c, BYTES("\2\0\0\0\1\0\2\0"), 4, 2);
    cut_value(0x34, BYTES("\2\0\0\0\1\0\0\0\0\0\0\0\2\0\0\0\0\0\0\0"), 4, 8);
    cut_value(0x36, BYTES("\2\0\0\0\1\0"), 4, 1);
    element(0x34, BYTES("\xff\xff\xff\xff"), 0, cut_element(4, 8));
    label = "cut id";
    cut_value(0x39, BYTES("\2\1\0\0\0\0\0\0\0\2\0\0\0\0\0\0\0"), 1, 8);
    cut_value(0x3b, BYTES("\xff\1\0\0\0\0\0\0\0"), 1, 8);
    element(0x3a, BYTES("\2\0\0\0\0"), 0, cut_element(5, 1));
    label = "cut string";
    cut_value(0x01, BYTES("\3\0\0\0abc"), 4, 3);
    element(0x01, BYTES("\xff\xff\xff\xff"), 0, cut_element(4, UINT32_MAX));
    element(0x02, BYTES("\2\0\0\0\1\0\0\0a\2\0\0"), 0, cut_element(9, 1));
    element(0x02, BYTES("\2\0\0\0\1\0\0\0a\2\0\0\0b"), 0, cut_element(13, 1));
    element(0x01, BYTES("\2\0\0\0\xff"), 0, cut_element(4, 1));
}

/* Each pointer of each call is NULL once, and both pointers of sii_to_siin: the other calls of this round have NULL where a length is 0. */
static void nothing_at_all(void)
{
    label = "NULL for every pointer";
    reading(NULL, 0, 0, (SiiReading){SII_INVALID_HEADER, 0, 0, 0, 0, 0});
    refused("NULL for the file", NULL, 0, 3, SII_INVALID_HEADER, 0);
    refused("NULL for the file and the table", NULL, 0, 0, SII_INVALID_HEADER, 0);
    refused("NULL for the table", worked, WORKED, 0, SII_TABLE_FULL, 8);
    label = "NULL for the name";
    named_block(worked, WORKED, 3, "", 0, (SiiNumber){SII_ABSENT, 0, 0, 0});
    field(worked, WORKED, 3, 0, "", (SiiField){SII_ABSENT, 0, 0, 0, 0, 0});
    label = "NULL for the part";
    element(0x27, NULL, 0, 0, cut_element(0, 4));
    element(0x08, NULL, 0, 0, no_element(SII_UNLISTED_TYPE, 0));
    label = "NULL for the output";
    text(worked, WORKED, 3, 0, (SiiText){SII_OUTPUT_SHORT, 0, 0, 73, 0}, "");
    label = "NULL for the index or its space";
    write_index(worked, WORKED, 3, 0, (SiiLength){SII_OUTPUT_SHORT, 0, 0, 12}, "");
    check_index(worked, WORKED, 3, "", 0, (SiiChecked){SII_MISFIT, 0, 0});
    by_index(worked, WORKED, "", 0, 0, "", no_field(SII_ABSENT, 0));
    by_index(NULL, 0, pointing(0, 0), 12, 0, "", cut_field(4, 4));
    by_index(worked, WORKED, pointing(48, 8), 12, 0, "", no_field(SII_ABSENT, 0));
    equal("areas that were NULL, 40 at least", 1, nulls >= 40);
}

/* the layout that the library was compiled for, on the machine it is built for */
static void layout(void)
{
    label = "layout";
#define SIZE(type, size) equal("size of " #type, size, sizeof(type))
#define AT(type, member, at, width) \
    (equal("place of " #type "." #member, at, offsetof(type, member)), equal("size of " #type "." #member, width, sizeof(((type *)0)->member)))
    SIZE(SiiReading, 48);
    AT(SiiReading, number, 0, 4);
    AT(SiiReading, offset, 8, 8);
    AT(SiiReading, lacking, 16, 8);
    AT(SiiReading, prototypes, 24, 8);
    AT(SiiReading, blocks, 32, 8);
    AT(SiiReading, next, 40, 8);
    SIZE(SiiPrototype, 48);
    AT(SiiPrototype, number, 0, 4);
    AT(SiiPrototype, offset, 8, 8);
    AT(SiiPrototype, lacking, 16, 8);
    AT(SiiPrototype, name_offset, 24, 8);
    AT(SiiPrototype, name_len, 32, 8);
    AT(SiiPrototype, fields, 40, 8);
    SIZE(SiiBlock, 48);
    AT(SiiBlock, number, 0, 4);
    AT(SiiBlock, offset, 8, 8);
    AT(SiiBlock, lacking, 16, 8);
    AT(SiiBlock, prototype_id, 24, 4);
    AT(SiiBlock, id_offset, 32, 8);
    AT(SiiBlock, id_len, 40, 8);
    SIZE(SiiNumber, 32);
    AT(SiiNumber, number, 0, 4);
    AT(SiiNumber, offset, 8, 8);
    AT(SiiNumber, lacking, 16, 8);
    AT(SiiNumber, value, 24, 8);
    SIZE(SiiField, 48);
    AT(SiiField, number, 0, 4);
    AT(SiiField, offset, 8, 8);
    AT(SiiField, lacking, 16, 8);
    AT(SiiField, type_id, 24, 4);
    AT(SiiField, part_offset, 32, 8);
    AT(SiiField, part_len, 40, 8);
    SIZE(SiiText, 40);
    AT(SiiText, number, 0, 4);
    AT(SiiText, offset, 8, 8);
    AT(SiiText, lacking, 16, 8);
    AT(SiiText, length, 24, 8);
    AT(SiiText, steps, 32, 8);
    SIZE(SiiLength, 32);
    AT(SiiLength, number, 0, 4);
    AT(SiiLength, offset, 8, 8);
    AT(SiiLength, lacking, 16, 8);
    AT(SiiLength, length, 24, 8);
    SIZE(SiiChecked, 24);
    AT(SiiChecked, number, 0, 4);
    AT(SiiChecked, offset, 8, 8);
    AT(SiiChecked, lacking, 16, 8);
    SIZE(SiiForecast, 64);
    AT(SiiForecast, number, 0, 4);
    AT(SiiForecast, offset, 8, 8);
    AT(SiiForecast, lacking, 16, 8);
    AT(SiiForecast, table_words, 24, 8);
    AT(SiiForecast, text_len, 32, 8);
    AT(SiiForecast, index_len, 40, 8);
    AT(SiiForecast, largest_block, 48, 8);
    AT(SiiForecast, steps, 56, 8);
    SIZE(SiiElement, 88);
    AT(SiiElement, number, 0, 4);
    AT(SiiElement, offset, 8, 8);
    AT(SiiElement, lacking, 16, 8);
    AT(SiiElement, kind, 24, 4);
    AT(SiiElement, place_offset, 32, 8);
    AT(SiiElement, place_len, 40, 8);
    AT(SiiElement, value, 48, 8);
    AT(SiiElement, a, 56, 4);
    AT(SiiElement, b, 60, 4);
    AT(SiiElement, c, 64, 4);
    AT(SiiElement, d, 68, 4);
    AT(SiiElement, e, 72, 4);
    AT(SiiElement, f, 76, 4);
    AT(SiiElement, g, 80, 4);
    AT(SiiElement, h, 84, 4);
}

/* the header's constants by their numbers in the scope: the other checks use them by name */
static void constants(void)
{
    static const int refusals[] = {
        SII_INVALID_HEADER, 2 /* retired */, SII_MALFORMED, SII_NOT_UTF8, SII_ZERO_DIGIT, SII_UNDEFINED_PROTOTYPE, SII_UNLISTED_TYPE,
        SII_FIELD_COUNT, SII_ENUM_VALUE, SII_TABLE_FULL, SII_OUTPUT_SHORT, SII_INPUT_LONG, SII_ABSENT, SII_MISFIT, SII_BAD_MARK,
    };
    static const int kinds[] = {
        SII_KIND_STRING, SII_KIND_WORD, SII_KIND_F32, SII_KIND_TWO_F32, SII_KIND_THREE_F32, SII_KIND_THREE_I32, SII_KIND_FOUR_F32, SII_KIND_PLACEMENT,
        SII_KIND_I32, SII_KIND_U32, SII_KIND_U16, SII_KIND_I64, SII_KIND_U64, SII_KIND_BOOL, SII_KIND_ENUM, SII_KIND_ID,
        SII_KIND_SEVEN_F32,
    };
    size_t at;
    label = "constants";
    for (at = 0; at < sizeof refusals / sizeof refusals[0]; at++)
        equal("refusal", at + 1, (uint64_t)refusals[at]);
    for (at = 0; at < sizeof kinds / sizeof kinds[0]; at++)
        equal("kind", at + 1, (uint64_t)kinds[at]);
    equal("length limit", 16777216, SII_LENGTH_LIMIT);
    equal("version", 600, SII_VERSION_MAJOR * 10000 + SII_VERSION_MINOR * 100 + SII_VERSION_PATCH);
}

int main(void)
{
    int round;
    layout();
    constants();
    /* each round only if all is well so far: with another layout no answer means anything, and a byte written outside damages the allocator */
    for (round = 0; round < 3 && failures == 0; round++) {
        guarded = round == 0;
        null_for_nothing = round == 2;
        the_worked_file();
        cuts();
        worked_cuts();
        worked_forecasts();
        marks();
        damage();
        the_widened_file();
        the_redefined_file();
        look_ups();
        values_behind_the_asked_one();
        the_file_with_vectors();
        every_version();
        the_file_of_version_1();
        placements_of_version_1();
        small_files();
        the_length_limit();
        a_long_text();
        elements();
        cut_elements();
        if (null_for_nothing)
            nothing_at_all();
    }
    printf("%lu checks, %lu failed\n", checks, failures);
    return failures != 0;
}
