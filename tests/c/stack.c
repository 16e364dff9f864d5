/*
 * How deep each call goes into the stack: it runs on a stack of its own, which was filled with a pattern, and the lowest byte that changed is
 * looked for. The file is that of the first argument, which has every type; then one of version 1 with placements; then one with the prototype
 * ids 0 and 1, which differ in the last bit that the sort of the rows comes to, so that it goes as deep as it can; then one that defines an id
 * again, so that a text is measured by other functions. Prints the most bytes of all calls, and exits with 1 if that is more than the second
 * argument, the number that the header promises, or if a call answers otherwise than it must.
 */
#define _XOPEN_SOURCE 700
#include <stdio.h>
#include <stdlib.h>
#include <string.h>
#include <ucontext.h>

#include "sii_decode.h"

enum { STACK = 65536, PATTERN = 0xa5, MOST = 1000000 };

static uint8_t file[MOST], output[MOST], index_space[MOST], stack[STACK];
static size_t index_len;
static uint32_t table[3000];
static size_t file_len;
static ucontext_t here, there;
static uintptr_t top;
static int failed;
/* what a look-up of a block answers: 0, or 13 in the files without that block */
static uint32_t of_block;

#define FILE_AND_TABLE file, file_len, table, sizeof table / sizeof table[0]

static void expect(uint32_t number)
{
    failed |= number != 0;
}

static void expect_block(uint32_t number)
{
    failed |= number != of_block;
}

static void a_reading(void) { expect(sii_read(FILE_AND_TABLE).number); }
static void a_prototype(void) { expect(sii_get_prototype(FILE_AND_TABLE, 1).number); }
static void a_block(void) { expect_block(sii_block_at(FILE_AND_TABLE, 2).number); }
static void a_named_block(void) { expect_block(sii_blocks_by_prototype_name(FILE_AND_TABLE, (const uint8_t *)"truck", 5, 1).number); }
static void a_field(void) { expect_block(sii_field_of(FILE_AND_TABLE, 0, (const uint8_t *)"parent", 6).number); }

/* into exactly the text's length: what ends there is put from an array on the stack */
static void a_text(void)
{
    SiiText length = sii_to_siin(FILE_AND_TABLE, NULL, 0);
    expect(sii_to_siin(FILE_AND_TABLE, output, length.length).number);
}


static void a_written_index(void)
{
    SiiLength written = sii_write_index(FILE_AND_TABLE, index_space, sizeof index_space);
    expect(written.number);
    index_len = written.length;
}

static void a_checked_index(void) { expect(sii_check_index(FILE_AND_TABLE, index_space, index_len).number); }
static void a_look_up(void) { expect_block(sii_field_by_index(file, file_len, index_space, index_len, 0, (const uint8_t *)"parent", 6).number); }
static void defined_once(void) { expect(sii_defines_once(FILE_AND_TABLE).number); }
static void a_forecast(void) { expect(sii_forecast(FILE_AND_TABLE).number); }

/* every element of the first block's fields that have these names */
static void elements(void)
{
    static const char *const names[] = {"label", "remarks", "tags", "prices", "turns", "spots", "ledger", "keys", "lights", "state", "drivers"};
    size_t at;
    for (at = 0; at < sizeof names / sizeof names[0]; at++) {
        SiiField field = sii_field_of(FILE_AND_TABLE, 0, (const uint8_t *)names[at], strlen(names[at]));
        expect(field.number);
        expect(sii_element_of(2, field.type_id, file + field.part_offset, field.part_len, 0).number);
    }
}

/* the two values of the file of version 1 */
static void placements(void)
{
    expect(sii_element_of(1, 0x19, file + 49, 28, 0).number);
    expect(sii_element_of(1, 0x1a, file + 77, 60, 1).number);
}

static void (*asked)(void);

static void on_its_own(void)
{
    /* what is deeper than this is the call's */
    top = (uintptr_t)__builtin_frame_address(0);
    asked();
}

static size_t depth_of(void (*call)(void))
{
    size_t at = 0;
    asked = call;
    memset(stack, PATTERN, sizeof stack);
    getcontext(&there);
    there.uc_stack.ss_sp = stack;
    there.uc_stack.ss_size = sizeof stack;
    there.uc_link = &here;
    makecontext(&there, on_its_own, 0);
    swapcontext(&here, &there);
    while (at < sizeof stack && stack[at] == PATTERN)
        at++;
    return top - (uintptr_t)(stack + at);
}

static size_t greater(size_t a, size_t b)
{
    return a > b ? a : b;
}

int main(int count, char **words)
{
    static void (*const calls[])(void) = {a_reading, a_prototype,     a_block,         a_named_block, a_field,
                                          a_text,    a_written_index, a_checked_index, a_look_up,     defined_once,
                                          a_forecast};
    static const uint8_t deep[] = "BSII\2\0\0\0"
                                  "\0\0\0\0\1\0\0\0\0\0\0\0\0\0\0\0\0"
                                  "\0\0\0\0\1\1\0\0\0\0\0\0\0\0\0\0\0"
                                  "\0\0\0\0";
    static const uint8_t version_1[] = "BSII\1\0\0\0"
                                       "\0\0\0\0\1\1\0\0\0\1\0\0\0p\x19\0\0\0\1\0\0\0a\x1a\0\0\0\1\0\0\0b\0\0\0\0"
                                       "\1\0\0\0\0"
                                       "abcdefghijklmnopqrstuvwxyz01"
                                       "\2\0\0\0ABCDEFGHIJKLMNOPQRSTUVWXYZ01abcdefghijklmnopqrstuvwxyz01"
                                       "\0\0\0\0";
    static const uint8_t redefined[] = "BSII\2\0\0\0"
                                       "\0\0\0\0\1\1\0\0\0\1\0\0\0p\x27\0\0\0\1\0\0\0f\0\0\0\0"
                                       "\1\0\0\0\0\x9\0\0\0"
                                       "\0\0\0\0\1\1\0\0\0\1\0\0\0q\6\0\0\0\1\0\0\0g\0\0\0\0"
                                       "\0\0\0\0";
    const size_t how_many = sizeof calls / sizeof calls[0];
    size_t at, most, promised;
    FILE *in;
    if (count != 3 || (in = fopen(words[1], "rb")) == NULL) {
        puts("stack FILE BYTES");
        return 2;
    }
    file_len = fread(file, 1, sizeof file, in);
    fclose(in);
    promised = (size_t)strtoul(words[2], NULL, 10);
    most = depth_of(elements);
    for (at = 0; at < how_many; at++)
        most = greater(most, depth_of(calls[at]));
    /* the strings' own zeros are the end records' marks */
    of_block = SII_ABSENT;
    memcpy(file, version_1, sizeof version_1);
    file_len = sizeof version_1;
    most = greater(most, depth_of(placements));
    for (at = 0; at < how_many; at++)
        most = greater(most, depth_of(calls[at]));
    memcpy(file, deep, sizeof deep);
    file_len = sizeof deep;
    for (at = 0; at < how_many; at++)
        most = greater(most, depth_of(calls[at]));
    memcpy(file, redefined, sizeof redefined);
    file_len = sizeof redefined;
    for (at = 0; at < how_many; at++)
        most = greater(most, depth_of(calls[at]));
    printf("%lu\n", (unsigned long)most);
    return failed || most > promised || most < 100;
}
