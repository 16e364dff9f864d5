/*
 * The converter from BSII, a truck simulator's binary saves, to SiiNunit text. Link with libsii_decode_c.a, which `tools/build sii_decode_c`
 * puts into target/staticlib, or with what `make install` installs (pkg-config name: sii_decode). docs/FORMAT.md explains the format, the refusals
 * and the calls.
 *
 * Answers. Each call returns a struct. Its `number` is 0 if the call has an answer; then `offset` and `lacking` are 0. Otherwise it is one of the
 * refusals below, `offset` is the byte of the file (of the part, for sii_element_of; of the index, for SII_MISFIT) that the refusal is about, and
 * every other member is 0, with two exceptions: the `lacking` of SII_MALFORMED and the `length` of SII_OUTPUT_SHORT. Compare structs member by
 * member: the padding between members holds anything.
 *
 * What is asked of the caller. At least as many bytes (or words, for the table) as its length says can be read at a pointer, and for table, output
 * and the space of a written index written. With length 0 nothing is read or written there, so any pointer is allowed, NULL too. The table is
 * aligned for uint32_t. What is written overlaps nothing else that is lent to the call. The floating-point environment is the one that a program
 * starts with: sums of floats round to nearest, and neither flush-to-zero nor denormals-are-zero is set (fesetround, or MXCSR, of the calling
 * thread). With another one the two sums of a placement (types 0x19 and 0x1a, in a file of another version than 1) are other numbers in the text of
 * sii_to_siin, and no refusal says so; no other call makes sums. Nothing else is asked: any bytes, any length and any number are allowed, and each
 * call ends. The library allocates nothing, keeps nothing between calls and keeps no pointer, so calls with different tables, outputs and spaces may
 * run at the same time.
 *
 * What the library needs. x86-64 and the System V calling convention. Of libc memcpy and memset, and nothing else. 12288 bytes of stack for
 * each call: tests/c/stack.c runs each call on a stack filled with a pattern and measures at most 11120, those two functions included; a dynamic
 * linker that binds them at their first call (without -z now) takes some kilobytes more at that time. Its code is position independent.
 *
 * The file is read only. It may be any bytes, also none; with more than SII_LENGTH_LIMIT it is refused. Its version is the uint32_t at byte 4,
 * least byte first. In version 1 a placement has seven floats, in every other one eight; nothing else hangs on it.
 *
 * The table is scratch of `words` words. It may hold anything before a call; after every call, refused or not, all its words are 0. Three
 * words for each distinct prototype id of the file are enough. A prototype has at least 17 bytes, so three words for each whole 17 bytes of
 * the file, file_len / 17 * 3, always are: with as many no call gives SII_TABLE_FULL. With such a table sii_forecast tells how many the file
 * needs, and how long its text and its index are.
 *
 * An index is kept beside a file, so that a field can be found without reading all of it. It has no header and one record of 12 bytes for each
 * block, in the order of the blocks: four numbers of three bytes, least byte first. They are the offset of the block, which is that of its prototype
 * id; its length from there to the end of its last value; the offset of the record that defines its prototype, which is that of its number 0, by the
 * definition in force when the block was read; and the number of that definition's fields. sii_write_index writes it, sii_check_index compares it
 * with the file, sii_field_by_index looks a field up by it.
 */
#ifndef SII_DECODE_H
#define SII_DECODE_H

#include <stddef.h>
#include <stdint.h>

#ifdef __cplusplus
extern "C" {
#endif

/*
 * The version of this header and of the library and command that go with it. Before 1.0 a new minor version may change what a caller can notice,
 * layouts included, for calls are still to be added; a new patch version changes nothing of it. From 1.0 on that takes a new major version.
 */
#define SII_VERSION_MAJOR 0
#define SII_VERSION_MINOR 6
#define SII_VERSION_PATCH 0

/* The most bytes that a file may have, those behind its end record included. */
#define SII_LENGTH_LIMIT 16777216

/*
 * The refusals. Of several, SII_INPUT_LONG comes first, then the first fault of the file from front to back (1, 3 to 7, 10 and 15), whatever was
 * asked for, then SII_ABSENT; for sii_to_siin and sii_forecast 8 and 9 in the order of the text; last, for sii_to_siin and sii_write_index
 * SII_OUTPUT_SHORT, for sii_check_index SII_MISFIT. sii_field_by_index does not read the file from its front, and has an order of its own. 2 is
 * retired: no call gives it, and it is used for nothing else. No refusal has the number 0.
 */
enum {
    /* The first 4 bytes are missing or are not "BSII". Offset 0. */
    SII_INVALID_HEADER = 1,
    /*
     * The bytes run out in an item: a number, a byte, or the bytes of a string behind its length. Offset: where that item starts. The answer's
     * `lacking` is how many bytes of that one item are not there, from 1 up to its size; a string's can be as large as 4294967295. With so many
     * bytes more the refusal is gone or another, but where an index has sent sii_field_by_index behind the end of the file: there all of the item is
     * lacking. Every cut of a file that is read gives this by every call that reads the whole file, if at least 4 bytes are left and not the whole
     * end record, and the table has room for the file's prototypes; sii_field_by_index does not notice a cut behind its block.
     */
    SII_MALFORMED = 3,
    /* A string is not UTF-8. Offset: its first byte after its length. */
    SII_NOT_UTF8 = 4,
    /* An encoded word has a digit 0. Offset: the word. */
    SII_ZERO_DIGIT = 5,
    /*
     * No prototype of a block's prototype id stands in front of it; for sii_field_by_index, no prototype stands at the record's offset, or it is
     * not that of the block. Offset: the block.
     */
    SII_UNDEFINED_PROTOTYPE = 6,
    /* A block carries a value of a type that the format does not list, so that its length is not known. Offset: where the value would start. */
    SII_UNLISTED_TYPE = 7,
    /* The last definition of a block's prototype id has another number of fields than the block has values. Offset: the block. */
    SII_FIELD_COUNT = 8,
    /* An enum value is not in the list of the last definition, or there is no list at its position. Offset: the value. */
    SII_ENUM_VALUE = 9,
    /* The table has no three words left for a prototype under a new id. Offset: the prototype. */
    SII_TABLE_FULL = 10,
    /* The text is longer than the output, or the index than its space; the answer has the needed length. Offset 0. */
    SII_OUTPUT_SHORT = 11,
    /* The file has more than SII_LENGTH_LIMIT bytes. Offset 0. */
    SII_INPUT_LONG = 12,
    /* The prototype, block, name or element that was asked for is not there, or not the index's record of the block. Offset 0. */
    SII_ABSENT = 13,
    /*
     * The index is not that of the file. Offset, in the index: of the first record that differs, is cut, is missing or stands past the last block;
     * a multiple of 12.
     */
    SII_MISFIT = 14,
    /* The mark of a record, which is the byte behind a record number 0, is there and is neither 0 nor 1. Offset: the mark. */
    SII_BAD_MARK = 15
};

/* The kinds of an element, each with the types it comes from and the members of SiiElement that hold it; the others are 0. */
enum {
    /* Types 0x01, 0x02: place_offset and place_len, the string's bytes without its length. */
    SII_KIND_STRING = 1,
    /* 0x03, 0x04: value, the low 63 bits of the encoded word. */
    SII_KIND_WORD = 2,
    /* 0x05, 0x06: a. All floats are given as their IEEE 754 bits, every NaN as 0x7fc00000. */
    SII_KIND_F32 = 3,
    /* 0x07: a, b. */
    SII_KIND_TWO_F32 = 4,
    /* 0x09, 0x0a: a, b, c. */
    SII_KIND_THREE_F32 = 5,
    /* 0x11, 0x12: a, b, c, each an int32_t in two's complement. */
    SII_KIND_THREE_I32 = 6,
    /* 0x17, 0x18: a, b, c, d. */
    SII_KIND_FOUR_F32 = 7,
    /* 0x19, 0x1a, in every version but 1: a to h, as they stand in the file: the sums of the text are not made. */
    SII_KIND_PLACEMENT = 8,
    /* 0x25, 0x26: value, an int64_t in two's complement. */
    SII_KIND_I32 = 9,
    /* 0x27, 0x28, 0x2f: value. */
    SII_KIND_U32 = 10,
    /* 0x2b, 0x2c: value. */
    SII_KIND_U16 = 11,
    /* 0x31, 0x32: value, an int64_t in two's complement. */
    SII_KIND_I64 = 12,
    /* 0x33, 0x34: value. */
    SII_KIND_U64 = 13,
    /* 0x35, 0x36: value, 0 or 1. */
    SII_KIND_BOOL = 14,
    /* 0x37: value, the number; no list is consulted. */
    SII_KIND_ENUM = 15,
    /* 0x39 to 0x3d: place_offset and place_len, all bytes of the id, its first one included. */
    SII_KIND_ID = 16,
    /* 0x19, 0x1a, in version 1: a to g. */
    SII_KIND_SEVEN_F32 = 17
};

/* Each answer starts with the same three members: `lacking` is the count of SII_MALFORMED, and 0 with every other number and with an answer. */

typedef struct SiiReading {
    uint32_t number;
    uint64_t offset;
    uint64_t lacking;
    uint64_t prototypes; /* distinct prototype ids */
    uint64_t blocks;
    uint64_t next; /* the offset after the end record */
} SiiReading;

typedef struct SiiPrototype {
    uint32_t number;
    uint64_t offset;
    uint64_t lacking;
    uint64_t name_offset; /* the name's bytes in the file, without their length */
    uint64_t name_len;
    uint64_t fields;
} SiiPrototype;

typedef struct SiiBlock {
    uint32_t number;
    uint64_t offset;
    uint64_t lacking;
    uint32_t prototype_id;
    uint64_t id_offset; /* the bytes of the block's id in the file, its first one included */
    uint64_t id_len;
} SiiBlock;

typedef struct SiiNumber {
    uint32_t number;
    uint64_t offset;
    uint64_t lacking;
    uint64_t value;
} SiiNumber;

typedef struct SiiField {
    uint32_t number;
    uint64_t offset;
    uint64_t lacking;
    uint32_t type_id;
    uint64_t part_offset; /* the part of the file that encodes the value: of a string with its length, of an array with its count */
    uint64_t part_len;
} SiiField;

typedef struct SiiText {
    uint32_t number;
    uint64_t offset;
    uint64_t lacking;
    uint64_t length; /* the text's; with SII_OUTPUT_SHORT the needed length, with every other refusal 0 */
    uint64_t steps;  /* as in SiiForecast; with every refusal 0 */
} SiiText;

typedef struct SiiLength {
    uint32_t number;
    uint64_t offset;
    uint64_t lacking;
    uint64_t length; /* the index's, in bytes; with SII_OUTPUT_SHORT the needed length, with every other refusal 0 */
} SiiLength;

typedef struct SiiChecked {
    uint32_t number;
    uint64_t offset;
    uint64_t lacking;
} SiiChecked;

typedef struct SiiForecast {
    uint32_t number;
    uint64_t offset;
    uint64_t lacking;
    uint64_t table_words;   /* three for each distinct prototype id; an id that is defined again adds none */
    uint64_t text_len;      /* the text's length, which may be above 32 bits */
    uint64_t index_len;     /* the index's length, 12 for each block */
    uint64_t largest_block; /* the length of the longest block, as an index has it; 0 without blocks */
    uint64_t steps;         /* of reading the file: one for each record, replaced prototypes and the end record too, and one for each value of a
                               block, an array being one; at most file_len */
} SiiForecast;

typedef struct SiiElement {
    uint32_t number;
    uint64_t offset;
    uint64_t lacking;
    uint32_t kind;
    uint64_t place_offset;
    uint64_t place_len;
    uint64_t value;
    uint32_t a;
    uint32_t b;
    uint32_t c;
    uint32_t d;
    uint32_t e;
    uint32_t f;
    uint32_t g;
    uint32_t h;
} SiiElement;

/*
 * Reads the whole file. Answers the number of distinct prototype ids, the number of blocks, and the offset after the end record; bytes from
 * there on are ignored. Refusals: 1, 3 to 7, 10, 12, 15. Afterwards the table is all 0.
 */
SiiReading sii_read(const uint8_t *file, size_t file_len, uint32_t *table, size_t words);

/*
 * The prototype with this id, by its last definition in the file. Answers the place of its name in the file and its number of fields.
 * Refusals: 1, 3 to 7, 10, 12, 15; SII_ABSENT if the id is defined nowhere. Afterwards the table is all 0.
 */
SiiPrototype sii_get_prototype(const uint8_t *file, size_t file_len, uint32_t *table, size_t words, uint32_t id);

/*
 * The n-th block of the file, from 0. Answers its prototype id and the place of the block's id in the file. Refusals: 1, 3 to 7, 10, 12, 15;
 * SII_ABSENT if there are not so many blocks. Afterwards the table is all 0.
 */
SiiBlock sii_block_at(const uint8_t *file, size_t file_len, uint32_t *table, size_t words, uint64_t n);

/*
 * The n-th block, from 0, among those whose prototype has this name by its last definition. Answers in `value` the block's number among all
 * blocks, for sii_block_at and sii_field_of. The name has no terminator and is compared byte by byte; any bytes are allowed. Refusals: 1, 3 to
 * 7, 10, 12, 15; SII_ABSENT if there are not so many. Afterwards the table is all 0.
 */
SiiNumber sii_blocks_by_prototype_name(const uint8_t *file, size_t file_len, uint32_t *table, size_t words, const uint8_t *name,
                                       size_t name_len, uint64_t n);

/*
 * The value of a block, by the block's number from 0 and the field's name: the first definition of that name in the last definition of the
 * block's prototype gives its position. Answers the type with which the block was read, and the part of the file that encodes the value; both
 * go to sii_element_of, with the file's version. The part is never empty. The name has no terminator and is compared byte by byte; any bytes are
 * allowed. Refusals: 1, 3 to 7, 10, 12, 15; SII_ABSENT if there is no such block, no such name, or no value at that position in the block.
 * Afterwards the table is all 0.
 */
SiiField sii_field_of(const uint8_t *file, size_t file_len, uint32_t *table, size_t words, uint64_t block, const uint8_t *name,
                      size_t name_len);

/*
 * An element of a value of this type, which is read whole from the start of `part`; bytes behind it are ignored. `version` is that of the file
 * which the value stands in, the uint32_t at its byte 4, least byte first: for 0x19 and 0x1a, 1 gives seven floats and every other number eight;
 * for other types it has no effect, and no number is refused. A single value has the index 0 only, an array its elements from 0. Answers the
 * element's kind and the element; places and the offsets of refusals count from the start of `part`, and the lacking bytes of SII_MALFORMED from
 * its end on. Refusals: SII_UNLISTED_TYPE, then 3, 4, 5 of the whole value, also behind the element, then SII_ABSENT if the index is too high.
 * There is no table and no length limit; nothing is written.
 */
SiiElement sii_element_of(uint32_t version, uint32_t type_id, const uint8_t *part, size_t part_len, uint64_t index);

/*
 * Writes the file's text into the output. Answers the text's length, which has no terminator, and the steps of the walk over the file that it made,
 * which are those that sii_forecast foretells. Refusals: 1, 3 to 12, 15; with SII_OUTPUT_SHORT `length` is the length that the output must have,
 * which may be above 32 bits. Afterwards the output starts with the text, and its bytes beyond the text keep their values; after a refusal all of
 * them do. The table is all 0. How much to lend is foretold by sii_forecast; with NULL and length 0 for the output this call is a way to ask
 * for the length, too: every text is longer than that, so it is refused with SII_OUTPUT_SHORT if nothing else is wrong.
 */
SiiText sii_to_siin(const uint8_t *file, size_t file_len, uint32_t *table, size_t words, uint8_t *output, size_t output_len);

/*
 * Writes the file's index into the space at `index`. Answers the index's length, 12 times the number of blocks; without blocks that is 0, and any
 * space is enough. A file whose text is refused with 8 or 9 has an index too. Refusals, in this order: SII_INPUT_LONG; 1, 3 to 7, 10 and 15, the
 * first in the file; SII_OUTPUT_SHORT, with `length` the length that the space must have. Afterwards the space starts with the index, and its bytes
 * beyond the index keep their values; after a refusal all of them do. The table is all 0.
 */
SiiLength sii_write_index(const uint8_t *file, size_t file_len, uint32_t *table, size_t words, uint8_t *index, size_t index_len);

/*
 * Compares an index with the file. The answer, number 0, says that it is, byte for byte, the one that sii_write_index writes; it carries nothing
 * more. The index may have any length. Refusals, in this order: SII_INPUT_LONG; 1, 3 to 7, 10 and 15, the first in the file, also behind a block
 * whose record differs; SII_MISFIT. Afterwards the table is all 0; nothing else is written.
 */
SiiChecked sii_check_index(const uint8_t *file, size_t file_len, uint32_t *table, size_t words, const uint8_t *index, size_t index_len);

/*
 * The value of a block, by an index, the block's number from 0 and the field's name. Of the file it reads the version, and the prototype and the
 * block at the two offsets of the index's record, and nothing else; there is no table. With an index that sii_check_index has accepted for this
 * file, and a file that defines no prototype id twice (sii_defines_once), the answer or refusal is that of sii_field_of with a table that has room.
 *
 * A stale index can find a wrong value, silently: no call by it notices that the file has changed since. So check the index with sii_check_index
 * after every opening of the save, and write it again if it does not fit.
 *
 * Any bytes may be given for the index; it is used as follows. The record's length and number of fields are not looked at. The name is looked for
 * in the prototype at the record's offset: the first definition of that name. Answers the type and the part, as sii_field_of does. Refusals, in
 * this order: SII_INPUT_LONG; SII_ABSENT if the index has no such record with all its bytes; SII_MALFORMED at 4 if the version runs out. Of the
 * prototype: SII_MALFORMED, SII_UNDEFINED_PROTOTYPE at the block's offset if there is another number than 0 or another mark than 1, and then
 * SII_MALFORMED and SII_NOT_UTF8 up to the end of its definitions. Of the block: SII_MALFORMED, SII_UNDEFINED_PROTOTYPE if its prototype id is 0
 * or not that prototype's, and then 3, 4, 5 and 7 of its id and of all its values, also those behind the asked one. Last SII_ABSENT if there is no
 * such name. Of SII_MALFORMED and SII_UNDEFINED_PROTOTYPE the offset may be behind the end of the file. Nothing is written.
 */
SiiField sii_field_by_index(const uint8_t *file, size_t file_len, const uint8_t *index, size_t index_len, uint64_t block,
                            const uint8_t *name, size_t name_len);

/*
 * Whether every prototype id of the file is defined only once. Answers in `value` 1 if no id is defined twice, else 0. Refusals: SII_INPUT_LONG;
 * 1, 3 to 7, 10 and 15, the first in the file. Afterwards the table is all 0.
 */
SiiNumber sii_defines_once(const uint8_t *file, size_t file_len, uint32_t *table, size_t words);

/*
 * What the file will need, so that memory can be lent before anything is converted. Answers the words of the table, the lengths of text and index,
 * the length of the longest block, and the steps of reading the file. With at least `table_words` words no call on this file gives SII_TABLE_FULL;
 * with these and at least `text_len` bytes sii_to_siin answers, with these and at least `index_len` bytes sii_write_index does. With fewer words
 * sii_to_siin is refused with SII_TABLE_FULL, whatever the output; with enough words and fewer bytes with SII_OUTPUT_SHORT.
 *
 * The refusals are those of sii_to_siin with the same table and an output without end, in this order: SII_INPUT_LONG; 1, 3 to 7, 10 and 15, the first
 * in the file; 8 and 9, the first in the text. SII_OUTPUT_SHORT does not occur. A refusal foretells nothing: every other member is 0. With
 * file_len / 17 * 3 words it is never SII_TABLE_FULL; with fewer it may be, and a larger table is to be tried.
 *
 * The call takes no output and walks over the file once, twice if a prototype id is defined again. Afterwards the table is all 0; nothing
 * else is written.
 */
SiiForecast sii_forecast(const uint8_t *file, size_t file_len, uint32_t *table, size_t words);

#ifdef __cplusplus
}
#endif

#endif
