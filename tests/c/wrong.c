/*
 * The calls with one thing made wrong, by the number WRONG; with 0 nothing is. Linked in front of the library (ld's --wrap), each wrong one must
 * make use_each_call fail, 19 only under valgrind or a sanitizer, 20 by its end. So its checks are known to notice.
 */
#include <string.h>

#include "sii_decode.h"

SiiReading __real_sii_read(const uint8_t *, size_t, uint32_t *, size_t);
SiiPrototype __real_sii_get_prototype(const uint8_t *, size_t, uint32_t *, size_t, uint32_t);
SiiBlock __real_sii_block_at(const uint8_t *, size_t, uint32_t *, size_t, uint64_t);
SiiNumber __real_sii_blocks_by_prototype_name(const uint8_t *, size_t, uint32_t *, size_t, const uint8_t *, size_t, uint64_t);
SiiField __real_sii_field_of(const uint8_t *, size_t, uint32_t *, size_t, uint64_t, const uint8_t *, size_t);
SiiElement __real_sii_element_of(uint32_t, uint32_t, const uint8_t *, size_t, uint64_t);
SiiText __real_sii_to_siin(const uint8_t *, size_t, uint32_t *, size_t, uint8_t *, size_t);
SiiLength __real_sii_write_index(const uint8_t *, size_t, uint32_t *, size_t, uint8_t *, size_t);
SiiChecked __real_sii_check_index(const uint8_t *, size_t, uint32_t *, size_t, const uint8_t *, size_t);
SiiField __real_sii_field_by_index(const uint8_t *, size_t, const uint8_t *, size_t, uint64_t, const uint8_t *, size_t);
SiiNumber __real_sii_defines_once(const uint8_t *, size_t, uint32_t *, size_t);
SiiForecast __real_sii_forecast(const uint8_t *, size_t, uint32_t *, size_t);

SiiReading __wrap_sii_read(const uint8_t *file, size_t file_len, uint32_t *table, size_t words)
{
    SiiReading r = __real_sii_read(file, file_len, table, words);
#if WRONG == 1 /* a member in another's place */
    uint64_t blocks = r.blocks;
    r.blocks = r.next;
    r.next = blocks;
#elif WRONG == 2 /* a word of the table is left */
    if (words > 0)
        table[words - 1] = 1;
#elif WRONG == 3 /* a word behind the table is written */
    table[words] = 0;
#elif WRONG == 4 /* a byte behind the file is read */
    r.next += file[file_len] == 0xc5;
#elif WRONG == 19 /* the same without any effect */
    volatile uint8_t beyond = file == NULL ? 0 : file[file_len];
    (void)beyond;
#elif WRONG == 5 /* the refusal's offset is lost */
    r.offset = 0;
#elif WRONG == 21 /* a bad mark at its record */
    if (r.number == SII_BAD_MARK)
        r.offset -= 4;
#elif WRONG == 31 /* 2 for version 1, where no more than the header is there */
    if (r.number == SII_MALFORMED && file_len == 8 && memcmp(file + 4, "\1\0\0", 4) == 0)
        return (SiiReading){.number = 2, .offset = 8};
#endif
    return r;
}

SiiPrototype __wrap_sii_get_prototype(const uint8_t *file, size_t file_len, uint32_t *table, size_t words, uint32_t id)
{
    SiiPrototype r = __real_sii_get_prototype(file, file_len, table, words, id);
#if WRONG == 6 /* a refusal with an answer */
    if (r.number == SII_ABSENT)
        r.fields = 1;
#elif WRONG == 7 /* the table is not cleared after a refusal */
    if (r.number != 0 && words > 0)
        table[0] = id;
#endif
    return r;
}

SiiBlock __wrap_sii_block_at(const uint8_t *file, size_t file_len, uint32_t *table, size_t words, uint64_t n)
{
#if WRONG == 8 /* only 32 bits of the number count */
    n = (uint32_t)n;
#endif
    return __real_sii_block_at(file, file_len, table, words, n);
}

SiiNumber __wrap_sii_blocks_by_prototype_name(const uint8_t *file, size_t file_len, uint32_t *table, size_t words, const uint8_t *name,
                                              size_t name_len, uint64_t n)
{
#if WRONG == 9 /* a name is found by its start */
    if (name_len == 5)
        name_len = 4;
#endif
    return __real_sii_blocks_by_prototype_name(file, file_len, table, words, name, name_len, n);
}

SiiField __wrap_sii_field_of(const uint8_t *file, size_t file_len, uint32_t *table, size_t words, uint64_t block, const uint8_t *name,
                             size_t name_len)
{
    SiiField r = __real_sii_field_of(file, file_len, table, words, block, name, name_len);
#if WRONG == 10 /* an array's part without its count */
    if (r.number == 0 && r.type_id == 0x06) {
        r.part_offset += 4;
        r.part_len -= 4;
    }
#elif WRONG == 22 /* all of the item is lacking */
    if (r.number == SII_MALFORMED)
        r.lacking += file_len - r.offset;
#endif
    return r;
}

SiiElement __wrap_sii_element_of(uint32_t version, uint32_t type_id, const uint8_t *part, size_t part_len, uint64_t index)
{
#if WRONG == 27 /* version 2 is assumed */
    version = 2;
#elif WRONG == 28 /* versions below 2 are read as 1 */
    version = version < 2 ? 1 : version;
#elif WRONG == 29 /* the first byte of the version counts */
    version = (uint8_t)version;
#endif
    SiiElement r = __real_sii_element_of(version, type_id, part, part_len, index);
#if WRONG == 11 /* a NaN as it stands */
    if (r.kind == SII_KIND_F32 && r.a == 0x7fc00000)
        r.a = 0xffc00001;
#elif WRONG == 12 /* an i32 without its sign */
    if (r.kind == SII_KIND_I32)
        r.value = (uint32_t)r.value;
#elif WRONG == 23 /* the lacking bytes are left out */
    r.lacking = 0;
#elif WRONG == 25 /* the element call without 0x0a and 0x17 */
    if (type_id == 0x0a || type_id == 0x17)
        return (SiiElement){.number = SII_UNLISTED_TYPE};
#elif WRONG == 30 /* a placement of version 1 under the kind of eight floats */
    if (r.kind == SII_KIND_SEVEN_F32)
        r.kind = SII_KIND_PLACEMENT;
#endif
    return r;
}

SiiText __wrap_sii_to_siin(const uint8_t *file, size_t file_len, uint32_t *table, size_t words, uint8_t *output, size_t output_len)
{
#if WRONG == 20 /* an output of length 0 is looked at */
    volatile uint8_t first = output[0];
    (void)first;
#elif WRONG == 32 /* version 1 is read as 2 */
    static uint8_t other[128];
    if (file_len > 4 && file_len <= sizeof other && file[4] == 1) {
        memcpy(other, file, file_len);
        other[4] = 2;
        file = other;
    }
#endif
    SiiText r = __real_sii_to_siin(file, file_len, table, words, output, output_len);
#if WRONG == 13 /* a terminator behind the text */
    if (r.number == 0 && r.length < output_len)
        output[r.length] = 0;
#elif WRONG == 14 /* a terminator behind the output */
    if (r.number == 0 && r.length == output_len)
        output[r.length] = 0;
#elif WRONG == 15 /* the output is touched by a refusal */
    if (r.number == SII_OUTPUT_SHORT && output_len > 0)
        output[output_len - 1] = 0;
#elif WRONG == 16 /* the needed length is left out */
    if (r.number == SII_OUTPUT_SHORT)
        r.length = 0;
#elif WRONG == 17 /* a length and no text */
    if (r.number == 0)
        memset(output, 0, output_len);
#elif WRONG == 18 /* the limit is a byte higher */
    if (r.number == SII_INPUT_LONG)
        return __real_sii_to_siin(file, SII_LENGTH_LIMIT, table, words, output, output_len);
#elif WRONG == 24 /* something is lacking beside another refusal */
    if (r.number == SII_ENUM_VALUE)
        r.lacking = 1;
#elif WRONG == 51 /* steps beside the needed length */
    if (r.number == SII_OUTPUT_SHORT)
        r.steps = 1;
#elif WRONG == 52 /* steps that were not made */
    if (r.number == 0)
        r.steps = file_len;
#elif WRONG == 26 /* no semicolon in a text */
    for (size_t at = 0; r.number == 0 && at < r.length; at++)
        output[at] = output[at] == ';' ? ',' : output[at];
#endif
    return r;
}

SiiLength __wrap_sii_write_index(const uint8_t *file, size_t file_len, uint32_t *table, size_t words, uint8_t *index, size_t index_len)
{
    SiiLength r = __real_sii_write_index(file, file_len, table, words, index, index_len);
#if WRONG == 33 /* the space is touched by a refusal */
    if (r.number == SII_OUTPUT_SHORT && index_len > 0)
        index[index_len - 1] = 0;
#elif WRONG == 34 /* a byte behind the index */
    if (r.number == 0 && r.length < index_len)
        index[r.length] = 0;
#elif WRONG == 35 /* the needed length is left out */
    if (r.number == SII_OUTPUT_SHORT)
        r.length = 0;
#elif WRONG == 36 /* the length in records */
    r.length /= 12;
#elif WRONG == 37 /* the prototype's offset is that of its mark */
    if (r.number == 0 && r.length > 0)
        index[6] += 4;
#endif
    return r;
}

SiiChecked __wrap_sii_check_index(const uint8_t *file, size_t file_len, uint32_t *table, size_t words, const uint8_t *index, size_t index_len)
{
    SiiChecked r = __real_sii_check_index(file, file_len, table, words, index, index_len);
#if WRONG == 38 /* what stands past the last block is not looked at */
    if (r.number == SII_MISFIT && r.offset + 12 > index_len && r.offset > 0)
        r = __real_sii_check_index(file, file_len, table, words, index, r.offset);
#elif WRONG == 39 /* a misfit in front of the file's faults */
    if (r.number == SII_MALFORMED && index_len == 7)
        return (SiiChecked){.number = SII_MISFIT};
#elif WRONG == 40 /* the offset of a cut record is the index's length */
    if (r.number == SII_MISFIT && r.offset + 12 > index_len)
        r.offset = index_len;
#elif WRONG == 41 /* the lengths alone are compared */
    if (r.number == SII_MISFIT && index_len == 24)
        return (SiiChecked){.number = 0};
#endif
    return r;
}

SiiField __wrap_sii_field_by_index(const uint8_t *file, size_t file_len, const uint8_t *index, size_t index_len, uint64_t block,
                                   const uint8_t *name, size_t name_len)
{
#if WRONG == 42 /* the record's offset is counted in 64 bits, and wraps */
    if (block > index_len && block * 12 < index_len)
        block = (uint64_t)(block * 12) / 12;
#elif WRONG == 43 /* a byte behind the index is read */
    if (index_len > 0 && index_len % 12 != 0 && index[index_len] == 0xc5)
        index_len += 12 - index_len % 12;
#endif
    SiiField r = __real_sii_field_by_index(file, file_len, index, index_len, block, name, name_len);
#if WRONG == 44 /* a bad mark */
    if (r.number == SII_UNDEFINED_PROTOTYPE && file_len > 12 && file[12] > 1)
        return (SiiField){.number = SII_BAD_MARK, .offset = 12};
#elif WRONG == 45 /* what is lacking behind the end counts from the end */
    if (r.number == SII_MALFORMED && r.offset > file_len)
        r.lacking += r.offset - file_len;
#elif WRONG == 46 /* the record's number of fields is trusted */
    if (r.number == 0 && index[12 * block + 9] == 0xff)
        return (SiiField){.number = SII_UNDEFINED_PROTOTYPE};
#elif WRONG == 47 /* a name that is not there comes in front of the block's faults */
    if (r.number == SII_ZERO_DIGIT)
        return (SiiField){.number = SII_ABSENT};
#elif WRONG == 48 /* the header is read */
    if (file_len > 0 && file[0] != 'B')
        return (SiiField){.number = SII_INVALID_HEADER};
#endif
    return r;
}

SiiNumber __wrap_sii_defines_once(const uint8_t *file, size_t file_len, uint32_t *table, size_t words)
{
    SiiNumber r = __real_sii_defines_once(file, file_len, table, words);
#if WRONG == 49 /* every id only once */
    if (r.number == 0)
        r.value = 1;
#elif WRONG == 50 /* a word of the table is left */
    if (words > 0)
        table[words - 1] = 1;
#endif
    return r;
}

SiiForecast __wrap_sii_forecast(const uint8_t *file, size_t file_len, uint32_t *table, size_t words)
{
    SiiForecast r = __real_sii_forecast(file, file_len, table, words);
#if WRONG == 53 /* words that are enough, and more than needed */
    if (r.number == 0)
        r.table_words = file_len / 17 * 3;
#elif WRONG == 54 /* the end record is no step */
    if (r.number == 0)
        r.steps -= 1;
#elif WRONG == 55 /* 8 is passed over */
    if (r.number == SII_FIELD_COUNT)
        return (SiiForecast){.table_words = 3};
#elif WRONG == 56 /* 9 is passed over */
    if (r.number == SII_ENUM_VALUE)
        return (SiiForecast){.table_words = 3};
#elif WRONG == 57 /* a full table foretells a larger one */
    if (r.number == SII_TABLE_FULL)
        r.table_words = words + 3;
#elif WRONG == 58 /* the longest block without its number and id */
    if (r.largest_block > 0)
        r.largest_block -= 5;
#elif WRONG == 59 /* only 32 bits of the text's length */
    r.text_len = (uint32_t)r.text_len;
#elif WRONG == 60 /* the index in records */
    r.index_len /= 12;
#elif WRONG == 61 /* a word of the table is left */
    if (words > 0)
        table[words - 1] = 1;
#elif WRONG == 62 /* the lacking bytes are left out */
    r.lacking = 0;
#endif
    return r;
}
