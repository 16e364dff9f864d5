// The header from C++: it compiles, the functions are found under their C names, and the structs are C's.
#include <cstdio>
#include <type_traits>

#include "sii_decode.h"

template <typename Answer, std::size_t size> constexpr bool plain()
{
    return std::is_standard_layout<Answer>::value && std::is_trivial<Answer>::value && sizeof(Answer) == size;
}

static_assert(plain<SiiReading, 48>(), "SiiReading");
static_assert(plain<SiiPrototype, 48>(), "SiiPrototype");
static_assert(plain<SiiBlock, 48>(), "SiiBlock");
static_assert(plain<SiiNumber, 32>(), "SiiNumber");
static_assert(plain<SiiField, 48>(), "SiiField");
static_assert(plain<SiiText, 40>(), "SiiText");
static_assert(plain<SiiElement, 88>(), "SiiElement");
static_assert(plain<SiiLength, 32>(), "SiiLength");
static_assert(plain<SiiChecked, 24>(), "SiiChecked");
static_assert(plain<SiiForecast, 64>(), "SiiForecast");

// one prototype 1, `p`, with a u32 `f`, and a block of it with the value 9
static const uint8_t file[] = {
    'B', 'S', 'I', 'I', 2, 0, 0, 0,
    0, 0, 0, 0, 1, 1, 0, 0, 0, 1, 0, 0, 0, 'p', 0x27, 0, 0, 0, 1, 0, 0, 0, 'f', 0, 0, 0, 0,
    1, 0, 0, 0, 0, 9, 0, 0, 0,
    0, 0, 0, 0, 0,
};
static const uint8_t p[] = {'p'}, f[] = {'f'};

int main()
{
    uint32_t table[3];
    uint8_t output[64];
    int failed = 0;
    auto expect = [&failed](const char *call, bool holds) {
        if (holds)
            return;
        std::printf("from C++, %s: another answer\n", call);
        failed = 1;
    };

    const SiiReading reading = sii_read(file, sizeof file, table, 3);
    expect("sii_read", reading.number == 0 && reading.prototypes == 1 && reading.blocks == 1 && reading.next == 49);
    const SiiPrototype prototype = sii_get_prototype(file, sizeof file, table, 3, 1);
    expect("sii_get_prototype", prototype.number == 0 && prototype.name_offset == 21 && prototype.name_len == 1 && prototype.fields == 1);
    const SiiBlock block = sii_block_at(file, sizeof file, table, 3, 0);
    expect("sii_block_at", block.number == 0 && block.prototype_id == 1 && block.id_offset == 39 && block.id_len == 1);
    const SiiNumber number = sii_blocks_by_prototype_name(file, sizeof file, table, 3, p, sizeof p, 1);
    expect("sii_blocks_by_prototype_name", number.number == SII_ABSENT && number.offset == 0);
    const SiiField field = sii_field_of(file, sizeof file, table, 3, 0, f, sizeof f);
    expect("sii_field_of", field.number == 0 && field.type_id == 0x27 && field.part_offset == 40 && field.part_len == 4);
    const SiiElement element = sii_element_of(2, 0x27, file + 40, 4, 0);
    expect("sii_element_of", element.number == 0 && element.kind == SII_KIND_U32 && element.value == 9);
    const SiiText text = sii_to_siin(file, sizeof file, table, 3, output, sizeof output);
    expect("sii_to_siin", text.number == 0 && text.length == 33 && text.steps == 4);
    uint8_t index[12];
    const SiiLength length = sii_write_index(file, sizeof file, table, 3, index, sizeof index);
    expect("sii_write_index", length.number == 0 && length.length == 12 && index[0] == 35 && index[3] == 9 && index[6] == 8 && index[9] == 1);
    const SiiChecked checked = sii_check_index(file, sizeof file, table, 3, index, sizeof index);
    expect("sii_check_index", checked.number == 0);
    expect("sii_check_index", sii_check_index(file, sizeof file, table, 3, index, 11).number == SII_MISFIT);
    const SiiField by_index = sii_field_by_index(file, sizeof file, index, sizeof index, 0, f, sizeof f);
    expect("sii_field_by_index", by_index.number == 0 && by_index.type_id == 0x27 && by_index.part_offset == 40 && by_index.part_len == 4);
    const SiiNumber once = sii_defines_once(file, sizeof file, table, 3);
    expect("sii_defines_once", once.number == 0 && once.value == 1);
    const SiiForecast foretold = sii_forecast(file, sizeof file, table, 3);
    expect("sii_forecast", foretold.number == 0 && foretold.table_words == 3 && foretold.text_len == 33 && foretold.index_len == 12 &&
                               foretold.largest_block == 9 && foretold.steps == 4);
    return failed;
}
