/*
 * What the header asks of the floating-point environment, and why: with another rounding mode, or with flushing to zero, the library's sums are
 * other ones, and so is the text, with number 0. With the environment as a program starts with it, they are the scope's. Floats that are no
 * placement's, and placements of version 1, are the same in all modes. Exits with 1 if anything of this is not so.
 */
#include <fenv.h>
#include <stdio.h>
#include <string.h>
#include <xmmintrin.h>

#include "sii_decode.h"

/* prototype 1, `p`, with a placement `x`, and a block of it: f1 at 40, f3 at 48, f4 at 52 */
static uint8_t file[] = {
    'B', 'S', 'I', 'I', 2, 0, 0, 0,
    0, 0, 0, 0, 1, 1, 0, 0, 0, 1, 0, 0, 0, 'p', 0x19, 0, 0, 0, 1, 0, 0, 0, 'x', 0, 0, 0, 0,
    1, 0, 0, 0, 0,
    0, 0, 0, 0, 0, 0, 0, 0, 0, 0, 0, 0, 0, 0, 0, 0, 0, 0, 0, 0, 0, 0, 0, 0, 0, 0, 0, 0, 0, 0, 0, 0,
    0, 0, 0, 0, 0,
};
static uint8_t output[128];
static int failed;

static void set(size_t at, uint32_t bits)
{
    int i;
    for (i = 0; i < 4; i++)
        file[at + (size_t)i] = (uint8_t)(bits >> 8 * i);
}

static SiiText converted(void)
{
    uint32_t table[3];
    return sii_to_siin(file, sizeof file, table, 3, output, sizeof output);
}

/* The answer is given as it was made in the mode that is set; nothing here computes with floats. */
static void shows(const char *label, SiiText answer, const char *sums)
{
    char expected[128];
    int length = sprintf(expected, "SiiNunit\n{\np : null {\n  x: (%s) (0; 0, 0, 0)\n}\n}\n", sums);
    if (answer.number == 0 && answer.length == (uint64_t)length && memcmp(output, expected, (size_t)length) == 0)
        return;
    printf("%s: number %u, and not (%s):\n%.*s", label, (unsigned)answer.number, sums, (int)answer.length, (const char *)output);
    failed = 1;
}

enum { FLUSH_RESULTS = 0x8000, FLUSH_OPERANDS = 0x0040 };

/* An array of floats of every exponent and both signs, subnormal ones included: what is compared with the usual mode's. Each element has `of_one`. */
enum { PATTERNS = 512 * 5, HEAD = 40 };
static uint8_t many[HEAD + 4 + 4 * PATTERNS + 5], texts[2][PATTERNS * 40];

static size_t floats(uint8_t version, uint8_t type_id, uint32_t of_one)
{
    static const uint32_t fractions[] = {0, 1, 0x400000, 0x2aaaaa, 0x7fffff};
    const uint32_t count = PATTERNS / of_one;
    size_t at, length = HEAD;
    memset(many, 0, sizeof many);
    memcpy(many, file, HEAD);
    many[4] = version;
    many[22] = type_id;
    for (at = 0; at <= count * of_one; at++) {
        const uint32_t number = at == 0 ? count : (uint32_t)((at - 1) / 5) << 23 | fractions[(at - 1) % 5];
        int i;
        for (i = 0; i < 4; i++)
            many[length++] = (uint8_t)(number >> 8 * i);
    }
    return length + 5;
}

static void set_mode(int rounding, unsigned flushing)
{
    fesetround(rounding);
    _mm_setcsr(_mm_getcsr() | flushing);
}

static const int roundings[] = {FE_TONEAREST, FE_UPWARD, FE_DOWNWARD, FE_TOWARDZERO};
static const unsigned flushings[] = {0, FLUSH_RESULTS, FLUSH_OPERANDS, FLUSH_RESULTS | FLUSH_OPERANDS};

static int same_element(SiiElement x, SiiElement y)
{
    return x.number == y.number && x.kind == y.kind && x.a == y.a && x.b == y.b && x.c == y.c && x.d == y.d && x.e == y.e && x.f == y.f && x.g == y.g;
}

/* The text of such an array is the same in all modes, and so is each element. */
static void same_in_all_modes(const char *label, unsigned usual, uint8_t version, uint8_t type_id, uint32_t of_one)
{
    const size_t length = floats(version, type_id, of_one);
    uint32_t table[3];
    SiiText answers[2];
    size_t mode, at;
    answers[0] = sii_to_siin(many, length, table, 3, texts[0], sizeof texts[0]);
    failed |= answers[0].number != 0;
    for (mode = 0; mode < 16; mode++) {
        set_mode(roundings[mode / 4], flushings[mode % 4]);
        answers[1] = sii_to_siin(many, length, table, 3, texts[1], sizeof texts[1]);
        fesetround(FE_TONEAREST);
        _mm_setcsr(usual);
        if (answers[1].number != 0 || answers[1].length != answers[0].length || memcmp(texts[0], texts[1], answers[0].length) != 0) {
            printf("%s in mode %lu: another text\n", label, (unsigned long)mode);
            failed = 1;
        }
        for (at = 0; at < PATTERNS / of_one; at++) {
            const uint8_t *const part = many + HEAD + 4 + 4 * of_one * at;
            /* an array's type is the single one's plus 1 */
            SiiElement elements[2];
            elements[0] = sii_element_of(version, type_id - 1u, part, 4 * of_one, 0);
            set_mode(roundings[mode / 4], flushings[mode % 4]);
            elements[1] = sii_element_of(version, type_id - 1u, part, 4 * of_one, 0);
            fesetround(FE_TONEAREST);
            _mm_setcsr(usual);
            if (elements[0].number != 0 || !same_element(elements[0], elements[1])) {
                printf("%s in mode %lu: another element\n", label, (unsigned long)mode);
                failed = 1;
            }
        }
    }
}

int main(void)
{
    const unsigned usual = _mm_getcsr();
    SiiText answer;

    /* f1 = 0.03125 with -1048576 added: a tie, which to nearest goes to the even one */
    set(40, 0x3d000000);
    shows("to nearest", converted(), "-1048576, 0, -1048576");
    if (fesetround(FE_UPWARD) != 0)
        return 1;
    answer = converted();
    fesetround(FE_TONEAREST);
    shows("upward", answer, "&c97fffff, 0, -1048576");
    shows("to nearest again", converted(), "-1048576, 0, -1048576");

    /* f1 = 1, and f3 = 2^-149, the smallest float, with 0 added */
    set(40, 0x3f800000);
    set(48, 1);
    set(52, 0x4b000800);
    shows("not flushed", converted(), "1, 0, &1");
    _mm_setcsr(usual | FLUSH_OPERANDS | FLUSH_RESULTS);
    answer = converted();
    _mm_setcsr(usual);
    shows("flushed to zero", answer, "1, 0, 0");
    shows("not flushed again", converted(), "1, 0, &1");

    same_in_all_modes("floats", usual, 2, 0x06, 1);
    /* no sum is made of them */
    same_in_all_modes("placements of version 1", usual, 1, 0x1a, 7);
    return failed;
}
