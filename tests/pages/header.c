/* Compiled by header.py as C11 and as C++17, never run: the header stands alone, may be read twice, and names the sizes
 * of the scope document. */
#include "zarosnik.h"
#include "zarosnik.h"

#include <assert.h>

#define HOLDS(what) static_assert(what, #what)

/* The version can be compared by the preprocessor, and its number is made of its parts. */
#if ZAROSNIK_VERSION < 1000
#error "the version's number"
#endif
HOLDS(ZAROSNIK_VERSION / 1000000 == ZAROSNIK_VERSION_MAJOR);
HOLDS(ZAROSNIK_VERSION / 1000 % 1000 == ZAROSNIK_VERSION_MINOR);
HOLDS(ZAROSNIK_VERSION % 1000 == ZAROSNIK_VERSION_PATCH);

/* The gate's numbers, by operators that bind loosely: what a macro takes stands in parentheses. */
HOLDS(ZAROSNIK_GATE_L == 34 && ZAROSNIK_GATE_W == 16 && ZAROSNIK_GATE_S == 255 && ZAROSNIK_GATE_H == 10);
HOLDS(ZAROSNIK_S_MAX(34u & 63u, 16u & 63u) == 510);
HOLDS(ZAROSNIK_TABLE_WORDS(34u & 63u, 255u & 511u) == 44800 && ZAROSNIK_GATE_TABLE_WORDS == 44800);
HOLDS(ZAROSNIK_TABLE_BYTES(34u & 63u, 255u & 511u) == 179200 && ZAROSNIK_GATE_TABLE_BYTES == 179200);
HOLDS(ZAROSNIK_VALUES_BYTES(34u & 63u) == 544 && ZAROSNIK_GATE_VALUES_BYTES == 544);
HOLDS(ZAROSNIK_SIGNATURE_BYTES(34u & 63u, 10u & 15u) == 724 && ZAROSNIK_GATE_SIGNATURE_BYTES == 724);
HOLDS(ZAROSNIK_SHEET_BYTES(34u & 63u, 10u & 15u, 1u & 3u, 28u & 63u) == 1753);
HOLDS(ZAROSNIK_SHEET_BYTES(34u & 63u, 10u & 15u, 2u & 3u, 28u & 63u) == 1755);
HOLDS(ZAROSNIK_KEY_BYTES(1u & 3u) == 87 && ZAROSNIK_KEY_BYTES(2u & 3u) == 89);
HOLDS(ZAROSNIK_LEAVES(10u & 15u) == 1024 && ZAROSNIK_GATE_LEAVES == 1024);
HOLDS(ZAROSNIK_STEPS(34u & 63u, 16u & 63u, 300u - 45u) == 255 && ZAROSNIK_GATE_STEPS == 255);

/* The largest. */
HOLDS(ZAROSNIK_S_MAX(ZAROSNIK_L_MAX, ZAROSNIK_W_MAX) == 600);
HOLDS(ZAROSNIK_TABLE_WORDS(ZAROSNIK_L_MAX, 600) == ZAROSNIK_TABLE_WORDS_MAX);
HOLDS(ZAROSNIK_TABLE_BYTES(ZAROSNIK_L_MAX, 600) == ZAROSNIK_TABLE_BYTES_MAX);
HOLDS(ZAROSNIK_TABLE_BYTES_MAX == ZAROSNIK_TABLE_WORDS_MAX * sizeof(uint32_t));
HOLDS(ZAROSNIK_VALUES_BYTES(ZAROSNIK_L_MAX) == ZAROSNIK_VALUES_BYTES_MAX);
HOLDS(ZAROSNIK_SIGNATURE_BYTES(ZAROSNIK_L_MAX, ZAROSNIK_H_MAX) == ZAROSNIK_SIGNATURE_BYTES_MAX);
HOLDS(ZAROSNIK_SHEET_BYTES(ZAROSNIK_L_MAX, ZAROSNIK_H_MAX, ZAROSNIK_EDITION_1, ZAROSNIK_MESSAGE_MAX) == 2319);
HOLDS(ZAROSNIK_SHEET_BYTES(ZAROSNIK_L_MAX, ZAROSNIK_H_MAX, ZAROSNIK_EDITION_2, ZAROSNIK_MESSAGE_MAX)
      == ZAROSNIK_SHEET_BYTES_MAX);
HOLDS(ZAROSNIK_KEY_BYTES(ZAROSNIK_EDITION_2) == ZAROSNIK_KEY_BYTES_MAX);
HOLDS(ZAROSNIK_PROFILE_NUMBERS == 5 && ZAROSNIK_EDITION_1 == 1 && ZAROSNIK_EDITION_2 == 2);

/* Sizes of variables are uint32_t, or size_t where the text's length is, and raise no warning. */
uint32_t header_sizes(uint32_t l, uint32_t w, uint32_t s, uint32_t h, uint32_t edition);
uint32_t header_sizes(uint32_t l, uint32_t w, uint32_t s, uint32_t h, uint32_t edition)
{
    return ZAROSNIK_TABLE_WORDS(l, s) + ZAROSNIK_TABLE_BYTES(l, s) + ZAROSNIK_VALUES_BYTES(l)
        + ZAROSNIK_SIGNATURE_BYTES(l, h) + ZAROSNIK_S_MAX(l, w) + ZAROSNIK_LEAVES(h) + ZAROSNIK_STEPS(l, w, s)
        + ZAROSNIK_KEY_BYTES(edition);
}

size_t header_sheet(uint32_t l, uint32_t h, uint32_t edition, size_t message_len);
size_t header_sheet(uint32_t l, uint32_t h, uint32_t edition, size_t message_len)
{
    return ZAROSNIK_SHEET_BYTES(l, h, edition, message_len);
}

/* The gate's numbers as arguments raise no warning. */
int header_gate(const uint8_t *public_seed, const uint8_t *secret_seed, uint8_t *root);
int header_gate(const uint8_t *public_seed, const uint8_t *secret_seed, uint8_t *root)
{
    return zarosnik_root(ZAROSNIK_GATE_L, ZAROSNIK_GATE_W, ZAROSNIK_GATE_S, ZAROSNIK_GATE_H, ZAROSNIK_EDITION_2,
                         public_seed, secret_seed, root)
        == ZAROSNIK_GRANTED;
}
