/*
 * Zarosnik: stateful hash-based signatures for flood-gate control cabinets.
 *
 * The functions of libzarosnik.a, one for each operation of docs/INTERFACE.md. Each is proved to do what is said here
 * for every input, provided that the caller keeps these terms:
 *
 *   - No pointer is null, not even where its length is 0.
 *   - Each length is true: so many elements may be read, and written where the pointer is not const. table_len counts
 *     uint32_t words, every other length counts bytes. An array has the number of elements in its brackets.
 *   - Pointers to uint32_t and to size_t are aligned as these types are.
 *   - No two pointers of a call overlap where one of them is not const.
 *   - While a call runs, no other thread writes the memory lent to it, or reads what the call may write. The library
 *     keeps no state of its own, so calls on separate memory may run at the same time.
 *
 * What the proof does not cover: the compiler's back end, which makes machine code of the proved program; the depth of
 * the stack, which is measured (docs/INTERFACE.md); the C caller's terms above, on null pointers, true lengths,
 * alignment, overlap and threads.
 *
 * What a call returns and leaves:
 *
 *   - It returns 0 where it is granted, else the number of the first cause that holds, in the order listed with the
 *     function. Those numbers are enum zarosnik_outcome.
 *   - l, w, s, h and edition may be any uint32_t. Nothing of them is ever cut: a value outside its range is refused by
 *     its number, 1 to 4 or 22.
 *   - An answer (digest, number, order, looked, key, root, steps, message_written, line, sheet_written, frame_written;
 *     of zarosnik_read_key profile, both seeds, next_leaf and mark too) is written by every call: the value where
 *     granted, zero where refused. Two differ: steps of zarosnik_verify after 15, and line after 17.
 *   - A state (next_leaf and mark; highest_leaf and marks) changes only where the call is granted.
 *   - A lent slice (table, row, values, signature, message, sheet, frame) is untouched by a refusal, except that 7, 15
 *     and 19 leave the table of counts in the work slice `table`, as every granted call with a work slice does. What
 *     lies past the length that is named with the function never changes.
 *
 * What the caller keeps and draws:
 *
 *   - A key is a profile, two seeds, its next leaf and a mark; for a fresh key next leaf and mark are 0. The mark says
 *     that the leaf below the next one is reserved for a signature. It is one where it is 1 and the next leaf is 1 to
 *     2^h; anything else is no mark.
 *   - An order takes four steps: zarosnik_reserve; store the key, as the frame that zarosnik_write_key writes;
 *     zarosnik_sign; hand the signature out. Sign only when the store has ended, so that the new frame would outlast a
 *     power cut. A store that is cut must leave the old frame or the new one, as a whole.
 *   - After a power cut, and whenever a program starts, read the stored frame by zarosnik_read_key, set mark to 0 and
 *     go on. A leaf that was reserved then signs nothing any more; none signs twice. Never put an older frame back, and
 *     let one program alone sign with a key: two orders signed with one leaf may let others be forged.
 *   - The frame holds the secret seed, and is kept as secret as the seed is.
 *   - A cabinet is a profile, the public seed, the root, the highest leaf that it has accepted and 32 marks, which say
 *     of that leaf and of the 31 below it whether each was accepted; both are 0 for a fresh one. Store highest_leaf and
 *     marks after zarosnik_verify and before the order is carried out: a cabinet restored from an older copy would take
 *     an order again. Store them as one write: one old and one new word may do the same, or refuse an order that never
 *     came.
 *   - A key's desk and its cabinets hold one profile, the edition included: no signature names it. Leaf keys and roots
 *     are the same in both editions, digests are not. So in practice an order of one edition is refused by 15 in the
 *     other, and a leaf that has signed in one must sign nothing in the other. No order text should begin with a zero
 *     byte: a text and the same text behind its leaf's four bytes have one digest in the two (docs/SECURITY.md).
 *   - The library draws no random numbers. The secret seed is 16 random bytes known to the key's holder alone; R is
 *     16 fresh random bytes for each order.
 *   - A profile whose count is below 2^128 is for trials: its orders' numbers have fewer than 128 bits, and another
 *     text with the number of one that was signed is the sooner found (docs/SECURITY.md).
 *
 * zarosnik_types.h has the same calls over structs, so that a root cannot be passed for a seed.
 */
#ifndef ZAROSNIK_H
#define ZAROSNIK_H

#include <stddef.h>
#include <stdint.h>

/*
 * The version of the interface: its parts, one number that #if can compare, and the string of zarosnik.pc. The archive
 * carries no version, so take header and archive of one release.
 *
 *   MAJOR   0 until the last of the customers' requests known today has landed, since most of them change the
 *           interface. Then 1, and from there on one more where a program must be changed or compiled again.
 *   MINOR   while MAJOR is 0, one more where a program must be changed or compiled again: a parameter, a type, a size,
 *           the number of a refusal or the bytes of a format differ. From 1.0.0 on, one more where something is added.
 *   PATCH   one more with every other release: a program only needs to be linked again.
 */
#define ZAROSNIK_VERSION_MAJOR 0
#define ZAROSNIK_VERSION_MINOR 5
#define ZAROSNIK_VERSION_PATCH 1
#define ZAROSNIK_VERSION \
    (ZAROSNIK_VERSION_MAJOR * 1000000 + ZAROSNIK_VERSION_MINOR * 1000 + ZAROSNIK_VERSION_PATCH)
#define ZAROSNIK_VERSION_STRING "0.5.1"

/* The compiler warns where the outcome of a call is not looked at: an order must not be carried out, nor a signature
 * handed out, without it. */
#if (defined(__cplusplus) && __cplusplus >= 201703L) \
    || (defined(__STDC_VERSION__) && __STDC_VERSION__ >= 202311L)
#define ZAROSNIK_NODISCARD [[nodiscard]]
#elif defined(__GNUC__)
#define ZAROSNIK_NODISCARD __attribute__((warn_unused_result))
#else
#define ZAROSNIK_NODISCARD
#endif

#ifdef __cplusplus
extern "C" {
#endif

/* Fixed sizes: hash values, seeds and R; a SHA-256 digest; a number, least word first; the numbers of a profile, which
 * zarosnik_read_key gives as l, w, s, h, edition. */
#define ZAROSNIK_HASH_BYTES 16u
#define ZAROSNIK_DIGEST_BYTES 32u
#define ZAROSNIK_NUMBER_WORDS 5u
#define ZAROSNIK_PROFILE_NUMBERS 5u

/* A profile: l chains, width w, sum s, tree height h, edition. h may be 0, and s is 0 to ZAROSNIK_S_MAX(l, w).
 * Edition 2 takes the leaf into an order's digest; but for that, a sheet's second line and a stored key's last byte the
 * editions are the same. */
#define ZAROSNIK_L_MIN 1u
#define ZAROSNIK_L_MAX 40u
#define ZAROSNIK_W_MIN 2u
#define ZAROSNIK_W_MAX 16u
#define ZAROSNIK_S_MAX(l, w) ((l) * ((w) - 1u))
#define ZAROSNIK_H_MAX 10u
#define ZAROSNIK_EDITION_1 1u
#define ZAROSNIK_EDITION_2 2u

/* The bytes of an order text, and of what zarosnik_hash takes. */
#define ZAROSNIK_MESSAGE_MIN 1u
#define ZAROSNIK_MESSAGE_MAX 200u
#define ZAROSNIK_HASH_MAX 65535u

/* Sizes by profile: words and bytes of the work slice; bytes of the values, of a signature, of a sheet with its text
 * and of a stored key, each of the last two with two more in edition 2; leaves of a tree; chain steps of a check. These
 * and ZAROSNIK_S_MAX are meant for unsigned values within the limits above. For others they may wrap round and mean
 * nothing; the call refuses such a profile before any size. */
#define ZAROSNIK_TABLE_WORDS(l, s) (5u * ((l) + 1u) * ((s) + 1u))
#define ZAROSNIK_TABLE_BYTES(l, s) (4u * ZAROSNIK_TABLE_WORDS(l, s))
#define ZAROSNIK_VALUES_BYTES(l) (16u * (l))
#define ZAROSNIK_SIGNATURE_BYTES(l, h) (20u + 16u * (l) + 16u * (h))
#define ZAROSNIK_SHEET_BYTES(l, h, edition, message_len) \
    (((edition) == ZAROSNIK_EDITION_2 ? 71u : 69u) + 37u * ((l) + (h)) + 2u * (message_len))
#define ZAROSNIK_KEY_BYTES(edition) ((edition) == ZAROSNIK_EDITION_2 ? 89u : 87u)
#define ZAROSNIK_LEAVES(h) (1u << (h))
#define ZAROSNIK_STEPS(l, w, s) (ZAROSNIK_S_MAX(l, w) - (s))

/* What is enough for every profile. */
#define ZAROSNIK_TABLE_WORDS_MAX 123205u
#define ZAROSNIK_TABLE_BYTES_MAX 492820u
#define ZAROSNIK_VALUES_BYTES_MAX 640u
#define ZAROSNIK_SIGNATURE_BYTES_MAX 820u
#define ZAROSNIK_SHEET_BYTES_MAX 2321u
#define ZAROSNIK_KEY_BYTES_MAX 89u

/* The gate profile, in either edition. */
#define ZAROSNIK_GATE_L 34u
#define ZAROSNIK_GATE_W 16u
#define ZAROSNIK_GATE_S 255u
#define ZAROSNIK_GATE_H 10u
#define ZAROSNIK_GATE_TABLE_WORDS 44800u
#define ZAROSNIK_GATE_TABLE_BYTES 179200u
#define ZAROSNIK_GATE_VALUES_BYTES 544u
#define ZAROSNIK_GATE_SIGNATURE_BYTES 724u
#define ZAROSNIK_GATE_LEAVES 1024u
#define ZAROSNIK_GATE_STEPS 255u

/* What a function returns. */
enum zarosnik_outcome {
    ZAROSNIK_GRANTED = 0,
    ZAROSNIK_REFUSED_CHAIN_COUNT = 1,
    ZAROSNIK_REFUSED_WIDTH = 2,
    ZAROSNIK_REFUSED_SUM = 3,
    ZAROSNIK_REFUSED_HEIGHT = 4,
    ZAROSNIK_REFUSED_TABLE_TOO_SHORT = 5,
    ZAROSNIK_REFUSED_OUTPUT_TOO_SHORT = 6,
    ZAROSNIK_REFUSED_NUMBER_TOO_LARGE = 7,
    ZAROSNIK_REFUSED_CODEWORD_LENGTH = 8,
    ZAROSNIK_REFUSED_DIGIT_TOO_LARGE = 9,
    ZAROSNIK_REFUSED_CODEWORD_SUM = 10,
    ZAROSNIK_REFUSED_LEAF_OUT_OF_RANGE = 11,
    ZAROSNIK_REFUSED_KEY_SPENT = 12,
    ZAROSNIK_REFUSED_SIGNATURE_LENGTH = 13,
    ZAROSNIK_REFUSED_LEAF_PASSED = 14,
    ZAROSNIK_REFUSED_ROOT_DIFFERS = 15,
    ZAROSNIK_REFUSED_MESSAGE_LENGTH = 16,
    ZAROSNIK_REFUSED_SHEET_LINE = 17,
    ZAROSNIK_REFUSED_HASH_TOO_LONG = 18,
    ZAROSNIK_REFUSED_COUNT_TOO_SMALL = 19,
    ZAROSNIK_REFUSED_NO_MARK = 20,
    ZAROSNIK_REFUSED_MARK_STANDS = 21,
    ZAROSNIK_REFUSED_EDITION = 22,
    /* No call of this release gives those from here on: they are of operations still to come. */
    ZAROSNIK_REFUSED_ORDER_COUNT = 23,
    ZAROSNIK_REFUSED_END_PLACES = 24,
    ZAROSNIK_REFUSED_LEAF_ORDER = 25,
    ZAROSNIK_REFUSED_SIBLING_COUNT = 26,
    ZAROSNIK_REFUSED_LEAF_COUNT = 27,
    ZAROSNIK_REFUSED_SHARE_SUM = 28,
    ZAROSNIK_REFUSED_DESK_OUT_OF_RANGE = 29,
    ZAROSNIK_REFUSED_SHARE_USED = 30,
    ZAROSNIK_REFUSED_PLACE_FILLED = 31,
    ZAROSNIK_REFUSED_PLACE_EMPTY = 32,
    ZAROSNIK_REFUSED_VALUE_ZERO = 33
};

/* How the first of two numbers stands to the second: what zarosnik_compare writes to order. */
enum zarosnik_order {
    ZAROSNIK_LESS = 0,
    ZAROSNIK_EQUAL = 1,
    ZAROSNIK_GREATER = 2
};

/* What an outcome means, in the words of docs/INTERFACE.md. Not in the archive, and so not proved. */
static inline const char *zarosnik_outcome_text(uint32_t outcome)
{
    switch (outcome) {
    case ZAROSNIK_GRANTED: return "granted";
    case ZAROSNIK_REFUSED_CHAIN_COUNT: return "number of chains l outside 1 to 40";
    case ZAROSNIK_REFUSED_WIDTH: return "width w outside 2 to 16";
    case ZAROSNIK_REFUSED_SUM: return "sum s above l * (w - 1)";
    case ZAROSNIK_REFUSED_HEIGHT: return "tree height h above 10";
    case ZAROSNIK_REFUSED_TABLE_TOO_SHORT: return "work slice too short for the table of counts";
    case ZAROSNIK_REFUSED_OUTPUT_TOO_SHORT: return "output slice too short";
    case ZAROSNIK_REFUSED_NUMBER_TOO_LARGE: return "number not below the count";
    case ZAROSNIK_REFUSED_CODEWORD_LENGTH: return "row without l lengths";
    case ZAROSNIK_REFUSED_DIGIT_TOO_LARGE: return "length of the row above w - 1";
    case ZAROSNIK_REFUSED_CODEWORD_SUM: return "sum of the row other than s";
    case ZAROSNIK_REFUSED_LEAF_OUT_OF_RANGE: return "leaf not below 2^h";
    case ZAROSNIK_REFUSED_KEY_SPENT: return "key spent, no leaf left";
    case ZAROSNIK_REFUSED_SIGNATURE_LENGTH: return "signature or values of another length than the profile's";
    case ZAROSNIK_REFUSED_LEAF_PASSED: return "leaf already passed: possible replay";
    case ZAROSNIK_REFUSED_ROOT_DIFFERS: return "signature does not lead to the root: possible forgery";
    case ZAROSNIK_REFUSED_MESSAGE_LENGTH: return "order text empty or over 200 bytes";
    case ZAROSNIK_REFUSED_SHEET_LINE: return "wrong, missing or surplus line in the sheet";
    case ZAROSNIK_REFUSED_HASH_TOO_LONG: return "over 65,535 bytes to hash";
    case ZAROSNIK_REFUSED_COUNT_TOO_SMALL: return "count below 256";
    case ZAROSNIK_REFUSED_NO_MARK: return "no leaf reserved";
    case ZAROSNIK_REFUSED_MARK_STANDS: return "a reserved leaf has not signed yet";
    case ZAROSNIK_REFUSED_EDITION: return "edition neither 1 nor 2";
    case ZAROSNIK_REFUSED_ORDER_COUNT: return "number of orders 0 or above 64";
    case ZAROSNIK_REFUSED_END_PLACES: return "end places that fall, pass the texts or end elsewhere";
    case ZAROSNIK_REFUSED_LEAF_ORDER: return "leaves that do not rise";
    case ZAROSNIK_REFUSED_SIBLING_COUNT: return "siblings more or fewer than needed";
    case ZAROSNIK_REFUSED_LEAF_COUNT: return "number of leaves 0, above 64 or above 2^h";
    case ZAROSNIK_REFUSED_SHARE_SUM: return "shares together above 2^h";
    case ZAROSNIK_REFUSED_DESK_OUT_OF_RANGE: return "desk not 0 to 3";
    case ZAROSNIK_REFUSED_SHARE_USED: return "share and common part both used up";
    case ZAROSNIK_REFUSED_PLACE_FILLED: return "place of the register already filled";
    case ZAROSNIK_REFUSED_PLACE_EMPTY: return "place of the register already empty";
    case ZAROSNIK_REFUSED_VALUE_ZERO: return "value to add all zero";
    default: return "not an outcome of this library";
    }
}

/*
 * The SHA-256 digest (FIPS 180-4) of a message in one piece.
 *
 *   data, len   in: the message
 *   digest      answer: its digest
 *
 * Refusals: 18 len over 65,535.
 */
ZAROSNIK_NODISCARD
uint32_t zarosnik_hash(const uint8_t *data, size_t len, uint8_t digest[ZAROSNIK_DIGEST_BYTES]);

/*
 * Count: how many rows of l lengths from 0 to w - 1 have the sum s.
 *
 *   l, w, s            in: the profile without its height and edition
 *   table, table_len   work slice of at least ZAROSNIK_TABLE_WORDS(l, s) words
 *   number             answer: the count
 *
 * Refusals: 1, 2, 3; 5 work slice too short.
 * Granted: the table of counts stands in the first ZAROSNIK_TABLE_WORDS(l, s) words of table: for i from 0 to l, for t
 * from 0 to s, the number of rows of i lengths with the sum t, five words each.
 * Refused: table is untouched.
 */
ZAROSNIK_NODISCARD
uint32_t zarosnik_count(uint32_t l, uint32_t w, uint32_t s, uint32_t *table, size_t table_len,
                        uint32_t number[ZAROSNIK_NUMBER_WORDS]);

/*
 * Spread: the row that has a number, counted from 0 in dictionary order, the first length most significant.
 *
 *   l, w, s            in: the profile without its height and edition
 *   number             in: the number
 *   table, table_len   work slice of at least ZAROSNIK_TABLE_WORDS(l, s) words
 *   row, row_len       output slice of at least l bytes
 *
 * Refusals: 1, 2, 3; 5 work slice too short; 6 row_len under l; 7 number not below the count.
 * Granted: the l lengths stand in the first l bytes of row, one byte each, and the table of counts in table.
 * Refused: row is untouched, and so is table, except that 7 leaves the table of counts in it.
 */
ZAROSNIK_NODISCARD
uint32_t zarosnik_unrank(uint32_t l, uint32_t w, uint32_t s, const uint32_t number[ZAROSNIK_NUMBER_WORDS],
                         uint32_t *table, size_t table_len, uint8_t *row, size_t row_len);

/*
 * Gather: the number of a row.
 *
 *   l, w, s            in: the profile without its height and edition
 *   row, row_len       in: the lengths, one byte each
 *   table, table_len   work slice of at least ZAROSNIK_TABLE_WORDS(l, s) words
 *   number             answer: the number
 *
 * Refusals: 1, 2, 3; 5 work slice too short; 8 row_len other than l; 9 a length above w - 1; 10 sum other than s.
 * Granted: the table of counts stands in table.
 * Refused: table is untouched.
 */
ZAROSNIK_NODISCARD
uint32_t zarosnik_rank(uint32_t l, uint32_t w, uint32_t s, const uint8_t *row, size_t row_len,
                       uint32_t *table, size_t table_len, uint32_t number[ZAROSNIK_NUMBER_WORDS]);

/*
 * Compare: the order of two numbers, from the highest word down to the first pair of words that differs. Where it ends
 * shows in the time it takes: it is for numbers that are not secret, as message numbers are.
 *
 *   first    in: a number
 *   second   in: another, or the same
 *   order    answer: how first stands to second, one of enum zarosnik_order
 *   looked   answer: the pairs of words looked at, 1 to 5: 5 less the place, from 0 for the least word, of the highest
 *            word that differs, or 5 where none differs
 *
 * Refusals: none. It always returns 0.
 */
ZAROSNIK_NODISCARD
uint32_t zarosnik_compare(const uint32_t first[ZAROSNIK_NUMBER_WORDS], const uint32_t second[ZAROSNIK_NUMBER_WORDS],
                          uint32_t *order, uint32_t *looked);

/*
 * Leaf key: the public key of one leaf.
 *
 *   l, w, s, h, edition   in: the profile; s and edition have no part in the key
 *   public_seed           in: the public seed
 *   secret_seed           in: the secret seed
 *   leaf                  in: the leaf, from 0
 *   key                   answer: the leaf's key
 *
 * Refusals: 1, 2, 3, 4, 22; 11 leaf not below 2^h.
 */
ZAROSNIK_NODISCARD
uint32_t zarosnik_leaf_key(uint32_t l, uint32_t w, uint32_t s, uint32_t h, uint32_t edition,
                           const uint8_t public_seed[ZAROSNIK_HASH_BYTES],
                           const uint8_t secret_seed[ZAROSNIK_HASH_BYTES], uint32_t leaf,
                           uint8_t key[ZAROSNIK_HASH_BYTES]);

/*
 * Root: the root of a key's tree, which its cabinets hold. Hashes all 2^h leaves.
 *
 *   l, w, s, h, edition   in: the profile; s and edition have no part in the root
 *   public_seed           in: the public seed
 *   secret_seed           in: the secret seed
 *   root                  answer: the root
 *
 * Refusals: 1, 2, 3, 4, 22.
 */
ZAROSNIK_NODISCARD
uint32_t zarosnik_root(uint32_t l, uint32_t w, uint32_t s, uint32_t h, uint32_t edition,
                       const uint8_t public_seed[ZAROSNIK_HASH_BYTES],
                       const uint8_t secret_seed[ZAROSNIK_HASH_BYTES],
                       uint8_t root[ZAROSNIK_HASH_BYTES]);

/*
 * Reveal: the l chain values that sign a number with one leaf. It keeps no account of the leaves used:
 * zarosnik_reserve does.
 *
 *   l, w, s, h, edition   in: the profile; edition has no part in the values
 *   public_seed           in: the public seed
 *   secret_seed           in: the secret seed
 *   leaf                  in: the leaf, from 0
 *   number                in: the number
 *   table, table_len      work slice of at least ZAROSNIK_TABLE_WORDS(l, s) words
 *   values, values_len    output slice of at least ZAROSNIK_VALUES_BYTES(l) bytes
 *
 * Refusals: 1, 2, 3, 4, 22; 5 work slice too short; 6 values_len under 16 * l; 11 leaf not below 2^h; 7 number not
 * below the count.
 * Granted: the values stand in the first 16 * l bytes of values, and the table of counts in table.
 * Refused: values is untouched, and so is table, except that 7 leaves the table of counts in it.
 */
ZAROSNIK_NODISCARD
uint32_t zarosnik_one_time_sign(uint32_t l, uint32_t w, uint32_t s, uint32_t h, uint32_t edition,
                                const uint8_t public_seed[ZAROSNIK_HASH_BYTES],
                                const uint8_t secret_seed[ZAROSNIK_HASH_BYTES], uint32_t leaf,
                                const uint32_t number[ZAROSNIK_NUMBER_WORDS],
                                uint32_t *table, size_t table_len, uint8_t *values, size_t values_len);

/*
 * Recover: the leaf key to which the values of a number lead. For the values that Reveal gave for the same number and
 * leaf it is the leaf's key.
 *
 *   l, w, s, h, edition   in: the profile; edition has no part in the key
 *   public_seed           in: the public seed
 *   leaf                  in: the leaf, from 0
 *   number                in: the number
 *   values, values_len    in: the values, ZAROSNIK_VALUES_BYTES(l) bytes
 *   table, table_len      work slice of at least ZAROSNIK_TABLE_WORDS(l, s) words
 *   key                   answer: the leaf key
 *   steps                 answer: the chain steps made, ZAROSNIK_STEPS(l, w, s)
 *
 * Refusals: 1, 2, 3, 4, 22; 5 work slice too short; 13 values_len other than 16 * l; 11 leaf not below 2^h; 7 number
 * not below the count.
 * Granted: the table of counts stands in table.
 * Refused: table is untouched, except that 7 leaves the table of counts in it.
 */
ZAROSNIK_NODISCARD
uint32_t zarosnik_one_time_recover(uint32_t l, uint32_t w, uint32_t s, uint32_t h, uint32_t edition,
                                   const uint8_t public_seed[ZAROSNIK_HASH_BYTES], uint32_t leaf,
                                   const uint32_t number[ZAROSNIK_NUMBER_WORDS],
                                   const uint8_t *values, size_t values_len,
                                   uint32_t *table, size_t table_len,
                                   uint8_t key[ZAROSNIK_HASH_BYTES], uint32_t *steps);

/*
 * Reserve: marks the key's next leaf for one signature. Store the key, by zarosnik_write_key, before it signs.
 *
 *   l, w, s, h, edition   in: the key's profile
 *   next_leaf             state: the key's next leaf, any value
 *   mark                  state: the key's mark; 1 with a next leaf of 1 to 2^h is one, anything else none
 *
 * Refusals: 1, 2, 3, 4, 22; 21 there is a mark, so the leaf reserved has not signed; 12 next leaf not below 2^h.
 * Granted: next_leaf is 1 more, and mark is 1: the leaf next_leaf - 1 is reserved.
 * Refused: next_leaf and mark keep their values, whatever they are.
 */
ZAROSNIK_NODISCARD
uint32_t zarosnik_reserve(uint32_t l, uint32_t w, uint32_t s, uint32_t h, uint32_t edition,
                          uint32_t *next_leaf, uint32_t *mark);

/*
 * Sign: signs an order text with the leaf that is reserved, next_leaf - 1. Call it only when the key is stored as
 * zarosnik_reserve left it. The order's number is the first b bits of the SHA-256 digest over R, public seed, root and
 * text, in edition 2 with that leaf (4 bytes, most significant first) between root and text; b is the largest value up
 * to 128 with 2^b not above the profile's count. So it is below the count, and no order is refused for its number.
 *
 *   l, w, s, h, edition        in: the key's profile
 *   public_seed                in: the key's public seed
 *   secret_seed                in: the key's secret seed
 *   next_leaf                  in: the key's next leaf, any value
 *   mark                       state: the key's mark; 1 with a next leaf of 1 to 2^h is one, anything else none
 *   r                          in: R, 16 fresh random bytes for this order
 *   message, message_len       in: the order text
 *   table, table_len           work slice of at least ZAROSNIK_TABLE_WORDS(l, s) words
 *   signature, signature_len   output slice of at least ZAROSNIK_SIGNATURE_BYTES(l, h) bytes
 *
 * Refusals: 1, 2, 3, 4, 22; 5 work slice too short; 16 text empty or over 200 bytes; 6 signature_len under
 * 20 + 16 * l + 16 * h; 20 there is no mark, so no leaf is reserved; 19 the profile's count below 256, whatever text
 * and R.
 * Granted: the signature stands in the first 20 + 16 * l + 16 * h bytes of signature, the table of counts in table,
 * and mark is 0. The key need not be stored again before the signature is handed out.
 * Refused: mark keeps its value, so the leaf stays reserved. signature is untouched, and so is table, except that 19
 * leaves the table of counts in it.
 */
ZAROSNIK_NODISCARD
uint32_t zarosnik_sign(uint32_t l, uint32_t w, uint32_t s, uint32_t h, uint32_t edition,
                       const uint8_t public_seed[ZAROSNIK_HASH_BYTES],
                       const uint8_t secret_seed[ZAROSNIK_HASH_BYTES], uint32_t next_leaf, uint32_t *mark,
                       const uint8_t r[ZAROSNIK_HASH_BYTES], const uint8_t *message, size_t message_len,
                       uint32_t *table, size_t table_len, uint8_t *signature, size_t signature_len);

/*
 * Write key: a key as the frame that is stored, one line of upper-case hex ended by the byte 0A. It holds the secret
 * seed.
 *
 *   l, w, s, h, edition   in: the key's profile
 *   public_seed           in: the key's public seed
 *   secret_seed           in: the key's secret seed
 *   next_leaf             in: the key's next leaf, any value
 *   mark                  in: the key's mark; 1 with a next leaf of 1 to 2^h is one, anything else is written as none
 *   frame, frame_len      output slice of at least ZAROSNIK_KEY_BYTES(edition) bytes; ZAROSNIK_KEY_BYTES_MAX bytes are
 *                         always enough
 *   frame_written         answer: the number of bytes written, ZAROSNIK_KEY_BYTES(edition)
 *
 * Refusals: 1, 2, 3, 4, 22; 6 frame_len under ZAROSNIK_KEY_BYTES(edition).
 * Granted: the frame stands in the first frame_written bytes of frame. No zero byte is written behind them.
 * Refused: frame is untouched.
 */
ZAROSNIK_NODISCARD
uint32_t zarosnik_write_key(uint32_t l, uint32_t w, uint32_t s, uint32_t h, uint32_t edition,
                            const uint8_t public_seed[ZAROSNIK_HASH_BYTES],
                            const uint8_t secret_seed[ZAROSNIK_HASH_BYTES], uint32_t next_leaf, uint32_t mark,
                            uint8_t *frame, size_t frame_len, size_t *frame_written);

/*
 * Read key: the key of a stored frame, the mark as it was stored. At a restart, set mark to 0 before the key is used:
 * the frame does not tell whether the reserved leaf has signed since.
 *
 *   frame, frame_len   in: the frame
 *   profile            answer: l, w, s, h, edition, in this order
 *   public_seed        answer: the public seed
 *   secret_seed        answer: the secret seed
 *   next_leaf          answer: the next leaf, any value
 *   mark               answer: 1 where the frame has a mark and the next leaf is 1 to 2^h, else 0
 *   line               answer: 1 after 17, else 0
 *
 * Refusals: 17 the line is wrong or missing, something stands after it, or it has a profile outside the limits.
 * Granted: zarosnik_write_key writes the same bytes for this key, except where the frame's mark was read as none.
 * Refused: every answer but line is zero.
 */
ZAROSNIK_NODISCARD
uint32_t zarosnik_read_key(const uint8_t *frame, size_t frame_len, uint32_t profile[ZAROSNIK_PROFILE_NUMBERS],
                           uint8_t public_seed[ZAROSNIK_HASH_BYTES], uint8_t secret_seed[ZAROSNIK_HASH_BYTES],
                           uint32_t *next_leaf, uint32_t *mark, uint32_t *line);

/*
 * Check: judges the signature of an order text. The order's number is that of zarosnik_sign, from the signature's R and
 * leaf and the cabinet's edition, public seed and root: nothing asks in which edition the order was signed. Orders may
 * come in another order than they were issued in: from a fresh cabinet on, each leaf is taken at most once, and only as
 * long as no leaf 32 or more above it was taken.
 *
 *   l, w, s, h, edition        in: the cabinet's profile
 *   public_seed                in: the cabinet's public seed
 *   root                       in: the cabinet's root, from zarosnik_root
 *   highest_leaf               state: the highest leaf that the cabinet has accepted, any value
 *   marks                      state: bit i, of the value 2^i, says that the leaf i below highest_leaf was accepted.
 *                              Any value: each bit counts as it stands, also where there is no such leaf
 *   message, message_len       in: the order text
 *   signature, signature_len   in: the signature, ZAROSNIK_SIGNATURE_BYTES(l, h) bytes
 *   table, table_len           work slice of at least ZAROSNIK_TABLE_WORDS(l, s) words
 *   steps                      answer: the chain steps made, ZAROSNIK_STEPS(l, w, s) where granted and for 15, else 0
 *
 * Refusals: 1, 2, 3, 4, 22; 5 work slice too short; 16 text empty or over 200 bytes; 13 signature_len other than
 * 20 + 16 * l + 16 * h; 11 the signature's leaf not below 2^h; 14 marks is not 0, and that leaf is 32 or more below
 * highest_leaf, or is not above it and bit highest_leaf - leaf of marks is set; 19 the profile's count below 256,
 * whatever text and signature; 15 the root recovered differs from root.
 * Granted: the order may be carried out, and the table of counts stands in table. Where marks was 0, highest_leaf is
 * the signature's leaf, also where that is lower than before, and marks is 1. Else a leaf that is d above highest_leaf
 * is the new highest_leaf, the bits of marks move up by d, those that reach 32 fall away, and bit 0 is set; for any
 * other leaf highest_leaf stays, and bit highest_leaf - leaf of marks is set. Store both, as one write, before the
 * order is carried out.
 * Refused: highest_leaf and marks keep their values. table is untouched, except that 15 and 19 leave the table of
 * counts in it.
 */
ZAROSNIK_NODISCARD
uint32_t zarosnik_verify(uint32_t l, uint32_t w, uint32_t s, uint32_t h, uint32_t edition,
                         const uint8_t public_seed[ZAROSNIK_HASH_BYTES],
                         const uint8_t root[ZAROSNIK_HASH_BYTES], uint32_t *highest_leaf, uint32_t *marks,
                         const uint8_t *message, size_t message_len,
                         const uint8_t *signature, size_t signature_len,
                         uint32_t *table, size_t table_len, uint32_t *steps);

/*
 * Read sheet: the signature and the order text of a sheet, for the profile that is expected. It judges the sheet's
 * form alone; the order is judged by zarosnik_verify.
 *
 *   l, w, s, h, edition        in: the profile expected; a sheet of the other edition is wrong at line 2
 *   sheet, sheet_len           in: the sheet
 *   signature, signature_len   output slice of at least ZAROSNIK_SIGNATURE_BYTES(l, h) bytes
 *   message, message_len       output slice that takes the sheet's text; ZAROSNIK_MESSAGE_MAX bytes are always enough
 *   message_written            answer: the length of the text
 *   line                       answer: after 17 the number, from 1, of the first wrong line; else 0
 *
 * Refusals: 1, 2, 3, 4, 22; 17 a line is wrong or missing, or something stands after the last line; 6 signature_len
 * under 20 + 16 * l + 16 * h; 6 message_len under the text's length.
 * Granted: the signature stands in the first 20 + 16 * l + 16 * h bytes of signature, the text in the first
 * message_written bytes of message.
 * Refused: signature and message are untouched.
 */
ZAROSNIK_NODISCARD
uint32_t zarosnik_read_sheet(uint32_t l, uint32_t w, uint32_t s, uint32_t h, uint32_t edition,
                             const uint8_t *sheet, size_t sheet_len, uint8_t *signature, size_t signature_len,
                             uint8_t *message, size_t message_len, size_t *message_written, uint32_t *line);

/*
 * Write sheet: a signature and its order text as a sheet. For the same profile, zarosnik_read_sheet takes it and gives
 * the same signature and text. Any signature of the right length is written, whatever its leaf: 11 is not tested, and
 * the order is judged by zarosnik_verify.
 *
 *   l, w, s, h, edition        in: the profile
 *   signature, signature_len   in: the signature, ZAROSNIK_SIGNATURE_BYTES(l, h) bytes
 *   message, message_len       in: the order text
 *   sheet, sheet_len           output slice of at least ZAROSNIK_SHEET_BYTES(l, h, edition, message_len) bytes;
 *                              ZAROSNIK_SHEET_BYTES_MAX bytes are always enough
 *   sheet_written              answer: the number of bytes written, ZAROSNIK_SHEET_BYTES(l, h, edition, message_len)
 *
 * Refusals: 1, 2, 3, 4, 22; 16 text empty or over 200 bytes; 13 signature_len other than 20 + 16 * l + 16 * h; 6
 * sheet_len under ZAROSNIK_SHEET_BYTES(l, h, edition, message_len).
 * Granted: the sheet stands in the first sheet_written bytes of sheet. No zero byte is written behind them.
 * Refused: sheet is untouched.
 */
ZAROSNIK_NODISCARD
uint32_t zarosnik_write_sheet(uint32_t l, uint32_t w, uint32_t s, uint32_t h, uint32_t edition,
                              const uint8_t *signature, size_t signature_len,
                              const uint8_t *message, size_t message_len,
                              uint8_t *sheet, size_t sheet_len, size_t *sheet_written);

#ifdef __cplusplus
}
#endif

#endif
