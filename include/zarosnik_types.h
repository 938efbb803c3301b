/*
 * Zarosnik over structs: the calls of zarosnik.h with a profile, a key and a cabinet as structs and a type of its own
 * for each kind of 16 bytes, so that none can be passed for another. zarosnik_hash takes none of these and has no other
 * form here.
 *
 * This layer is not proved. It is structs and inline functions alone: zarosnik_X_CALL hands the fields of X on to
 * zarosnik_CALL, returns what that returns, and does nothing else; zarosnik_key_restart is zarosnik_key_read_key with
 * the mark cleared. The refusals and their order, what is written and what stays untouched are said at zarosnik_CALL in
 * zarosnik.h, and its terms on pointers and threads hold here too.
 *
 *   - Values (a profile, a number, seeds, a root, R) are passed by value: a compiler that only warns of a pointer to
 *     another struct refuses another struct itself. Answers, keys and cabinets are passed by pointer.
 *   - The state of a key is two fields of it, next_leaf and mark, that of a cabinet two. Only zarosnik_key_reserve,
 *     zarosnik_key_sign and zarosnik_cabinet_verify change them, and only where they are granted; zarosnik_key_read_key
 *     and zarosnik_key_restart write the whole key, with zeros where they are refused.
 *   - Nothing is allocated or kept. The bytes in storage and on the line are those of docs/INTERFACE.md and never these
 *     structs, whose layout is the compiler's: a key is stored as zarosnik_key_write_key writes it.
 */
#ifndef ZAROSNIK_TYPES_H
#define ZAROSNIK_TYPES_H

#include "zarosnik.h"

#ifdef __cplusplus
extern "C" {
#endif

/* A profile: l chains, width w, sum s, tree height h, edition. One that is initialised by four numbers has edition 0,
 * which 22 refuses. */
struct zarosnik_profile {
    uint32_t l;
    uint32_t w;
    uint32_t s;
    uint32_t h;
    uint32_t edition;
};

/* The gate profile, as an initialiser for an edition and as two constants. None is without one: a program that names no
 * edition is not to compile with one that nobody chose. */
#define ZAROSNIK_GATE_PROFILE(edition) {ZAROSNIK_GATE_L, ZAROSNIK_GATE_W, ZAROSNIK_GATE_S, ZAROSNIK_GATE_H, (edition)}
static const struct zarosnik_profile zarosnik_gate_profile_1 = ZAROSNIK_GATE_PROFILE(ZAROSNIK_EDITION_1);
static const struct zarosnik_profile zarosnik_gate_profile_2 = ZAROSNIK_GATE_PROFILE(ZAROSNIK_EDITION_2);

/* The public seed of a key, which may be known to all. */
struct zarosnik_public_seed {
    uint8_t bytes[ZAROSNIK_HASH_BYTES];
};

/* The secret seed of a key: 16 random bytes, known to its holder alone. */
struct zarosnik_secret_seed {
    uint8_t bytes[ZAROSNIK_HASH_BYTES];
};

/* The root of a key's tree, which its cabinets hold. */
struct zarosnik_tree_root {
    uint8_t bytes[ZAROSNIK_HASH_BYTES];
};

/* The public key of one leaf. */
struct zarosnik_one_time_key {
    uint8_t bytes[ZAROSNIK_HASH_BYTES];
};

/* R: 16 fresh random bytes for each order. */
struct zarosnik_randomizer {
    uint8_t bytes[ZAROSNIK_HASH_BYTES];
};

/* A number of a row, or a count; least word first. */
struct zarosnik_number {
    uint32_t words[ZAROSNIK_NUMBER_WORDS];
};

/* A key. A copy of it would use its leaves a second time, and two orders signed with one leaf may let others be forged:
 * sign with one struct alone, and only when what zarosnik_key_reserve left is stored. */
struct zarosnik_key {
    struct zarosnik_profile profile;
    struct zarosnik_public_seed public_seed;
    struct zarosnik_secret_seed secret_seed;
    uint32_t next_leaf;
    uint32_t mark;
};

/* A cabinet. A copy of it would take an order a second time: check with one struct alone, and store highest_leaf and
 * marks, as one write, before an order is carried out. */
struct zarosnik_cabinet {
    struct zarosnik_profile profile;
    struct zarosnik_public_seed public_seed;
    struct zarosnik_tree_root root;
    uint32_t highest_leaf;
    uint32_t marks;
};

/* A fresh key, of which no leaf is used. One that was stored is read by zarosnik_key_restart. */
static inline struct zarosnik_key zarosnik_fresh_key(struct zarosnik_profile profile,
                                                     struct zarosnik_public_seed public_seed,
                                                     struct zarosnik_secret_seed secret_seed)
{
    struct zarosnik_key key = {profile, public_seed, secret_seed, 0, 0};
    return key;
}

/* A fresh cabinet, which has taken no order. One that has is given the highest leaf and the marks that were stored. */
static inline struct zarosnik_cabinet zarosnik_fresh_cabinet(struct zarosnik_profile profile,
                                                             struct zarosnik_public_seed public_seed,
                                                             struct zarosnik_tree_root root)
{
    struct zarosnik_cabinet cabinet = {profile, public_seed, root, 0, 0};
    return cabinet;
}

/* Count. */
ZAROSNIK_NODISCARD
static inline uint32_t zarosnik_profile_count(struct zarosnik_profile profile, uint32_t *table, size_t table_len,
                                              struct zarosnik_number *number)
{
    return zarosnik_count(profile.l, profile.w, profile.s, table, table_len, number->words);
}

/* Spread. */
ZAROSNIK_NODISCARD
static inline uint32_t zarosnik_profile_unrank(struct zarosnik_profile profile, struct zarosnik_number number,
                                               uint32_t *table, size_t table_len, uint8_t *row, size_t row_len)
{
    return zarosnik_unrank(profile.l, profile.w, profile.s, number.words, table, table_len, row, row_len);
}

/* Gather. */
ZAROSNIK_NODISCARD
static inline uint32_t zarosnik_profile_rank(struct zarosnik_profile profile, const uint8_t *row, size_t row_len,
                                             uint32_t *table, size_t table_len, struct zarosnik_number *number)
{
    return zarosnik_rank(profile.l, profile.w, profile.s, row, row_len, table, table_len, number->words);
}

/* Compare. */
ZAROSNIK_NODISCARD
static inline uint32_t zarosnik_number_compare(struct zarosnik_number first, struct zarosnik_number second,
                                               uint32_t *order, uint32_t *looked)
{
    return zarosnik_compare(first.words, second.words, order, looked);
}

/* Read sheet. */
ZAROSNIK_NODISCARD
static inline uint32_t zarosnik_profile_read_sheet(struct zarosnik_profile profile, const uint8_t *sheet,
                                                   size_t sheet_len, uint8_t *signature, size_t signature_len,
                                                   uint8_t *message, size_t message_len, size_t *message_written,
                                                   uint32_t *line)
{
    return zarosnik_read_sheet(profile.l, profile.w, profile.s, profile.h, profile.edition, sheet, sheet_len,
                               signature, signature_len, message, message_len, message_written, line);
}

/* Write sheet. */
ZAROSNIK_NODISCARD
static inline uint32_t zarosnik_profile_write_sheet(struct zarosnik_profile profile, const uint8_t *signature,
                                                    size_t signature_len, const uint8_t *message, size_t message_len,
                                                    uint8_t *sheet, size_t sheet_len, size_t *sheet_written)
{
    return zarosnik_write_sheet(profile.l, profile.w, profile.s, profile.h, profile.edition, signature, signature_len,
                                message, message_len, sheet, sheet_len, sheet_written);
}

/* Recover. */
ZAROSNIK_NODISCARD
static inline uint32_t zarosnik_profile_one_time_recover(struct zarosnik_profile profile,
                                                         struct zarosnik_public_seed public_seed, uint32_t leaf,
                                                         struct zarosnik_number number, const uint8_t *values,
                                                         size_t values_len, uint32_t *table, size_t table_len,
                                                         struct zarosnik_one_time_key *key, uint32_t *steps)
{
    return zarosnik_one_time_recover(profile.l, profile.w, profile.s, profile.h, profile.edition, public_seed.bytes,
                                     leaf, number.words, values, values_len, table, table_len, key->bytes, steps);
}

/* Leaf key. */
ZAROSNIK_NODISCARD
static inline uint32_t zarosnik_key_leaf_key(const struct zarosnik_key *key, uint32_t leaf,
                                             struct zarosnik_one_time_key *leaf_key)
{
    return zarosnik_leaf_key(key->profile.l, key->profile.w, key->profile.s, key->profile.h, key->profile.edition,
                             key->public_seed.bytes, key->secret_seed.bytes, leaf, leaf_key->bytes);
}

/* Root. */
ZAROSNIK_NODISCARD
static inline uint32_t zarosnik_key_root(const struct zarosnik_key *key, struct zarosnik_tree_root *root)
{
    return zarosnik_root(key->profile.l, key->profile.w, key->profile.s, key->profile.h, key->profile.edition,
                         key->public_seed.bytes, key->secret_seed.bytes, root->bytes);
}

/* Reveal. It keeps no account of the leaves used: zarosnik_key_reserve does. */
ZAROSNIK_NODISCARD
static inline uint32_t zarosnik_key_one_time_sign(const struct zarosnik_key *key, uint32_t leaf,
                                                  struct zarosnik_number number, uint32_t *table, size_t table_len,
                                                  uint8_t *values, size_t values_len)
{
    return zarosnik_one_time_sign(key->profile.l, key->profile.w, key->profile.s, key->profile.h, key->profile.edition,
                                  key->public_seed.bytes, key->secret_seed.bytes, leaf, number.words, table, table_len,
                                  values, values_len);
}

/* Reserve. Store the key before it signs. */
ZAROSNIK_NODISCARD
static inline uint32_t zarosnik_key_reserve(struct zarosnik_key *key)
{
    return zarosnik_reserve(key->profile.l, key->profile.w, key->profile.s, key->profile.h, key->profile.edition,
                            &key->next_leaf, &key->mark);
}

/* Sign. Only when the key, as zarosnik_key_reserve left it, is stored. */
ZAROSNIK_NODISCARD
static inline uint32_t zarosnik_key_sign(struct zarosnik_key *key, struct zarosnik_randomizer r,
                                         const uint8_t *message, size_t message_len, uint32_t *table, size_t table_len,
                                         uint8_t *signature, size_t signature_len)
{
    return zarosnik_sign(key->profile.l, key->profile.w, key->profile.s, key->profile.h, key->profile.edition,
                         key->public_seed.bytes, key->secret_seed.bytes, key->next_leaf, &key->mark, r.bytes, message,
                         message_len, table, table_len, signature, signature_len);
}

/* Write key. The frame holds the secret seed. */
ZAROSNIK_NODISCARD
static inline uint32_t zarosnik_key_write_key(const struct zarosnik_key *key, uint8_t *frame, size_t frame_len,
                                              size_t *frame_written)
{
    return zarosnik_write_key(key->profile.l, key->profile.w, key->profile.s, key->profile.h, key->profile.edition,
                              key->public_seed.bytes, key->secret_seed.bytes, key->next_leaf, key->mark, frame,
                              frame_len, frame_written);
}

/* Read key, the mark as it was stored. A desk that starts takes zarosnik_key_restart. */
ZAROSNIK_NODISCARD
static inline uint32_t zarosnik_key_read_key(struct zarosnik_key *key, const uint8_t *frame, size_t frame_len,
                                             uint32_t *line)
{
    uint32_t profile[ZAROSNIK_PROFILE_NUMBERS];
    uint32_t outcome = zarosnik_read_key(frame, frame_len, profile, key->public_seed.bytes, key->secret_seed.bytes,
                                         &key->next_leaf, &key->mark, line);
    key->profile.l = profile[0];
    key->profile.w = profile[1];
    key->profile.s = profile[2];
    key->profile.h = profile[3];
    key->profile.edition = profile[4];
    return outcome;
}

/* Restart: the key of the stored frame without its mark, with which a desk goes on after a power cut and whenever it
 * starts. A leaf that was reserved signs nothing any more, since the frame does not tell whether it has signed. */
ZAROSNIK_NODISCARD
static inline uint32_t zarosnik_key_restart(struct zarosnik_key *key, const uint8_t *frame, size_t frame_len,
                                            uint32_t *line)
{
    uint32_t outcome = zarosnik_key_read_key(key, frame, frame_len, line);
    key->mark = 0;
    return outcome;
}

/* Check. Store cabinet->highest_leaf and cabinet->marks, as one write, before the order is carried out. */
ZAROSNIK_NODISCARD
static inline uint32_t zarosnik_cabinet_verify(struct zarosnik_cabinet *cabinet, const uint8_t *message,
                                               size_t message_len, const uint8_t *signature, size_t signature_len,
                                               uint32_t *table, size_t table_len, uint32_t *steps)
{
    return zarosnik_verify(cabinet->profile.l, cabinet->profile.w, cabinet->profile.s, cabinet->profile.h,
                           cabinet->profile.edition, cabinet->public_seed.bytes, cabinet->root.bytes,
                           &cabinet->highest_leaf, &cabinet->marks, message, message_len, signature, signature_len,
                           table, table_len, steps);
}

#ifdef __cplusplus
}
#endif

#endif
