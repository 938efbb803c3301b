/*
 * A desk signs two orders, and a cabinet checks them as they arrive by two routes, the later one first, at the gate
 * profile in edition 2. Then a desk and a cabinet that are older than that go on in edition 1. Every value is compared
 * with what is expected; the exit status is 0 where all agree.
 *
 * Seeds and R are fixed here so that every run prints the same. A desk draws its secret seed once and R for each order
 * at random, and stores its key between reserving and signing, as store.c does.
 */
#include <inttypes.h>
#include <stdio.h>
#include <stdlib.h>
#include <string.h>

#include "zarosnik_types.h"

static const struct zarosnik_public_seed public_seed = {{0x10, 0x11, 0x12, 0x13, 0x14, 0x15, 0x16, 0x17,
                                                         0x18, 0x19, 0x1A, 0x1B, 0x1C, 0x1D, 0x1E, 0x1F}};
static const struct zarosnik_secret_seed secret_seed = {{0xE0, 0xE1, 0xE2, 0xE3, 0xE4, 0xE5, 0xE6, 0xE7,
                                                         0xE8, 0xE9, 0xEA, 0xEB, 0xEC, 0xED, 0xEE, 0xEF}};
static const struct zarosnik_randomizer r = {{0x71, 0x72, 0x73, 0x74, 0x75, 0x76, 0x77, 0x78,
                                              0x79, 0x7A, 0x7B, 0x7C, 0x7D, 0x7E, 0x7F, 0x80}};
static const struct zarosnik_randomizer later_r = {{0x91, 0x92, 0x93, 0x94, 0x95, 0x96, 0x97, 0x98,
                                                    0x99, 0x9A, 0x9B, 0x9C, 0x9D, 0x9E, 0x9F, 0xA0}};

/* The seeds of another key, that of the older desk. */
static const struct zarosnik_public_seed older_seed = {{0x20, 0x21, 0x22, 0x23, 0x24, 0x25, 0x26, 0x27,
                                                        0x28, 0x29, 0x2A, 0x2B, 0x2C, 0x2D, 0x2E, 0x2F}};
static const struct zarosnik_secret_seed older_secret = {{0xD0, 0xD1, 0xD2, 0xD3, 0xD4, 0xD5, 0xD6, 0xD7,
                                                          0xD8, 0xD9, 0xDA, 0xDB, 0xDC, 0xDD, 0xDE, 0xDF}};

/* The root of the first seeds, as the independent implementation in tests/ gives it. */
static const struct zarosnik_tree_root expected_root = {{0x0B, 0xF8, 0x71, 0x2F, 0x91, 0x28, 0x4B, 0x04,
                                                         0x87, 0x40, 0x6F, 0x3D, 0x43, 0x24, 0x75, 0x07}};

static const char order[] = "sill level 2.4 m until 18:00";
static const char later_order[] = "sill level 2.1 m from 18:00 until 23:00";
static const char other_order[] = "sill level 9.4 m until 18:00";

static uint32_t table[ZAROSNIK_GATE_TABLE_WORDS];

static int differences;

static void expect(const char *name, uint32_t found, uint32_t expected)
{
    if (found != expected) {
        fprintf(stderr, "%s: %" PRIu32 " instead of %" PRIu32 "\n", name, found, expected);
        differences++;
    }
}

/* A desk reserves its next leaf; the outcome, the next leaf and the mark are printed and compared. */
static void reserve(const char *name, struct zarosnik_key *key, uint32_t outcome, uint32_t next_after)
{
    uint32_t found = zarosnik_key_reserve(key);
    printf("%s: %" PRIu32 " (%s), next leaf %" PRIu32 ", mark %" PRIu32 "\n", name, found, zarosnik_outcome_text(found),
           key->next_leaf, key->mark);
    expect("outcome of reserve", found, outcome);
    expect("next leaf after reserve", key->next_leaf, next_after);
    expect("mark after reserve", key->mark, 1);
}

/* A desk signs a text with the leaf reserved; the outcome, the next leaf and the mark are printed and compared. */
static void sign(const char *name, struct zarosnik_key *key, struct zarosnik_randomizer fresh, const char *text,
                 uint8_t signature[ZAROSNIK_GATE_SIGNATURE_BYTES], uint32_t outcome, uint32_t next_after)
{
    uint32_t found = zarosnik_key_sign(key, fresh, (const uint8_t *)text, strlen(text), table,
                                       ZAROSNIK_GATE_TABLE_WORDS, signature, ZAROSNIK_GATE_SIGNATURE_BYTES);
    printf("%s: %" PRIu32 " (%s), next leaf %" PRIu32 ", mark %" PRIu32 "\n", name, found, zarosnik_outcome_text(found),
           key->next_leaf, key->mark);
    expect("outcome of sign", found, outcome);
    expect("next leaf after sign", key->next_leaf, next_after);
    expect("mark after sign", key->mark, 0);
}

/* A cabinet checks a text with a signature; the verdict, the steps and the cabinet's state are printed and compared. */
static void check(const char *name, struct zarosnik_cabinet *cabinet, const char *text, const uint8_t *signature,
                  uint32_t verdict, uint32_t steps, uint32_t highest_after, uint32_t marks_after)
{
    uint32_t made;
    uint32_t found = zarosnik_cabinet_verify(cabinet, (const uint8_t *)text, strlen(text), signature,
                                             ZAROSNIK_GATE_SIGNATURE_BYTES, table, ZAROSNIK_GATE_TABLE_WORDS, &made);
    printf("%s: %" PRIu32 " (%s), %" PRIu32 " steps, highest leaf %" PRIu32 ", marks 0x%08" PRIX32 "\n", name, found,
           zarosnik_outcome_text(found), made, cabinet->highest_leaf, cabinet->marks);
    expect("verdict", found, verdict);
    expect("steps", made, steps);
    expect("highest leaf", cabinet->highest_leaf, highest_after);
    expect("marks", cabinet->marks, marks_after);
}

/* Desk and cabinet of edition 1, which have signed and taken the leaves 0 to 6, go on with what they have stored. */
static void go_on_in_edition_1(void)
{
    struct zarosnik_key key = {zarosnik_gate_profile_1, older_seed, older_secret, 7, 0};
    struct zarosnik_tree_root root;
    expect("outcome of the older root", zarosnik_key_root(&key, &root), ZAROSNIK_GRANTED);
    struct zarosnik_cabinet cabinet = {zarosnik_gate_profile_1, older_seed, root, 6, 0x7F};
    uint8_t signature[ZAROSNIK_GATE_SIGNATURE_BYTES];
    reserve("reserve in edition 1", &key, ZAROSNIK_GRANTED, 8);
    sign("sign in edition 1", &key, r, order, signature, ZAROSNIK_GRANTED, 8);
    check("older cabinet", &cabinet, order, signature, ZAROSNIK_GRANTED, ZAROSNIK_GATE_STEPS, 7, 0xFF);
}

int main(void)
{
    /* The desk makes its key, and the root that its cabinets hold. All of them know edition 2. */
    struct zarosnik_key key = zarosnik_fresh_key(zarosnik_gate_profile_2, public_seed, secret_seed);
    struct zarosnik_tree_root root;
    uint32_t made_root = zarosnik_key_root(&key, &root);
    printf("root: %" PRIu32 " (%s), ", made_root, zarosnik_outcome_text(made_root));
    for (size_t i = 0; i < sizeof root.bytes; i++) {
        printf("%02X", (unsigned)root.bytes[i]);
    }
    printf("\n");
    expect("outcome of root", made_root, ZAROSNIK_GRANTED);
    expect("differing root", memcmp(root.bytes, expected_root.bytes, sizeof root.bytes) != 0, 0);

    /* The desk signs two orders, with the leaves 0 and 1. Where reserve is granted, it stores the key before it signs.
     * A leaf is reserved for one signature: none is reserved over it, and no second one is made with it. */
    uint8_t signature[ZAROSNIK_GATE_SIGNATURE_BYTES];
    uint8_t later_signature[ZAROSNIK_GATE_SIGNATURE_BYTES];
    reserve("reserve", &key, ZAROSNIK_GRANTED, 1);
    reserve("reserve again", &key, ZAROSNIK_REFUSED_MARK_STANDS, 1);
    sign("sign", &key, r, order, signature, ZAROSNIK_GRANTED, 1);
    sign("sign again", &key, later_r, later_order, later_signature, ZAROSNIK_REFUSED_NO_MARK, 1);
    reserve("reserve for the later", &key, ZAROSNIK_GRANTED, 2);
    sign("sign the later", &key, later_r, later_order, later_signature, ZAROSNIK_GRANTED, 2);

    /* The later order comes by radio, before the other by cable, and both are taken, each once. Mark 0 is that of the
     * highest leaf, 1, and mark 1 that of the leaf below it. The cabinet stores highest_leaf and marks, as one write,
     * before it moves the gate. */
    struct zarosnik_cabinet cabinet = zarosnik_fresh_cabinet(zarosnik_gate_profile_2, public_seed, root);
    check("later, by radio", &cabinet, later_order, later_signature, ZAROSNIK_GRANTED, ZAROSNIK_GATE_STEPS, 1, 0x1);
    check("first, by cable", &cabinet, order, signature, ZAROSNIK_GRANTED, ZAROSNIK_GATE_STEPS, 1, 0x3);
    check("replay", &cabinet, order, signature, ZAROSNIK_REFUSED_LEAF_PASSED, 0, 1, 0x3);

    /* A cabinet that would still take the leaf, so that the root decides; and one that was set up in the other edition,
     * which takes another digest of the same order. */
    struct zarosnik_cabinet other = zarosnik_fresh_cabinet(zarosnik_gate_profile_2, public_seed, root);
    check("changed text", &other, other_order, signature, ZAROSNIK_REFUSED_ROOT_DIFFERS, ZAROSNIK_GATE_STEPS, 0, 0);
    struct zarosnik_cabinet wrong = zarosnik_fresh_cabinet(zarosnik_gate_profile_1, public_seed, root);
    check("other edition", &wrong, order, signature, ZAROSNIK_REFUSED_ROOT_DIFFERS, ZAROSNIK_GATE_STEPS, 0, 0);

    go_on_in_edition_1();
    return differences == 0 ? EXIT_SUCCESS : EXIT_FAILURE;
}
