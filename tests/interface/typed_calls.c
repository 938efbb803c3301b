/* Built and run by typed_calls.py: an order over the structs of zarosnik_types.h, from a fresh key to a cabinet, with
 * each of its calls. That each hands on what it is given is compared by header.py. */
#include "zarosnik_types.h"

#include <stdio.h>
#include <stdlib.h>
#include <string.h>

#define HOLD(what)                                         \
    do {                                                   \
        if (!(what)) {                                     \
            fprintf(stderr, "does not hold: %s\n", #what); \
            exit(EXIT_FAILURE);                            \
        }                                                  \
    } while (0)
#define TABLE table, ZAROSNIK_GATE_TABLE_WORDS
#define LEAF 0u

static uint32_t table[ZAROSNIK_GATE_TABLE_WORDS];

/* The row of the number 7 and back; the values of the first leaf for it, and the leaf's key from these. */
static void one_time(const struct zarosnik_key *key)
{
    struct zarosnik_profile p = key->profile;
    struct zarosnik_number count, found, number = {{7, 0, 0, 0, 0}};
    struct zarosnik_one_time_key leaf_key, recovered;
    uint8_t row[ZAROSNIK_GATE_L], values[ZAROSNIK_GATE_VALUES_BYTES];
    uint32_t order, looked, steps;
    HOLD(zarosnik_profile_count(p, TABLE, &count) == 0);
    HOLD(zarosnik_number_compare(number, count, &order, &looked) == 0 && order == ZAROSNIK_LESS && looked == 1);
    HOLD(zarosnik_profile_unrank(p, count, TABLE, row, sizeof row) == ZAROSNIK_REFUSED_NUMBER_TOO_LARGE);
    HOLD(zarosnik_profile_unrank(p, number, TABLE, row, sizeof row) == 0);
    HOLD(zarosnik_profile_rank(p, row, sizeof row, TABLE, &found) == 0 && memcmp(&found, &number, sizeof found) == 0);
    HOLD(zarosnik_key_leaf_key(key, LEAF, &leaf_key) == 0);
    HOLD(zarosnik_key_one_time_sign(key, LEAF, number, TABLE, values, sizeof values) == 0);
    HOLD(zarosnik_profile_one_time_recover(p, key->public_seed, LEAF, number, values, sizeof values, TABLE, &recovered,
                                           &steps) == 0 && steps == ZAROSNIK_GATE_STEPS);
    HOLD(memcmp(&recovered, &leaf_key, sizeof leaf_key) == 0);
}

int main(void)
{
    struct zarosnik_profile p = ZAROSNIK_GATE_PROFILE(EDITION);
    struct zarosnik_public_seed public_seed;
    struct zarosnik_secret_seed secret_seed;
    struct zarosnik_randomizer r;
    struct zarosnik_tree_root root;
    const uint8_t text[] = {'s', 'i', 'l', 'l', ' ', '1', '.', '9', ' ', 'm'};
    uint8_t signature[ZAROSNIK_SIGNATURE_BYTES(ZAROSNIK_GATE_L, 3u)], read[sizeof signature], words[sizeof text];
    uint8_t frame[ZAROSNIK_KEY_BYTES(EDITION)];
    uint8_t sheet[ZAROSNIK_SHEET_BYTES(ZAROSNIK_GATE_L, 3u, EDITION, sizeof text)];
    size_t size;
    uint32_t line, steps;
    HOLD(memcmp(&p, EDITION == 1 ? &zarosnik_gate_profile_1 : &zarosnik_gate_profile_2, sizeof p) == 0);
    p.h = 3;
    memset(&public_seed, 0x30, sizeof public_seed);
    memset(&secret_seed, 0x50, sizeof secret_seed);
    memset(&r, 0x90, sizeof r);
    struct zarosnik_key key = zarosnik_fresh_key(p, public_seed, secret_seed), again;
    one_time(&key);
    HOLD(zarosnik_key_root(&key, &root) == 0);
    struct zarosnik_cabinet cabinet = zarosnik_fresh_cabinet(p, public_seed, root);
    HOLD(key.next_leaf == 0 && key.mark == 0 && cabinet.highest_leaf == 0 && cabinet.marks == 0);

    key.next_leaf = 2;
    HOLD(zarosnik_key_reserve(&key) == 0 && key.next_leaf == 3 && key.mark == 1);
    HOLD(zarosnik_key_write_key(&key, frame, sizeof frame, &size) == 0 && size == sizeof frame);
    HOLD(zarosnik_key_read_key(&again, frame, size, &line) == 0 && memcmp(&again, &key, sizeof key) == 0);
    HOLD(zarosnik_key_sign(&key, r, text, sizeof text, TABLE, signature, sizeof signature) == 0);
    HOLD(key.next_leaf == 3 && key.mark == 0);
    HOLD(zarosnik_key_restart(&again, frame, size, &line) == 0 && memcmp(&again, &key, sizeof key) == 0);
    HOLD(zarosnik_profile_write_sheet(p, signature, sizeof signature, text, sizeof text, sheet, sizeof sheet, &size)
         == 0);
    HOLD(zarosnik_profile_read_sheet(p, sheet, size, read, sizeof read, words, sizeof words, &size, &line) == 0);
    HOLD(memcmp(read, signature, sizeof read) == 0 && memcmp(words, text, sizeof text) == 0);
    const uint32_t outcomes[] = {ZAROSNIK_GRANTED, ZAROSNIK_REFUSED_LEAF_PASSED};
    for (size_t i = 0; i < 2; i++) {
        HOLD(zarosnik_cabinet_verify(&cabinet, words, size, read, sizeof read, TABLE, &steps) == outcomes[i]);
        HOLD(cabinet.highest_leaf == 2 && cabinet.marks == 1 && steps == (i == 0 ? ZAROSNIK_GATE_STEPS : 0));
    }
    return EXIT_SUCCESS;
}
