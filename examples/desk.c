/*
 * The whole way of an order, at the gate profile in edition 2: a desk reserves a leaf, signs the order with it and
 * writes its sheet; a cabinet reads the sheet and checks the order. The sheet then goes to the file named, which sheet.c
 * takes.
 *
 *     desk FILE
 *
 * The exit status is the number of the first outcome other than 0, 0 where the order is taken and its sheet written, and
 * 100 where the file cannot be.
 *
 * Key and cabinet start fresh with each run, and seeds and R are fixed, so that every run writes the same sheet. A desk
 * draws its secret seed once and R for each order at random, and keeps its key in storage, as store.c does.
 */
#include <inttypes.h>
#include <stdio.h>
#include <string.h>

#include "zarosnik_types.h"

#define NOT_WRITTEN 100

static const struct zarosnik_public_seed public_seed = {{0x10, 0x11, 0x12, 0x13, 0x14, 0x15, 0x16, 0x17,
                                                         0x18, 0x19, 0x1A, 0x1B, 0x1C, 0x1D, 0x1E, 0x1F}};
static const struct zarosnik_secret_seed secret_seed = {{0xE0, 0xE1, 0xE2, 0xE3, 0xE4, 0xE5, 0xE6, 0xE7,
                                                         0xE8, 0xE9, 0xEA, 0xEB, 0xEC, 0xED, 0xEE, 0xEF}};
static const struct zarosnik_randomizer r = {{0x71, 0x72, 0x73, 0x74, 0x75, 0x76, 0x77, 0x78,
                                              0x79, 0x7A, 0x7B, 0x7C, 0x7D, 0x7E, 0x7F, 0x80}};

static const char order[] = "sill level 2.4 m until 18:00";

static uint32_t table[ZAROSNIK_GATE_TABLE_WORDS];

static void tell(const char *name, uint32_t outcome)
{
    printf("%s: %" PRIu32 " (%s)", name, outcome, zarosnik_outcome_text(outcome));
}

/* The desk reserves a leaf and writes its key as it is to be stored. */
static uint32_t reserve_leaf(struct zarosnik_key *key)
{
    uint8_t frame[ZAROSNIK_KEY_BYTES_MAX];
    size_t frame_len;
    uint32_t outcome = zarosnik_key_reserve(key);
    tell("reserve", outcome);
    printf(", next leaf %" PRIu32 "\n", key->next_leaf);
    if (outcome != ZAROSNIK_GRANTED) {
        return outcome;
    }
    outcome = zarosnik_key_write_key(key, frame, sizeof frame, &frame_len);
    tell("write key", outcome);
    printf(", %zu bytes\n", frame_len);
    /* Here a desk stores the frame, and goes on only when that has ended. */
    return outcome;
}

/* The desk signs the order with the leaf reserved and writes its sheet. */
static uint32_t write_order(struct zarosnik_key *key, uint8_t sheet[ZAROSNIK_SHEET_BYTES_MAX], size_t *sheet_len)
{
    const uint8_t *text = (const uint8_t *)order;
    uint8_t signature[ZAROSNIK_GATE_SIGNATURE_BYTES];
    uint32_t outcome = zarosnik_key_sign(key, r, text, strlen(order), table, ZAROSNIK_GATE_TABLE_WORDS, signature,
                                         sizeof signature);
    tell("sign", outcome);
    printf(", %zu bytes\n", sizeof signature);
    if (outcome != ZAROSNIK_GRANTED) {
        return outcome;
    }
    outcome = zarosnik_profile_write_sheet(key->profile, signature, sizeof signature, text, strlen(order), sheet,
                                           ZAROSNIK_SHEET_BYTES_MAX, sheet_len);
    tell("write sheet", outcome);
    printf(", %zu bytes\n", *sheet_len);
    return outcome;
}

/* The cabinet reads the sheet and checks the order. */
static uint32_t take_order(struct zarosnik_cabinet *cabinet, const uint8_t *sheet, size_t sheet_len)
{
    uint8_t signature[ZAROSNIK_GATE_SIGNATURE_BYTES];
    uint8_t text[ZAROSNIK_MESSAGE_MAX];
    size_t text_len;
    uint32_t line;
    uint32_t outcome = zarosnik_profile_read_sheet(cabinet->profile, sheet, sheet_len, signature, sizeof signature, text,
                                                   sizeof text, &text_len, &line);
    tell("read sheet", outcome);
    printf(", %zu bytes of text\n", text_len);
    if (outcome != ZAROSNIK_GRANTED) {
        return outcome;
    }
    uint32_t steps;
    outcome = zarosnik_cabinet_verify(cabinet, text, text_len, signature, sizeof signature, table,
                                      ZAROSNIK_GATE_TABLE_WORDS, &steps);
    tell("verify", outcome);
    printf(", %" PRIu32 " steps\n", steps);
    return outcome;
}

/* Whether all bytes are in the file. */
static int write_file(const char *path, const uint8_t *bytes, size_t len)
{
    FILE *file = fopen(path, "wb");
    if (file == NULL) {
        return 0;
    }
    size_t count = fwrite(bytes, 1, len, file);
    return fclose(file) == 0 && count == len;
}

int main(int argc, char **argv)
{
    if (argc != 2) {
        fprintf(stderr, "usage: desk FILE\n");
        return NOT_WRITTEN;
    }

    struct zarosnik_key key = zarosnik_fresh_key(zarosnik_gate_profile_2, public_seed, secret_seed);
    struct zarosnik_tree_root root;
    uint32_t outcome = zarosnik_key_root(&key, &root);
    if (outcome != ZAROSNIK_GRANTED) {
        return (int)outcome;
    }
    outcome = reserve_leaf(&key);
    if (outcome != ZAROSNIK_GRANTED) {
        return (int)outcome;
    }
    uint8_t sheet[ZAROSNIK_SHEET_BYTES_MAX];
    size_t sheet_len;
    outcome = write_order(&key, sheet, &sheet_len);
    if (outcome != ZAROSNIK_GRANTED) {
        return (int)outcome;
    }
    struct zarosnik_cabinet cabinet = zarosnik_fresh_cabinet(key.profile, public_seed, root);
    outcome = take_order(&cabinet, sheet, sheet_len);
    if (outcome != ZAROSNIK_GRANTED) {
        return (int)outcome;
    }
    if (!write_file(argv[1], sheet, sheet_len)) {
        perror(argv[1]);
        return NOT_WRITTEN;
    }
    return 0;
}
