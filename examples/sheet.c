/*
 * From sheet to verdict: reads a sheet from the file named, or from standard input, at the gate profile in edition 2,
 * and prints its order text and what a fresh cabinet says to it. A sheet of edition 1 is refused at line 2.
 *
 *     sheet [FILE]
 *
 * The exit status is the number of the outcome, 0 where the order is taken, and 100 where the file cannot be read.
 *
 * The cabinet starts fresh with each run. One that moves a gate keeps its highest leaf and its marks in storage, and
 * stores both, as one write, before the order is carried out.
 */
#include <inttypes.h>
#include <stdio.h>

#include "zarosnik_types.h"

#define NOT_READ 100

static const struct zarosnik_public_seed public_seed = {{0x10, 0x11, 0x12, 0x13, 0x14, 0x15, 0x16, 0x17,
                                                         0x18, 0x19, 0x1A, 0x1B, 0x1C, 0x1D, 0x1E, 0x1F}};
static const struct zarosnik_tree_root root = {{0x0B, 0xF8, 0x71, 0x2F, 0x91, 0x28, 0x4B, 0x04,
                                                0x87, 0x40, 0x6F, 0x3D, 0x43, 0x24, 0x75, 0x07}};

static uint32_t table[ZAROSNIK_GATE_TABLE_WORDS];

/* One byte more than the longest sheet: with it a longer one is refused at the same line as the whole would be. */
static uint8_t sheet[ZAROSNIK_SHEET_BYTES(ZAROSNIK_GATE_L, ZAROSNIK_GATE_H, ZAROSNIK_EDITION_2, ZAROSNIK_MESSAGE_MAX)
                     + 1];

/* The number of bytes read, or 0 with *failed set. */
static size_t read_file(const char *path, int *failed)
{
    FILE *file = path == NULL ? stdin : fopen(path, "rb");
    if (file == NULL) {
        *failed = 1;
        return 0;
    }
    size_t count = fread(sheet, 1, sizeof sheet, file);
    *failed = ferror(file);
    if (file != stdin) {
        fclose(file);
    }
    return *failed ? 0 : count;
}

/* An order text may hold any bytes. Those that a terminal would take for a command are printed as numbers. */
static void print_text(const uint8_t *text, size_t len)
{
    printf("text: ");
    for (size_t i = 0; i < len; i++) {
        if (text[i] >= 0x20 && text[i] < 0x7F && text[i] != '\\') {
            putchar(text[i]);
        } else {
            printf("\\x%02X", (unsigned)text[i]);
        }
    }
    printf("\n");
}

int main(int argc, char **argv)
{
    int failed;
    size_t sheet_len = read_file(argc > 1 ? argv[1] : NULL, &failed);
    if (failed) {
        perror(argc > 1 ? argv[1] : "standard input");
        return NOT_READ;
    }

    struct zarosnik_cabinet cabinet = zarosnik_fresh_cabinet(zarosnik_gate_profile_2, public_seed, root);
    uint8_t signature[ZAROSNIK_GATE_SIGNATURE_BYTES];
    uint8_t text[ZAROSNIK_MESSAGE_MAX];
    size_t text_len;
    uint32_t line;
    uint32_t outcome = zarosnik_profile_read_sheet(cabinet.profile, sheet, sheet_len, signature, sizeof signature, text,
                                                   sizeof text, &text_len, &line);
    if (outcome != ZAROSNIK_GRANTED) {
        printf("sheet: %" PRIu32 " (%s), line %" PRIu32 "\n", outcome, zarosnik_outcome_text(outcome), line);
        return (int)outcome;
    }

    uint32_t steps;
    outcome = zarosnik_cabinet_verify(&cabinet, text, text_len, signature, sizeof signature, table,
                                      ZAROSNIK_GATE_TABLE_WORDS, &steps);
    print_text(text, text_len);
    printf("verdict: %" PRIu32 " (%s), %" PRIu32 " steps\n", outcome, zarosnik_outcome_text(outcome), steps);
    return (int)outcome;
}
