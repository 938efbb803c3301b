/*
 * A desk that keeps its key in a file. Cut off at any step, by a power cut or by kill -9, it is started again and goes
 * on, and no leaf signs twice.
 *
 *     store make FOLDER                    makes a key at the gate profile in edition 2, and prints what cabinets hold
 *     store sign FOLDER <ORDERS >SHEETS    signs each line of ORDERS, and writes its sheet
 *
 * The exit status is the number of the first outcome other than 0, 0 where there is none, and 100 where the system
 * refuses something. Whatever it is, the desk may be started again.
 *
 * FOLDER/key is the stored key, with the secret seed in it: nobody else reads it, and no copy of it is put back. A disk
 * that loses what fsync has waited for makes a leaf sign twice; no program can see to that.
 */
#define _DEFAULT_SOURCE

#include <errno.h>
#include <fcntl.h>
#include <inttypes.h>
#include <stdio.h>
#include <stdlib.h>
#include <string.h>
#include <sys/file.h>
#include <unistd.h>

#include "zarosnik_types.h"

#define FAILED 100
#define STORED "key"
#define STORED_NEW "key.new"

/* The folder of the key, open and locked. */
static int folder;

/* Enough for every profile: the profile is that of the stored key. */
static uint32_t table[ZAROSNIK_TABLE_WORDS_MAX];

static uint32_t tell(const char *name, uint32_t outcome)
{
    fprintf(stderr, "%s: %" PRIu32 " (%s)\n", name, outcome, zarosnik_outcome_text(outcome));
    return outcome;
}

static uint32_t failed(const char *name)
{
    perror(name);
    return FAILED;
}

/* Whether all bytes are written; in one write, where the system takes them at once. */
static int write_all(int file, const uint8_t *bytes, size_t len)
{
    while (len > 0) {
        ssize_t count = write(file, bytes, len);
        if (count < 0) {
            return 0;
        }
        bytes += count;
        len -= (size_t)count;
    }
    return 1;
}

/* Stores the key in a new file, which then takes the place of the old one. Each step has ended before the next begins:
 * a cut leaves the old frame or the new, as a whole, and once this is granted, the new one is on the disk. After
 * anything else it is not known which of the two is, and nothing may be signed. */
static uint32_t store(const struct zarosnik_key *key)
{
    uint8_t frame[ZAROSNIK_KEY_BYTES_MAX];
    size_t frame_len;
    uint32_t outcome = zarosnik_key_write_key(key, frame, sizeof frame, &frame_len);
    if (outcome != ZAROSNIK_GRANTED) {
        return tell("write key", outcome);
    }
    int file = openat(folder, STORED_NEW, O_WRONLY | O_CREAT | O_TRUNC, 0600);
    if (file < 0) {
        return failed(STORED_NEW);
    }
    if (!write_all(file, frame, frame_len) || fsync(file) != 0) {
        close(file);
        return failed(STORED_NEW);
    }
    if (close(file) != 0 || renameat(folder, STORED_NEW, folder, STORED) != 0 || fsync(folder) != 0) {
        return failed(STORED);
    }
    return ZAROSNIK_GRANTED;
}

/* The key that is stored, without its mark: a leaf that was reserved when the desk was cut off may have signed. */
static uint32_t restart(struct zarosnik_key *key)
{
    /* One byte more than the longest frame: with it a longer file is refused as the whole would be. */
    uint8_t frame[ZAROSNIK_KEY_BYTES_MAX + 1];
    size_t len = 0;
    ssize_t count = 1;
    int file = openat(folder, STORED, O_RDONLY);
    if (file < 0) {
        return failed(STORED);
    }
    while (len < sizeof frame && count > 0) {
        count = read(file, frame + len, sizeof frame - len);
        len += count > 0 ? (size_t)count : 0;
    }
    close(file);
    if (count < 0) {
        return failed(STORED);
    }
    uint32_t line;
    uint32_t outcome = zarosnik_key_restart(key, frame, len, &line);
    return outcome == ZAROSNIK_GRANTED ? outcome : tell("read key", outcome);
}

/* Reserve, store, sign, hand out: in this order, and each only where the one before it has ended well. A leaf that was
 * reserved for an order which is then refused is lost with the end of the program. */
static uint32_t sign_order(struct zarosnik_key *key, const uint8_t *text, size_t text_len)
{
    uint32_t outcome = zarosnik_key_reserve(key);
    if (outcome != ZAROSNIK_GRANTED) {
        return tell("reserve", outcome);
    }
    outcome = store(key);
    if (outcome != ZAROSNIK_GRANTED) {
        return outcome;
    }
    struct zarosnik_randomizer r;
    if (getentropy(r.bytes, sizeof r.bytes) != 0) {
        return failed("R");
    }
    uint8_t signature[ZAROSNIK_SIGNATURE_BYTES_MAX];
    outcome = zarosnik_key_sign(key, r, text, text_len, table, ZAROSNIK_TABLE_WORDS_MAX, signature, sizeof signature);
    if (outcome != ZAROSNIK_GRANTED) {
        return tell("sign", outcome);
    }
    uint8_t sheet[ZAROSNIK_SHEET_BYTES_MAX];
    size_t sheet_len;
    outcome = zarosnik_profile_write_sheet(key->profile, signature,
                                           ZAROSNIK_SIGNATURE_BYTES(key->profile.l, key->profile.h), text, text_len,
                                           sheet, sizeof sheet, &sheet_len);
    if (outcome != ZAROSNIK_GRANTED) {
        return tell("write sheet", outcome);
    }
    if (!write_all(STDOUT_FILENO, sheet, sheet_len)) {
        return failed("standard output");
    }
    fprintf(stderr, "signed with leaf %" PRIu32 "\n", key->next_leaf - 1);
    return ZAROSNIK_GRANTED;
}

static uint32_t sign_orders(void)
{
    struct zarosnik_key key;
    uint32_t outcome = restart(&key);
    char *line = NULL;
    size_t size = 0;
    ssize_t len = 0;
    while (outcome == ZAROSNIK_GRANTED && (len = getline(&line, &size, stdin)) > 0) {
        size_t text_len = (size_t)len - (line[len - 1] == '\n');
        outcome = sign_order(&key, (const uint8_t *)line, text_len);
    }
    free(line);
    return outcome == ZAROSNIK_GRANTED && ferror(stdin) ? failed("standard input") : outcome;
}

static void print_bytes(const char *name, const uint8_t bytes[ZAROSNIK_HASH_BYTES])
{
    printf("%s: ", name);
    for (size_t i = 0; i < ZAROSNIK_HASH_BYTES; i++) {
        printf("%02X", (unsigned)bytes[i]);
    }
    printf("\n");
}

static uint32_t make_key(void)
{
    /* A key is never made over another. */
    if (faccessat(folder, STORED, F_OK, 0) == 0) {
        errno = EEXIST;
    }
    if (errno != ENOENT) {
        return failed(STORED);
    }
    struct zarosnik_public_seed public_seed;
    struct zarosnik_secret_seed secret_seed;
    if (getentropy(public_seed.bytes, sizeof public_seed.bytes) != 0
        || getentropy(secret_seed.bytes, sizeof secret_seed.bytes) != 0) {
        return failed("seeds");
    }
    struct zarosnik_key key = zarosnik_fresh_key(zarosnik_gate_profile_2, public_seed, secret_seed);
    struct zarosnik_tree_root root;
    uint32_t outcome = zarosnik_key_root(&key, &root);
    if (outcome != ZAROSNIK_GRANTED) {
        return tell("root", outcome);
    }
    outcome = store(&key);
    if (outcome != ZAROSNIK_GRANTED) {
        return outcome;
    }
    fprintf(stderr, "made a key\n");
    print_bytes("public seed", public_seed.bytes);
    print_bytes("root", root.bytes);
    return fflush(stdout) == 0 ? outcome : failed("standard output");
}

int main(int argc, char **argv)
{
    int make = argc == 3 && strcmp(argv[1], "make") == 0;
    if (!make && (argc != 3 || strcmp(argv[1], "sign") != 0)) {
        fprintf(stderr, "usage: store make|sign FOLDER\n");
        return FAILED;
    }
    folder = open(argv[2], O_RDONLY | O_DIRECTORY);
    if (folder < 0) {
        return (int)failed(argv[2]);
    }
    /* One program alone signs with a key. The lock ends with the program, however that ends. */
    if (flock(folder, LOCK_EX | LOCK_NB) != 0) {
        return (int)failed(argv[2]);
    }
    return (int)(make ? make_key() : sign_orders());
}
