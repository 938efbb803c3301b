/* Times the library against the baseline at the gate profile, and verify at the profile where it takes longest with
 * numbers of 128 bits, in edition 1, after checking that both give the same bytes, there, where an order's number has
 * fewer bits, and in edition 2; with --check, only checks; with --growth, times the library alone as one number of the
 * profile varies.
 *
 *   bench [--check] [--growth] [--lines FILE] [--repeats N]
 *
 * Prints Markdown tables. FILE gets the same times in seconds: "gate, operation, time, against, time" or
 * "growth, parameter, value, operation, time", with tabs between. Fails where answers differ or a limit is missed. */
#define _POSIX_C_SOURCE 200809L

#include "baseline.h"
#include "zarosnik.h"

#ifdef HAVE_OPENSSL
#include <openssl/crypto.h>
#include <openssl/sha.h>
#endif
#include <stdio.h>
#include <stdlib.h>
#include <string.h>
#include <time.h>

enum { BLOCKS = 1024, MAX_REPEATS = 100, SHORT = 30, GATE_MESSAGE = 60 };

static struct {
    struct profile p;
    uint8_t public_seed[16], secret_seed[16], r[16], root[16], message[ZAROSNIK_MESSAGE_MAX];
    uint8_t signature[ZAROSNIK_SIGNATURE_BYTES_MAX];
    uint8_t data[64 * (BLOCKS - 1)]; /* the padding is the last block */
    uint32_t number[5], leaf;
    size_t message_len;
} in;

static struct output {
    uint32_t refused, steps, number[5], table[ZAROSNIK_TABLE_WORDS_MAX];
    uint8_t digest[32], root[16], signature[ZAROSNIK_SIGNATURE_BYTES_MAX];
} ours, plain;

static const struct baseline *const baselines[] = {
    &gcc_baseline,
#ifdef HAVE_CLANG
    &clang_baseline,
#endif
};
enum { BASELINES = sizeof baselines / sizeof *baselines };

static const struct baseline *plain_c; /* the one that is compared with */
static FILE *lines;
static int repeats, missed;

#define SHAPE in.p.l, in.p.w, in.p.s
#define PROFILE SHAPE, in.p.h, in.p.edition
#define TABLE ours.table, ZAROSNIK_TABLE_WORDS_MAX

static void our_hash(void) { ours.refused = zarosnik_hash(in.data, sizeof in.data, ours.digest); }

static void our_count(void) { ours.refused = zarosnik_count(SHAPE, TABLE, ours.number); }

static void our_root(void) { ours.refused = zarosnik_root(PROFILE, in.public_seed, in.secret_seed, ours.root); }

static void our_recover(void)
{
    uint8_t key[16];
    ours.refused = zarosnik_one_time_recover(PROFILE, in.public_seed, in.leaf, in.number, in.signature,
                                             ZAROSNIK_VALUES_BYTES(in.p.l), TABLE, key, &ours.steps);
}

static void our_sign(void)
{
    uint32_t mark = 1; /* the leaf is reserved each time */
    ours.refused = zarosnik_sign(PROFILE, in.public_seed, in.secret_seed, in.leaf + 1, &mark, in.r, in.message,
                                 in.message_len, TABLE, ours.signature, sizeof ours.signature);
}

static void our_verify(void)
{
    uint32_t highest = 0, marks = 0; /* a fresh cabinet each time */
    ours.refused = zarosnik_verify(PROFILE, in.public_seed, in.root, &highest, &marks, in.message, in.message_len,
                                   in.signature, ZAROSNIK_SIGNATURE_BYTES(in.p.l, in.p.h), TABLE, &ours.steps);
}

static void plain_hash(void) { plain_c->hash(in.data, sizeof in.data, plain.digest); }

static void plain_count(void) { plain_c->count(in.p, plain.table, plain.number); }

static void plain_root(void) { plain_c->root(in.p, in.public_seed, in.secret_seed, plain.root); }

static void plain_sign(void)
{
    plain.refused = !plain_c->sign(in.p, in.public_seed, in.secret_seed, in.leaf, in.r, in.message, in.message_len,
                                   plain.table, plain.signature);
}

static void plain_verify(void)
{
    plain.refused = !plain_c->verify(in.p, in.public_seed, in.root, in.message, in.message_len, in.signature,
                                     plain.table, &plain.steps);
}

static void fail(const char *operation, const char *what)
{
    fprintf(stderr, "bench: %s: %s\n", operation, what);
    exit(1);
}

/* Makes the order that is checked; 0 where the profile's count is below 256. */
static int make_order(struct profile p)
{
    in.p = p;
    in.leaf = (UINT32_C(1) << p.h) / 3;
    our_root();
    memcpy(in.root, ours.root, sizeof in.root);
    our_sign();
    memcpy(in.signature, ours.signature, sizeof in.signature);
    return ours.refused == ZAROSNIK_GRANTED;
}

/* The time of one call: the processor's, so that what else runs counts little. No call waits for anything. */
static double seconds(void (*run)(void), unsigned calls)
{
    struct timespec from, to;
    clock_gettime(CLOCK_PROCESS_CPUTIME_ID, &from);
    for (unsigned i = 0; i < calls; i++)
        run();
    clock_gettime(CLOCK_PROCESS_CPUTIME_ID, &to);
    return ((double)(to.tv_sec - from.tv_sec) + 1e-9 * (double)(to.tv_nsec - from.tv_nsec)) / calls;
}

static int by_size(const void *a, const void *b)
{
    double x = *(const double *)a, y = *(const double *)b;
    return (x > y) - (x < y);
}

static double times[2][MAX_REPEATS * SHORT], ratios[MAX_REPEATS * SHORT];

/* Fills `times`, one row each, and answers with the turns. They run in turn, every other turn in the other order, so
 * that a change of the machine's pace meets all of them. A turn has as many calls as fill a tenth of a millisecond,
 * which few interruptions meet; where a call takes less than 10 ms, there are SHORT times as many turns. */
static size_t measure(void (*const *runs)(void), int n)
{
    unsigned calls = 1;
    double call;
    while ((call = seconds(runs[0], calls)) * calls < 1e-4)
        calls *= 2;
    int turns = call < 1e-2 ? repeats * SHORT : repeats;
    for (int k = 0; k < turns; k++)
        for (int i = 0; i < n; i++) {
            int at = k % 2 ? n - 1 - i : i;
            times[at][k] = seconds(runs[at], calls);
        }
    return (size_t)turns;
}

static double quantile(double *values, size_t n, double part)
{
    qsort(values, n, sizeof *values, by_size);
    return values[(size_t)(part * (double)n)];
}

static void print_time(double t)
{
    if (t < 1e-6)
        printf(" %.1f ns |", 1e9 * t);
    else if (t < 1e-3)
        printf(" %.1f µs |", 1e6 * t);
    else
        printf(" %.2f ms |", 1e3 * t);
}

#ifdef HAVE_OPENSSL
static void openssl_hash(void) { SHA256(in.data, sizeof in.data, plain.digest); }
#endif

static const struct comparison {
    const char *operation, *against; /* null for plain C */
    void (*runs[2])(void);
    double limit; /* 0 for none */
} comparisons[] = {
    {"compression", NULL, {our_hash, plain_hash}, 1.2},
    {"count", NULL, {our_count, plain_count}, 0},
    {"root", NULL, {our_root, plain_root}, 1.2},
    {"sign", NULL, {our_sign, plain_sign}, 1.2},
    {"verify", NULL, {our_verify, plain_verify}, 1.3},
    {"count", "zarosnik's verify", {our_count, our_verify}, 0.5},
#ifdef HAVE_OPENSSL
    {"compression", "OpenSSL", {our_hash, openssl_hash}, 0},
#endif
};
enum { COMPARISONS = sizeof comparisons / sizeof *comparisons };
static const struct comparison dearest_verify = {"verify, dearest", NULL, {our_verify, plain_verify}, 0};

/* To be checked alone: numbers of 69 bits, and the other edition. */
static const struct profile few_bits = {ZAROSNIK_GATE_L, ZAROSNIK_GATE_W, 40, 2, ZAROSNIK_EDITION_1};
static const struct profile second = {ZAROSNIK_GATE_L, ZAROSNIK_GATE_W, ZAROSNIK_GATE_S, 2, ZAROSNIK_EDITION_2};

/* The profile whose checks take longest among those whose orders have numbers of 128 bits; the others are for trials. At
 * the largest l, w and h it has the least s with a count of 2^128. One more of s would save a chain step and cost l + 1
 * cells of the table, which take less. */
static struct profile dearest(void)
{
    in.p = (struct profile){ZAROSNIK_L_MAX, ZAROSNIK_W_MAX, 0, ZAROSNIK_H_MAX, ZAROSNIK_EDITION_1};
    for (our_count(); ours.number[4] == 0; our_count())
        in.p.s++;
    return in.p;
}

static void take_order(struct profile p, size_t message_len)
{
    in.message_len = message_len;
    if (!make_order(p))
        fail("sign", "refused");
}

/* Whether the library and every baseline give the same bytes. */
static void check_at(struct profile p, size_t message_len)
{
    take_order(p, message_len);
    for (int b = 0; b < BASELINES; b++) {
        plain_c = baselines[b];
        memset(&ours, 0, sizeof ours);
        memset(&plain, 0, sizeof plain);
        for (int i = 0; i < COMPARISONS; i++) {
            comparisons[i].runs[0]();
            comparisons[i].runs[1]();
            if (ours.refused || memcmp(&ours, &plain, sizeof ours))
                fail(comparisons[i].operation, "answers differ");
        }
    }
}

static void check_all(struct profile gate, struct profile other)
{
    check_at(gate, GATE_MESSAGE);
    check_at(other, ZAROSNIK_MESSAGE_MAX);
    check_at(few_bits, GATE_MESSAGE);
    check_at(second, GATE_MESSAGE);
}

static void check(struct profile gate)
{
    const struct profile other = dearest(), others[] = {other, few_bits, second};
    check_all(gate, other);
    printf("bench: the same bytes as plain C of");
    for (int b = 0; b < BASELINES; b++)
        printf("%s %s", b ? " and" : "", baselines[b]->name);
    printf(", at the gate profile in edition %u", gate.edition);
    for (int i = 0; i < 3; i++)
        printf(" and at l = %u, w = %u, s = %u, h = %u, edition %u", others[i].l, others[i].w, others[i].s,
               others[i].h, others[i].edition);
    printf("\n");
}

/* A row of the table: medians of the times, and of the ratios of each turn, with their quartiles. */
static void compare_row(const struct comparison *k, const char *against, const char *compiler)
{
    size_t turns = measure(k->runs, 2);
    double parts = k->runs[0] == our_hash ? BLOCKS : 1;
    for (size_t i = 0; i < turns; i++)
        ratios[i] = times[0][i] / times[1][i];
    double t = quantile(times[0], turns, 0.5) / parts, u = quantile(times[1], turns, 0.5) / parts;
    double ratio = quantile(ratios, turns, 0.5);
    printf("| %s |", k->operation);
    print_time(t);
    printf(" %s%s |", against, compiler);
    print_time(u);
    printf(" %.2f | %.2f to %.2f |", ratio, quantile(ratios, turns, 0.25), quantile(ratios, turns, 0.75));
    if (k->limit > 0)
        printf(" %.1f | %s |\n", k->limit, ratio <= k->limit ? "met" : "missed");
    else
        printf(" – | – |\n");
    missed |= k->limit > 0 && ratio > k->limit;
    fflush(stdout);
    if (lines)
        fprintf(lines, "gate\t%s\t%.9e\t%s%s\t%.9e\n", k->operation, t, against, compiler, u);
}

static void compare_rows(const struct comparison *k)
{
    if (k->against)
        compare_row(k, k->against, "");
    else
        for (int b = 0; b < BASELINES; b++) {
            plain_c = baselines[b];
            compare_row(k, "plain C, ", plain_c->name);
        }
}

static void compare(struct profile gate)
{
    struct profile other = dearest();
    check_all(gate, other);
    printf("| Operation | zarosnik | against | | ratio | quartiles | limit | |\n|---|--:|---|--:|--:|--:|--:|---|\n");
    take_order(gate, GATE_MESSAGE);
    for (int i = 0; i < COMPARISONS; i++)
        compare_rows(&comparisons[i]);
    take_order(other, ZAROSNIK_MESSAGE_MAX);
    compare_rows(&dearest_verify);
    printf("\nMedians of %d turns, for root and sign of %d, and of the ratios of each turn, with their quartiles.\n",
           repeats * SHORT, repeats);
    printf("Compression: one block of %d in a call. Verify, dearest: l = %u, w = %u, s = %u, h = %u, so %u steps, and\n"
           "a text of %u bytes; else the gate profile, and a text of %d bytes.\n",
           BLOCKS, other.l, other.w, other.s, other.h, ZAROSNIK_STEPS(other.l, other.w, other.s), ZAROSNIK_MESSAGE_MAX,
           GATE_MESSAGE);
#ifdef HAVE_OPENSSL
    printf("%s uses the processor's SHA instructions where it has them; the library and plain C use none.\n",
           OpenSSL_version(OPENSSL_VERSION));
#endif
}

/* A row of a growth table: least times, steadier than medians where nothing is compared. Recover is a check without
 * digest and path, here of the middle number; it stands for verify where the count is below 256. */
static void grow(struct profile p, char parameter, unsigned value)
{
    static const char *const names[] = {"count", "recover", "verify", "root", "sign"};
    static void (*const runs[])(void) = {our_count, our_recover, our_verify, our_root, our_sign};
    int granted = make_order(p);
    our_count();
    for (int k = 0; k < 5; k++)
        in.number[k] = ours.number[k] >> 1 | (k < 4 ? ours.number[k + 1] << 31 : 0);
    printf("| %u |", value);
    for (int i = 0; i < 5; i++) {
        double t;
        if (!granted && (runs[i] == our_verify || runs[i] == our_sign)) {
            printf(" – |");
            continue;
        }
        t = quantile(times[0], measure(&runs[i], 1), 0);
        if (ours.refused)
            fail(names[i], "refused");
        print_time(t);
        if (lines)
            fprintf(lines, "growth\t%c\t%u\t%s\t%.9e\n", parameter, value, names[i], t);
    }
    printf("\n");
    fflush(stdout);
}

/* Around the gate profile, one number at a time, as far as its limits and those of s allow. */
static void growth(struct profile gate)
{
    struct profile p = gate;
    in.message_len = GATE_MESSAGE;
    const struct {
        char name;
        uint32_t *field, low, high, step;
    } sweeps[] = {{'l', &p.l, 18, 40, 2}, {'w', &p.w, 9, 16, 1}, {'s', &p.s, 0, 510, 51}, {'h', &p.h, 0, 10, 1}};
    for (int i = 0; i < 4; i++) {
        printf("| %c | count | recover | verify | root | sign |\n|--:|--:|--:|--:|--:|--:|\n", sweeps[i].name);
        for (uint32_t x = sweeps[i].low; x <= sweeps[i].high; x += sweeps[i].step) {
            *sweeps[i].field = x;
            grow(p, sweeps[i].name, x);
        }
        printf("\n");
        p = gate;
    }
}

static void set_bytes(uint8_t *bytes, size_t len, unsigned start)
{
    for (size_t i = 0; i < len; i++)
        bytes[i] = (uint8_t)(start + 167 * i + i / 256);
}

int main(int argc, char **argv)
{
    const struct profile gate = {ZAROSNIK_GATE_L, ZAROSNIK_GATE_W, ZAROSNIK_GATE_S, ZAROSNIK_GATE_H,
                                 ZAROSNIK_EDITION_1};
    void (*job)(struct profile) = compare;
    for (int i = 1; i < argc; i++) {
        if (strcmp(argv[i], "--growth") == 0)
            job = growth;
        else if (strcmp(argv[i], "--check") == 0)
            job = check;
        else if (strcmp(argv[i], "--lines") == 0 && i + 1 < argc && (lines = fopen(argv[++i], "w")))
            continue;
        else if (strcmp(argv[i], "--repeats") == 0 && i + 1 < argc && (repeats = atoi(argv[++i])) > 0 &&
                 repeats <= MAX_REPEATS)
            continue;
        else
            fail(argv[i], "no such option, no such file, or not from 1 to 100");
    }
    if (repeats == 0)
        repeats = job == growth ? 5 : 31;
    set_bytes(in.public_seed, sizeof in.public_seed, 1);
    set_bytes(in.secret_seed, sizeof in.secret_seed, 2);
    set_bytes(in.r, sizeof in.r, 3);
    set_bytes(in.message, sizeof in.message, 4);
    set_bytes(in.data, sizeof in.data, 5);
    job(gate);
    if (lines && fclose(lines))
        fail("--lines", "not written");
    if (missed)
        fail("limits", "missed");
    return 0;
}
