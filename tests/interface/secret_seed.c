/*
 * Runs each operation that is lent the secret seed, as it is or in a stored key, with the seed marked as undefined, for
 * valgrind's memcheck, which reports each branch, each address and each system call that depends on undefined bytes.
 * tests/interface/secret_seed.py builds this program over the archive, runs one case after another and judges the reports.
 *
 * What a call answers and leaves must be defined, except the bytes that are computed from the secret: these must all
 * be undefined, so that the marks have passed through the hashing. That the answers are right is compare.py's.
 */
#include <fcntl.h>
#include <stdio.h>
#include <stdlib.h>
#include <string.h>
#include <unistd.h>
#include <valgrind/memcheck.h>

#include "zarosnik.h"

/* The gate profile with a lower tree. */
#define HEIGHT 2u
#define LEAF 1u
#define PROFILE ZAROSNIK_GATE_L, ZAROSNIK_GATE_W, ZAROSNIK_GATE_S, HEIGHT, ZAROSNIK_EDITION_1
/* With this sum in the gate's place an order's number has 69 bits, and is shifted. */
#define FEW_BITS_SUM 40u

static uint8_t public_seed[ZAROSNIK_HASH_BYTES], secret_seed[ZAROSNIK_HASH_BYTES], r[ZAROSNIK_HASH_BYTES];
static const uint32_t number[ZAROSNIK_NUMBER_WORDS] = {0x89ABCDEF, 0x01234567, 0x76543210, 0xFEDCBA98, 0};
static const char order[] = "sill level 2.4 m until 18:00";
static uint32_t table[ZAROSNIK_GATE_TABLE_WORDS];

static _Noreturn void fail(const char *what)
{
    fprintf(stderr, "%s\n", what);
    exit(EXIT_FAILURE);
}

/* Memcheck reports the comparison where the outcome depends on the secret. */
static void granted(uint32_t outcome)
{
    if (outcome != ZAROSNIK_GRANTED)
        fail("refused");
}

/* Memcheck reports a byte that depends on the secret. */
static void expect_public(const void *bytes, size_t size)
{
    (void)VALGRIND_CHECK_MEM_IS_DEFINED(bytes, size);
}

/* Marks as defined what a call has computed from the secret. Each of its bytes must be undefined until then. */
static void disclose(uint8_t *bytes, size_t size)
{
    for (size_t i = 0; i < size; i++) {
        uint8_t marks = 0;
        if (VALGRIND_GET_VBITS(&bytes[i], &marks, 1) != 1 || marks == 0)
            fail("a byte of the answer does not depend on the secret");
    }
    VALGRIND_MAKE_MEM_DEFINED(bytes, size);
}

static void leaf_key(void)
{
    uint8_t key[ZAROSNIK_HASH_BYTES];
    granted(zarosnik_leaf_key(PROFILE, public_seed, secret_seed, LEAF, key));
    disclose(key, sizeof key);
}

static void root(void)
{
    uint8_t made[ZAROSNIK_HASH_BYTES];
    granted(zarosnik_root(PROFILE, public_seed, secret_seed, made));
    disclose(made, sizeof made);
}

static void one_time_sign(void)
{
    uint8_t values[ZAROSNIK_GATE_VALUES_BYTES];
    granted(zarosnik_one_time_sign(PROFILE, public_seed, secret_seed, LEAF, number, table, ZAROSNIK_GATE_TABLE_WORDS,
                                   values, sizeof values));
    expect_public(table, sizeof table);
    disclose(values, sizeof values);
}

/*
 * Sign takes the digest over the root, which is computed from the secret but published, and the number in the digest
 * decides how far each chain is walked. So the digest is marked as defined as soon as it is made, and nothing else.
 * This is done where the archive's function sha256::running::Hash::finish returns: valgrind calls the wrapper in its
 * place (in the wrapper's name, Zc is a colon). Sign ends by this function the hash of each leaf key and of each node,
 * and then the digest, in call number 2^(h + 1).
 */
#define DIGEST_CALL (1u << (HEIGHT + 1u))

static unsigned finish_calls, disclosed_call = DIGEST_CALL;

void *I_WRAP_SONAME_FNNAME_ZZ(NONE, sha256ZcZcrunningZcZcHashZcZcfinish)(void *finished, const void *running);
void *I_WRAP_SONAME_FNNAME_ZZ(NONE, sha256ZcZcrunningZcZcHashZcZcfinish)(void *finished, const void *running)
{
    OrigFn original;
    void *answer;
    VALGRIND_GET_ORIG_FN(original);
    CALL_FN_W_WW(answer, original, finished, running);
    finish_calls++;
    if (finish_calls == disclosed_call)
        disclose(finished, ZAROSNIK_DIGEST_BYTES);
    return answer;
}

static void sign_at(uint32_t sum, uint32_t edition)
{
    uint8_t signature[ZAROSNIK_SIGNATURE_BYTES(ZAROSNIK_GATE_L, HEIGHT)];
    uint32_t mark = 1;
    finish_calls = 0;
    granted(zarosnik_sign(ZAROSNIK_GATE_L, ZAROSNIK_GATE_W, sum, HEIGHT, edition, public_seed, secret_seed, LEAF + 1,
                          &mark, r, (const uint8_t *)order, strlen(order), table, ZAROSNIK_GATE_TABLE_WORDS, signature,
                          sizeof signature));
    if (finish_calls != DIGEST_CALL)
        fail("the digest was not met: Hash::finish is no function of its own in this archive, or called otherwise");
    expect_public(table, sizeof table);
    expect_public(signature, 20);
    disclose(signature + 20, sizeof signature - 20);
    expect_public(&mark, sizeof mark);
}

static void sign(void)
{
    sign_at(ZAROSNIK_GATE_S, ZAROSNIK_EDITION_1);
    sign_at(ZAROSNIK_GATE_S, ZAROSNIK_EDITION_2);
    sign_at(FEW_BITS_SUM, ZAROSNIK_EDITION_1);
}

static void sign_undisclosed(void)
{
    disclosed_call = 0;
    sign_at(ZAROSNIK_GATE_S, ZAROSNIK_EDITION_1);
}

/* A stored key has the secret seed in 32 of its characters, behind the kind, the profile and the public seed. */
#define FRAME_BYTES ZAROSNIK_KEY_BYTES(ZAROSNIK_EDITION_1)
#define SECRET_AT (2u * (6u + ZAROSNIK_HASH_BYTES))
#define SECRET_DIGITS (2u * ZAROSNIK_HASH_BYTES)

static uint8_t frame[FRAME_BYTES];

static void write_key(void)
{
    size_t frame_len;
    granted(zarosnik_write_key(PROFILE, public_seed, secret_seed, LEAF + 1, 1, frame, FRAME_BYTES, &frame_len));
    if (frame_len != FRAME_BYTES)
        fail("a stored key of another length");
    uint8_t digits[SECRET_DIGITS];
    memcpy(digits, frame + SECRET_AT, SECRET_DIGITS);
    expect_public(frame, SECRET_AT);
    expect_public(frame + SECRET_AT + SECRET_DIGITS, FRAME_BYTES - SECRET_AT - SECRET_DIGITS);
    disclose(digits, SECRET_DIGITS);
}

static void read_key(void)
{
    uint32_t profile[ZAROSNIK_PROFILE_NUMBERS], words[3];
    uint8_t seed[ZAROSNIK_HASH_BYTES], secret[ZAROSNIK_HASH_BYTES];
    write_key();
    granted(zarosnik_read_key(frame, FRAME_BYTES, profile, seed, secret, &words[0], &words[1], &words[2]));
    expect_public(profile, sizeof profile);
    expect_public(seed, sizeof seed);
    expect_public(words, sizeof words);
    disclose(secret, sizeof secret);
}

/* Controls: what memcheck must report. */
static volatile unsigned odd, even;
static volatile uint8_t looked_up[256];

static void branch(void)
{
    if (secret_seed[0] & 1u)
        odd++;
    else
        even++;
}

static void address(void)
{
    looked_up[secret_seed[0]]++;
}

static void system_call(void)
{
    int sink = open("/dev/null", O_WRONLY);
    if (sink < 0 || write(sink, secret_seed, sizeof secret_seed) != (ssize_t)sizeof secret_seed)
        fail("/dev/null");
}

#define CASE(name) {#name, name}
static const struct {
    const char *name;
    void (*run)(void);
} cases[] = {CASE(leaf_key),  CASE(root),     CASE(one_time_sign), CASE(sign),    CASE(sign_undisclosed),
             CASE(write_key), CASE(read_key), CASE(branch),        CASE(address), CASE(system_call)};

int main(int argc, char **argv)
{
    if (!RUNNING_ON_VALGRIND)
        fail("this program is run under valgrind, by tests/interface/secret_seed.py");
    for (unsigned i = 0; i < ZAROSNIK_HASH_BYTES; i++) {
        public_seed[i] = (uint8_t)(0x10 + i);
        secret_seed[i] = (uint8_t)(0xE0 + i);
        r[i] = (uint8_t)(0x71 + i);
    }
    VALGRIND_MAKE_MEM_UNDEFINED(secret_seed, sizeof secret_seed);
    for (size_t i = 0; argc == 2 && i < sizeof cases / sizeof cases[0]; i++) {
        if (strcmp(argv[1], cases[i].name) == 0) {
            cases[i].run();
            return EXIT_SUCCESS;
        }
    }
    fail("no such case");
}
