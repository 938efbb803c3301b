/* A plain C11 baseline, written for speed without intrinsics or assembly. The one extension is a 128-bit integer.
 * Each compiler that is compared with makes its own of it; -DCOMPILER gives the compiler's name. */
#include "baseline.h"

#include <string.h>

/* SHA-256 (FIPS 180-4). */

static const uint32_t K[64] = {
    0x428a2f98, 0x71374491, 0xb5c0fbcf, 0xe9b5dba5, 0x3956c25b, 0x59f111f1, 0x923f82a4, 0xab1c5ed5,
    0xd807aa98, 0x12835b01, 0x243185be, 0x550c7dc3, 0x72be5d74, 0x80deb1fe, 0x9bdc06a7, 0xc19bf174,
    0xe49b69c1, 0xefbe4786, 0x0fc19dc6, 0x240ca1cc, 0x2de92c6f, 0x4a7484aa, 0x5cb0a9dc, 0x76f988da,
    0x983e5152, 0xa831c66d, 0xb00327c8, 0xbf597fc7, 0xc6e00bf3, 0xd5a79147, 0x06ca6351, 0x14292967,
    0x27b70a85, 0x2e1b2138, 0x4d2c6dfc, 0x53380d13, 0x650a7354, 0x766a0abb, 0x81c2c92e, 0x92722c85,
    0xa2bfe8a1, 0xa81a664b, 0xc24b8b70, 0xc76c51a3, 0xd192e819, 0xd6990624, 0xf40e3585, 0x106aa070,
    0x19a4c116, 0x1e376c08, 0x2748774c, 0x34b0bcb5, 0x391c0cb3, 0x4ed8aa4a, 0x5b9cca4f, 0x682e6ff3,
    0x748f82ee, 0x78a5636f, 0x84c87814, 0x8cc70208, 0x90befffa, 0xa4506ceb, 0xbef9a3f7, 0xc67178f2};

static const uint32_t INITIAL[8] = {0x6a09e667, 0xbb67ae85, 0x3c6ef372, 0xa54ff53a,
                                    0x510e527f, 0x9b05688c, 0x1f83d9ab, 0x5be0cd19};

static uint32_t get32(const uint8_t *p)
{
    return (uint32_t)p[0] << 24 | (uint32_t)p[1] << 16 | (uint32_t)p[2] << 8 | p[3];
}

static void put32(uint8_t *p, uint32_t x)
{
    p[0] = (uint8_t)(x >> 24);
    p[1] = (uint8_t)(x >> 16);
    p[2] = (uint8_t)(x >> 8);
    p[3] = (uint8_t)x;
}

static uint32_t rotr(uint32_t x, unsigned n) { return x >> n | x << (32 - n); }

/* One round. x is b ^ c, left over from the round before; y becomes a ^ b, which is that of the next round. */
#define ROUND(a, b, c, d, e, f, g, h, x, y, kw)                                                                        \
    do {                                                                                                               \
        uint32_t t1 = h + (rotr(e, 6) ^ rotr(e, 11) ^ rotr(e, 25)) + (g ^ (e & (f ^ g))) + (kw);                       \
        y = a ^ b;                                                                                                     \
        d += t1;                                                                                                       \
        h = t1 + (rotr(a, 2) ^ rotr(a, 13) ^ rotr(a, 22)) + (b ^ (x & y));                                             \
    } while (0)

#define EIGHT_ROUNDS(k, i, WORD)                                                                                       \
    ROUND(a, b, c, d, e, f, g, h, x, y, K[(k) + (i)] + WORD(i));                                                       \
    ROUND(h, a, b, c, d, e, f, g, y, x, K[(k) + (i) + 1] + WORD((i) + 1));                                             \
    ROUND(g, h, a, b, c, d, e, f, x, y, K[(k) + (i) + 2] + WORD((i) + 2));                                             \
    ROUND(f, g, h, a, b, c, d, e, y, x, K[(k) + (i) + 3] + WORD((i) + 3));                                             \
    ROUND(e, f, g, h, a, b, c, d, x, y, K[(k) + (i) + 4] + WORD((i) + 4));                                             \
    ROUND(d, e, f, g, h, a, b, c, y, x, K[(k) + (i) + 5] + WORD((i) + 5));                                             \
    ROUND(c, d, e, f, g, h, a, b, x, y, K[(k) + (i) + 6] + WORD((i) + 6));                                             \
    ROUND(b, c, d, e, f, g, h, a, y, x, K[(k) + (i) + 7] + WORD((i) + 7))

#define GIVEN(i) (w[i] = get32(block + 4 * (i)))
#define SMALL0(x) (rotr(x, 7) ^ rotr(x, 18) ^ (x) >> 3)
#define SMALL1(x) (rotr(x, 17) ^ rotr(x, 19) ^ (x) >> 10)
#define NEXT(i) (w[i] += SMALL1(w[((i) + 14) & 15]) + w[((i) + 9) & 15] + SMALL0(w[((i) + 1) & 15]))

/* The shape that was fastest with gcc -O3 on x86-64: sixteen rounds a turn, the schedule kept in sixteen words and made
 * in step. All sixty-four rounds unrolled took 2 % longer, a schedule of sixty-four words made first 13 %, and that
 * with one round a turn 22 %. */
static void compress(uint32_t v[8], const uint8_t block[64])
{
    uint32_t w[16];
    uint32_t a = v[0], b = v[1], c = v[2], d = v[3], e = v[4], f = v[5], g = v[6], h = v[7];
    uint32_t x = b ^ c, y;
    EIGHT_ROUNDS(0, 0, GIVEN);
    EIGHT_ROUNDS(0, 8, GIVEN);
    for (int k = 16; k < 64; k += 16) {
        EIGHT_ROUNDS(k, 0, NEXT);
        EIGHT_ROUNDS(k, 8, NEXT);
    }
    v[0] += a;
    v[1] += b;
    v[2] += c;
    v[3] += d;
    v[4] += e;
    v[5] += f;
    v[6] += g;
    v[7] += h;
}

/* The first words of the digest, going on from the hash value after `before` bytes, which are whole blocks. */
static void hash_on(const uint32_t state[8], size_t before, const uint8_t *data, size_t len, uint8_t *digest, int words)
{
    uint32_t v[8];
    uint8_t last[128] = {0};
    uint64_t bits = 8 * (uint64_t)(before + len);
    memcpy(v, state, sizeof v);
    for (; len >= 64; data += 64, len -= 64)
        compress(v, data);
    memcpy(last, data, len);
    last[len] = 0x80;
    size_t end = len < 56 ? 64 : 128;
    put32(last + end - 8, (uint32_t)(bits >> 32));
    put32(last + end - 4, (uint32_t)bits);
    for (size_t at = 0; at < end; at += 64)
        compress(v, last + at);
    for (int i = 0; i < words; i++)
        put32(digest + 4 * i, v[i]);
}

static void baseline_hash(const uint8_t *data, size_t len, uint8_t digest[32])
{
    hash_on(INITIAL, 0, data, len, digest, 8);
}

/* Tweaked hashes: each goes on from the eight words after the block of the public seed and 48 zero bytes. */

enum { STEP = 0, LEAF_KEY = 1, NODE = 2, START = 5, ADDRESS = 22, VALUE = 16 };

static void seed_state(const uint8_t seed[16], uint32_t state[8])
{
    uint8_t block[64] = {0};
    memcpy(block, seed, 16);
    memcpy(state, INITIAL, sizeof INITIAL);
    compress(state, block);
}

static void put_address(uint8_t address[ADDRESS], uint8_t type, uint32_t first, uint32_t second, uint32_t third)
{
    memset(address, 0, 9);
    address[9] = type;
    put32(address + 10, first);
    put32(address + 14, second);
    put32(address + 18, third);
}

/* The one block of a tweaked hash of `len` bytes, at most 33, with its padding. The data goes behind the address. */
static void open_block(uint8_t block[64], uint8_t type, uint32_t first, uint32_t second, uint32_t third, uint32_t len)
{
    memset(block, 0, 64);
    put_address(block, type, first, second, third);
    block[ADDRESS + len] = 0x80;
    put32(block + 60, 8 * (64 + ADDRESS + len));
}

static void hash_block(const uint32_t state[8], const uint8_t block[64], uint8_t *value)
{
    uint32_t v[8];
    memcpy(v, state, sizeof v);
    compress(v, block);
    for (int i = 0; i < 4; i++)
        put32(value + 4 * i, v[i]);
}

/* Steps a chain's value on, in one block that is kept from step to step. Answers with the steps made. */
static uint32_t walk(const uint32_t state[8], uint32_t leaf, uint32_t chain, uint32_t low, uint32_t high,
                     uint8_t *value)
{
    uint8_t block[64];
    uint32_t k = low;
    open_block(block, STEP, leaf, chain, 0, VALUE);
    memcpy(block + ADDRESS, value, VALUE);
    for (; k < high; k++) {
        put32(block + 18, k);
        hash_block(state, block, block + ADDRESS);
    }
    memcpy(value, block + ADDRESS, VALUE);
    return k - low;
}

static void chain_value(const uint32_t state[8], const uint8_t secret[16], uint32_t leaf, uint32_t chain,
                        uint32_t height, uint8_t *value)
{
    uint8_t block[64];
    open_block(block, START, leaf, chain, 0, VALUE);
    memcpy(block + ADDRESS, secret, VALUE);
    hash_block(state, block, value);
    walk(state, leaf, chain, 0, height, value);
}

/* The leaf key of the tops, which stand behind the room for the address. */
static void key_of_tops(struct profile p, const uint32_t state[8], uint32_t leaf, uint8_t *tops, uint8_t *key)
{
    put_address(tops, LEAF_KEY, leaf, 0, 0);
    hash_on(state, 64, tops, ADDRESS + VALUE * p.l, key, 4);
}

static void leaf_key(struct profile p, const uint32_t state[8], const uint8_t secret[16], uint32_t leaf, uint8_t *key)
{
    uint8_t tops[ADDRESS + 40 * VALUE];
    for (uint32_t c = 0; c < p.l; c++)
        chain_value(state, secret, leaf, c, p.w - 1, tops + ADDRESS + VALUE * c);
    key_of_tops(p, state, leaf, tops, key);
}

static void parent(const uint32_t state[8], uint32_t height, uint32_t index, const uint8_t *left, const uint8_t *right,
                   uint8_t *node)
{
    uint8_t block[64];
    open_block(block, NODE, 0, height, index, 2 * VALUE);
    memcpy(block + ADDRESS, left, VALUE);
    memcpy(block + ADDRESS + VALUE, right, VALUE);
    hash_block(state, block, node);
}

/* The root, and the siblings on the way up from a leaf where `path` isn't null: each leaf is hashed once, and the stack
 * holds at most one left child of each height. */
static void tree(struct profile p, const uint32_t state[8], const uint8_t secret[16], uint8_t *root, uint32_t leaf,
                 uint8_t *path)
{
    uint8_t stack[11][VALUE];
    uint8_t node[VALUE];
    for (uint32_t i = 0; i < UINT32_C(1) << p.h; i++) {
        leaf_key(p, state, secret, i, node);
        uint32_t k = 0;
        for (;; k++) {
            uint32_t index = i >> k;
            if (path && k < p.h && index == (leaf >> k ^ 1))
                memcpy(path + VALUE * k, node, VALUE);
            if (!(index & 1))
                break;
            parent(state, k + 1, index >> 1, stack[k], node, node);
        }
        memcpy(stack[k], node, VALUE);
    }
    memcpy(root, node, VALUE);
}

static void baseline_root(struct profile p, const uint8_t public_seed[16], const uint8_t secret_seed[16],
                          uint8_t root[16])
{
    uint32_t state[8];
    seed_state(public_seed, state);
    tree(p, state, secret_seed, root, 0, NULL);
}

/* Counts. The low four words of a number are one 128-bit integer, more than three times as fast as five words with
 * carries; as words stand least first, copying needs a little-endian machine. */

__extension__ typedef unsigned __int128 u128;
_Static_assert(__BYTE_ORDER__ == __ORDER_LITTLE_ENDIAN__, "numbers are copied as they stand in memory");

static u128 low(const uint32_t *number)
{
    u128 x;
    memcpy(&x, number, sizeof x);
    return x;
}

static void baseline_count(struct profile p, uint32_t *table, uint32_t number[5])
{
    size_t row = 5 * ((size_t)p.s + 1);
    memset(table, 0, row * sizeof *table);
    table[0] = 1;
    for (uint32_t i = 0; i < p.l; i++) {
        const uint32_t *restrict above = table + i * row;
        uint32_t *restrict cell = table + (i + 1) * row;
        u128 sum = 0;
        uint32_t high = 0;
        for (size_t t = 0; t <= p.s; t++) {
            u128 in = low(above + 5 * t);
            sum += in;
            high += above[5 * t + 4] + (sum < in);
            if (t >= p.w) {
                const uint32_t *oldest = above + 5 * (t - p.w);
                u128 out = low(oldest);
                high -= oldest[4] + (sum < out);
                sum -= out;
            }
            memcpy(cell + 5 * t, &sum, sizeof sum);
            cell[5 * t + 4] = high;
        }
    }
    memcpy(number, table + (p.l + 1) * row - 5, 5 * sizeof *number);
}

/* The bits of an order's number: the most, up to 128, with a power of two not above the count. */
static int number_bits(const uint32_t count[5])
{
    int bits = 0;
    if (count[4])
        return 128;
    for (u128 rest = low(count) >> 1; rest; rest >>= 1)
        bits++;
    return bits;
}

/* The codeword of the order's number, by the table, which is filled first: 0 if the count is below 256. */
static int codeword(struct profile p, const uint8_t r[16], const uint8_t seed[16], const uint8_t root[16],
                    uint32_t leaf, const uint8_t *message, size_t message_len, uint32_t *table, uint8_t *lengths)
{
    uint8_t bytes[52 + 200], digest[16];
    uint32_t count[5];
    size_t before = p.edition == 2 ? 52 : 48;
    memcpy(bytes, r, 16);
    memcpy(bytes + 16, seed, 16);
    memcpy(bytes + 32, root, 16);
    put32(bytes + 48, leaf);
    memcpy(bytes + before, message, message_len);
    hash_on(INITIAL, 0, bytes, before + message_len, digest, 4);
    u128 n = 0;
    for (int i = 0; i < 16; i += 4)
        n = n << 32 | get32(digest + i);

    baseline_count(p, table, count);
    int bits = number_bits(count);
    if (bits < 8)
        return 0;
    n >>= 128 - bits;
    size_t sum = p.s;
    for (uint32_t i = p.l; i-- > 0;) {
        const uint32_t *share = table + 5 * (i * ((size_t)p.s + 1) + sum);
        uint8_t length = 0;
        for (; !share[4] && n >= low(share); share -= 5, length++)
            n -= low(share);
        *lengths++ = length;
        sum -= length;
    }
    return 1;
}

static int baseline_sign(struct profile p, const uint8_t public_seed[16], const uint8_t secret_seed[16], uint32_t leaf,
                         const uint8_t r[16], const uint8_t *message, size_t message_len, uint32_t *table,
                         uint8_t *signature)
{
    uint8_t *values = signature + 20;
    uint8_t root[VALUE], lengths[40];
    uint32_t state[8];
    seed_state(public_seed, state);
    tree(p, state, secret_seed, root, leaf, values + VALUE * p.l);
    if (!codeword(p, r, public_seed, root, leaf, message, message_len, table, lengths))
        return 0;
    put32(signature, leaf);
    memcpy(signature + 4, r, 16);
    for (uint32_t c = 0; c < p.l; c++)
        chain_value(state, secret_seed, leaf, c, lengths[c], values + VALUE * c);
    return 1;
}

static int baseline_verify(struct profile p, const uint8_t public_seed[16], const uint8_t root[16],
                           const uint8_t *message, size_t message_len, const uint8_t *signature, uint32_t *table,
                           uint32_t *steps)
{
    const uint8_t *value = signature + 20;
    uint32_t leaf = get32(signature);
    uint8_t lengths[40], tops[ADDRESS + 40 * VALUE], node[VALUE];
    uint32_t state[8];
    *steps = 0;
    if (!codeword(p, signature + 4, public_seed, root, leaf, message, message_len, table, lengths))
        return 0;
    seed_state(public_seed, state);
    memcpy(tops + ADDRESS, value, VALUE * p.l);
    for (uint32_t c = 0; c < p.l; c++)
        *steps += walk(state, leaf, c, lengths[c], p.w - 1, tops + ADDRESS + VALUE * c);
    key_of_tops(p, state, leaf, tops, node);
    value += VALUE * p.l;
    for (uint32_t k = 0; k < p.h; k++, value += VALUE) {
        if (leaf >> k & 1)
            parent(state, k + 1, leaf >> k >> 1, value, node, node);
        else
            parent(state, k + 1, leaf >> k >> 1, node, value, node);
    }
    return memcmp(node, root, VALUE) == 0;
}

#define NAME_OF(compiler) #compiler
#define BASELINE_OF(compiler) compiler##_baseline
#define NAME(compiler) NAME_OF(compiler)
#define BASELINE(compiler) BASELINE_OF(compiler)
const struct baseline BASELINE(COMPILER) = {NAME(COMPILER), baseline_hash, baseline_count,
                                            baseline_root,  baseline_sign, baseline_verify};
