/* The plain C baseline of the benchmark: the work of the library's operations, without their checks. */
#ifndef BASELINE_H
#define BASELINE_H

#include <stddef.h>
#include <stdint.h>

/* A profile within its limits, as the library's parameters of the same names. */
struct profile {
    uint32_t l, w, s, h, edition;
};

/* What one compiler makes of baseline.c. Parameters as in the library's functions; every slice is long enough. */
struct baseline {
    const char *name;
    void (*hash)(const uint8_t *data, size_t len, uint8_t digest[32]);
    void (*count)(struct profile p, uint32_t *table, uint32_t number[5]);
    void (*root)(struct profile p, const uint8_t public_seed[16], const uint8_t secret_seed[16], uint8_t root[16]);
    /* Whether the order is signed: the profile may have too few codewords. */
    int (*sign)(struct profile p, const uint8_t public_seed[16], const uint8_t secret_seed[16], uint32_t leaf,
                const uint8_t r[16], const uint8_t *message, size_t message_len, uint32_t *table, uint8_t *signature);
    /* Whether the signature is accepted. */
    int (*verify)(struct profile p, const uint8_t public_seed[16], const uint8_t root[16], const uint8_t *message,
                  size_t message_len, const uint8_t *signature, uint32_t *table, uint32_t *steps);
};

extern const struct baseline gcc_baseline;
#ifdef HAVE_CLANG
extern const struct baseline clang_baseline;
#endif

#endif
