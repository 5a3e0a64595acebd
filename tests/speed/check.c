/* The check value of TS 101 191, annex A, in C: what the proved code's speed is compared with. */
#include <stddef.h>
#include <stdint.h>

#define GENERATOR 0x04C11DB7u

static uint32_t byte_table[256];      /* a byte at the top of the register, after the 8 bits of zero behind it */
static uint32_t nibble_table[16][16]; /* [k][v]: nibble v with k nibbles behind it in 64 bits, after these and 32 bits of zero */

static uint32_t after_zeros(uint32_t z, int bits) {
    while (bits-- > 0) z = (z << 1) ^ (z >> 31 ? GENERATOR : 0);
    return z;
}

__attribute__((constructor)) static void fill_tables(void) {
    for (uint32_t b = 0; b < 256; b++) byte_table[b] = after_zeros(b << 24, 8);
    for (int k = 0; k < 16; k++)
        for (uint32_t v = 0; v < 16; v++) nibble_table[k][v] = after_zeros(v << 4 * (k % 8), 32 + 32 * (k / 8));
}

static uint32_t big_endian(const uint8_t *s) {
    return (uint32_t)s[0] << 24 | (uint32_t)s[1] << 16 | (uint32_t)s[2] << 8 | s[3];
}

/* The classical table of 256 entries, a byte a turn. */
uint32_t c_byte_table(const uint8_t *s, size_t n) {
    uint32_t z = UINT32_MAX;
    for (size_t i = 0; i < n; i++) z = (z << 8) ^ byte_table[(z >> 24) ^ s[i]];
    return z;
}

/* Adds four bytes, taken through the nibble tables from place k on, to the sum so far. */
static inline uint32_t add(uint32_t sum, uint32_t four, int k) {
    for (int j = 0; j < 8; j++) sum ^= nibble_table[k + j][four >> 4 * j & 15];
    return sum;
}

/* Nibble tables, eight bytes a turn, then one; in each turn first what does not wait for z. */
uint32_t c_nibbles(const uint8_t *s, size_t n) {
    uint32_t z = UINT32_MAX;
    size_t i = 0;
    for (; n - i >= 8; i += 8) {
        uint32_t second = add(0, big_endian(s + i + 4), 0);
        z = add(second, z ^ big_endian(s + i), 8);
    }
    for (; i < n; i++) {
        uint32_t top = (z >> 24) ^ s[i];
        z = (z << 8) ^ nibble_table[1][top >> 4] ^ nibble_table[0][top & 15];
    }
    return z;
}
