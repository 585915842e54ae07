// Compares wide_numbers.c with products and shifts of 128 bits that the compiler makes, for random numbers and each shift.
#include <stdint.h>
#include <stdio.h>

// The functions get other names, because the compiler may call its own by these.
#define __multi3 tested_product
#define __ashlti3 tested_shift_left
#define __lshrti3 tested_shift_right
#define __ashrti3 tested_signed_shift_right
#include "wide_numbers.c"

static uint64_t state = 2005;

static uint64_t random_bits(void) {
    state = state * 6364136223846793005ULL + 1442695040888963407ULL;
    uint64_t high = state >> 32;
    state = state * 6364136223846793005ULL + 1442695040888963407ULL;
    return high << 32 | state >> 32;
}

// Returns a random number, or one whose halves have all bits set or none.
static u128 random_wide(void) {
    uint64_t kind = random_bits(), high = kind & 1 ? random_bits() : kind & 2 ? ~0ULL : 0, low = kind & 4 ? random_bits() : kind & 8 ? ~0ULL : 0;
    return (u128)high << 64 | low;
}

int main(void) {
    long failed = 0;
    for (long round = 0; round < 100000; round++) {
        u128 x = random_wide(), y = random_wide();
        failed += tested_product(x, y) != x * y;
        int bits = (int)(round % 128);
        failed += tested_shift_left(x, bits) != x << bits;
        failed += tested_shift_right(x, bits) != x >> bits;
        failed += tested_signed_shift_right((i128)x, bits) != (i128)x >> bits;
    }
    printf("%ld failed\n", failed);
    return failed != 0;
}
