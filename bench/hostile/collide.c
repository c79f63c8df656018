// Prints keys of eight bytes, as hexadecimal numbers, that collide in a hash map with a fixed seed.
//
// usage: collide COUNT BITS STATE numbers|names|pairs: prints COUNT keys whose hashes end with BITS zero bits, for a hasher in this state.
// A number is hashed by one product of 128 bits, whose halves are combined by xor, and a name by one product for each byte; the halves of
// the result are combined by xor, too. Numbers and names have no 0 byte. A pair is two small numbers, the first in the upper half of the
// key, which are hashed as numbers, and behind them a byte 0.
#include <inttypes.h>
#include <stdio.h>
#include <stdlib.h>
#include <string.h>

static const uint64_t factor = 0x9e3779b97f4a7c15;

static uint64_t folded(uint64_t state, uint64_t number, uint64_t size) {
    unsigned __int128 product = (unsigned __int128)(state ^ number) * (factor ^ 2 * size);
    return (uint64_t)product ^ (uint64_t)(product >> 64);
}

static uint64_t with_byte(uint64_t state, uint64_t byte) { return folded(state, byte * 0x010101, 1); }

static int has_zero(uint64_t number) {
    return ((number - 0x0101010101010101) & ~number & 0x8080808080808080) != 0;
}

/* Prints the key if the low bits of its hash are 0. */
static void try(uint64_t key, uint64_t hash, uint64_t mask, uint64_t *left) {
    if (*left == 0 || ((hash ^ hash >> 32) & mask) != 0 || has_zero(key)) return;
    printf("%" PRIx64 "\n", key);
    --*left;
}

static void numbers(uint64_t state, uint64_t mask, uint64_t left) {
    for (uint64_t step = 1; left > 0; step++) {
        uint64_t key = step * 0xd1342543de82ef95;
        try(key, folded(state, key, 8), mask, &left);
    }
}

/* Tries all names that begin with these five bytes, which are hashed once, and end with three more. */
static void names_behind(uint64_t first, uint64_t state, uint64_t mask, uint64_t *left) {
    for (int at = 0; at < 5; at++) state = with_byte(state, first >> 8 * at & 0xff);
    for (uint64_t one = 1; one < 256; one++) {
        uint64_t behind_one = with_byte(state, one);
        for (uint64_t two = 1; two < 256; two++) {
            uint64_t behind_two = with_byte(behind_one, two);
            for (uint64_t three = 1; three < 256 && *left > 0; three++) {
                try(first | one << 40 | two << 48 | three << 56, with_byte(behind_two, three), mask, left);
            }
        }
    }
}

/* Prints a pair if the low bits of its hash are 0. */
static void try_pair(uint64_t state, uint64_t one, uint64_t other, uint64_t mask, uint64_t *left) {
    uint64_t hash = folded(folded(folded(state, one, 8), other, 8), 0, 1);
    if (*left == 0 || ((hash ^ hash >> 32) & mask) != 0) return;
    printf("%" PRIx64 "\n", one << 32 | other);
    --*left;
}

/* Tries all pairs, in order of the greater number. */
static void pairs(uint64_t state, uint64_t mask, uint64_t left) {
    for (uint64_t greatest = 1; left > 0; greatest++) {
        try_pair(state, greatest, greatest, mask, &left);
        for (uint64_t other = 1; other < greatest; other++) {
            try_pair(state, greatest, other, mask, &left);
            try_pair(state, other, greatest, mask, &left);
        }
    }
}

int main(int count, char **words) {
    if (count != 5) return 2;
    uint64_t left = strtoull(words[1], 0, 10), mask = (1ull << strtoull(words[2], 0, 10)) - 1;
    uint64_t state = strtoull(words[3], 0, 16);
    if (strcmp(words[4], "numbers") == 0) numbers(state, mask, left);
    else if (strcmp(words[4], "pairs") == 0) pairs(state, mask, left);
    else for (uint64_t first = 0x6161616161; left > 0; first++) names_behind(first, state, mask, &left);
    return 0;
}
