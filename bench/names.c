// bench/names.c COUNT BITS
//
// Prints COUNT names of 12 letters whose hashes by the kit's FoldHasher (its seed is fixed) have the same BITS lowest
// bits, as its indexmap takes them: a table of up to 2^BITS groups begins to look for all of them at one place. Names
// are tried in their order, one multiplication for each that is tried.
#include <stdint.h>
#include <stdio.h>
#include <stdlib.h>

enum { LETTERS = 12 };

static const uint64_t SEED = 0x243f6a8885a308d3, MULTIPLIER = 0x9e3779b97f4a7c15;

static uint64_t folded(uint64_t a, uint64_t b) {
    unsigned __int128 product = (unsigned __int128)a * b;
    return (uint64_t)product ^ (uint64_t)(product >> 64);
}

// The length of a list of bytes is hashed first, and then each byte as a list of one.
static uint64_t begun(uint64_t length) { return folded(SEED ^ length, MULTIPLIER ^ 16); }
static uint64_t with_byte(uint64_t state, uint64_t byte) { return folded(state ^ byte * 0x010101, MULTIPLIER ^ 2); }

static uint64_t left, mask;
static char name[LETTERS + 1];

static void try_all(int place, uint64_t state) {
    for (char letter = 'a'; letter <= 'z' && left > 0; letter++) {
        uint64_t hash = with_byte(state, (uint64_t)letter);
        name[place] = letter;
        if (place + 1 < LETTERS) {
            try_all(place + 1, hash);
        } else if (((hash ^ hash >> 32) & mask) == 0) {
            puts(name);
            left--;
        }
    }
}

int main(int count, char **words) {
    if (count != 3) return 2;
    left = strtoull(words[1], NULL, 10);
    mask = (1ULL << strtoull(words[2], NULL, 10)) - 1;
    try_all(0, begun(LETTERS));
    return 0;
}
