// Writes codes that collide in a hash table if the hash has the fixed key.
//
//     flood COUNT BITS     writes COUNT codes of 16 bytes, one per line, whose hashes all end in BITS zeros
//
// The hash is that of `pc_names` with the key of a source that draws none (`FIXED_KEY`): `FoldHasher` over the key, the 16 cells of the
// code, and the key again. `IndexSet` then joins the two halves of these 64 bits by xor. A program that draws a random key takes no longer
// for these codes than for others.
#include <cstdint>
#include <cstdio>
#include <cstdlib>
#include <cstring>

static const char LETTERS[] = "0123456789ABCDEFGHIJKLMNOPQRSTUVWXYZabcdefghijklmnopqrstuvwxyz.-_";
static const int BASE = sizeof LETTERS - 1;
static const char FRONT[] = "FLOOD-OF";

static const uint64_t KEY_LOW = 0x13198a2e03707344, KEY_HIGH = 0x243f6a8885a308d3;
static const uint64_t INITIAL = 0x243f6a8885a308d3, MULTIPLIER = 0x9e3779b97f4a7c15;

static uint64_t word_of(const char *bytes) {
    uint64_t word;
    std::memcpy(&word, bytes, 8);
    return word;
}

// The state of a `FoldHasher` after 16 bytes more.
static uint64_t written(uint64_t state, uint64_t low, uint64_t high) {
    unsigned __int128 product = (unsigned __int128)(low ^ (state + 16)) * (high ^ MULTIPLIER);
    return (uint64_t)product ^ (uint64_t)(product >> 64);
}

static uint32_t hash(uint64_t begun, uint64_t low, uint64_t high) {
    uint64_t whole = written(written(begun, low, high), KEY_LOW, KEY_HIGH);
    return (uint32_t)(whole ^ whole >> 32);
}

// The next text of 7 letters, and whether there is one.
static bool next(char *letters, int *digits) {
    for (int place = 6; place >= 0; place--) {
        digits[place] = (digits[place] + 1) % BASE;
        letters[place] = LETTERS[digits[place]];
        if (digits[place] != 0) {
            return true;
        }
    }
    return false;
}

int main(int argc, char **argv) {
    if (argc != 3) {
        std::fputs("usage: flood COUNT BITS\n", stderr);
        return 1;
    }
    long count = std::atol(argv[1]);
    uint32_t mask = ((uint32_t)1 << std::atoi(argv[2])) - 1;
    uint64_t begun = written(INITIAL, KEY_LOW, KEY_HIGH), low = word_of(FRONT);
    char letters[9] = "0000000";
    int digits[7] = {0};
    do {
        // The eighth letter is the highest byte of the second word.
        uint64_t seven = word_of(letters);
        for (int last = 0; last < BASE && count > 0; last++) {
            if ((hash(begun, low, seven | (uint64_t)LETTERS[last] << 56) & mask) == 0) {
                std::printf("%s%s%c\n", FRONT, letters, LETTERS[last]);
                count--;
            }
        }
    } while (count > 0 && next(letters, digits));
    return count == 0 ? 0 : 1;
}
