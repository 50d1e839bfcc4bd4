/* SHA-256 over bytes that stand whole in memory. */
#include "digest.h"

#include <stdio.h>
#include <string.h>

enum {
    BLOCK = 64,             /* bytes that are mixed in at a time */
    LENGTH_WIDTH = 8,       /* the length in bits, at the end of the last block */
    WORDS = 8,              /* 32-bit words of the state */
    ROUNDS = 64,
    FIRST_ROUNDS = 16,      /* rounds whose words are the block's own */
    PADDING_MARK = 0x80
};

static const uint32_t start[WORDS] = {
    0x6a09e667, 0xbb67ae85, 0x3c6ef372, 0xa54ff53a, 0x510e527f, 0x9b05688c, 0x1f83d9ab, 0x5be0cd19
};

static const uint32_t constants[ROUNDS] = {
    0x428a2f98, 0x71374491, 0xb5c0fbcf, 0xe9b5dba5, 0x3956c25b, 0x59f111f1, 0x923f82a4, 0xab1c5ed5,
    0xd807aa98, 0x12835b01, 0x243185be, 0x550c7dc3, 0x72be5d74, 0x80deb1fe, 0x9bdc06a7, 0xc19bf174,
    0xe49b69c1, 0xefbe4786, 0x0fc19dc6, 0x240ca1cc, 0x2de92c6f, 0x4a7484aa, 0x5cb0a9dc, 0x76f988da,
    0x983e5152, 0xa831c66d, 0xb00327c8, 0xbf597fc7, 0xc6e00bf3, 0xd5a79147, 0x06ca6351, 0x14292967,
    0x27b70a85, 0x2e1b2138, 0x4d2c6dfc, 0x53380d13, 0x650a7354, 0x766a0abb, 0x81c2c92e, 0x92722c85,
    0xa2bfe8a1, 0xa81a664b, 0xc24b8b70, 0xc76c51a3, 0xd192e819, 0xd6990624, 0xf40e3585, 0x106aa070,
    0x19a4c116, 0x1e376c08, 0x2748774c, 0x34b0bcb5, 0x391c0cb3, 0x4ed8aa4a, 0x5b9cca4f, 0x682e6ff3,
    0x748f82ee, 0x78a5636f, 0x84c87814, 0x8cc70208, 0x90befffa, 0xa4506ceb, 0xbef9a3f7, 0xc67178f2
};

static uint32_t turned(uint32_t word, int by)
{
    return word >> by | word << (32 - by);
}

/* The words of all rounds: the block's sixteen, and those reckoned from them. */
static void schedule(const uint8_t block[BLOCK], uint32_t words[ROUNDS])
{
    for (int i = 0; i < FIRST_ROUNDS; i++, block += 4)
        words[i] = (uint32_t)block[0] << 24 | (uint32_t)block[1] << 16 |
                   (uint32_t)block[2] << 8 | block[3];
    for (int i = FIRST_ROUNDS; i < ROUNDS; i++) {
        uint32_t early = words[i - 15], late = words[i - 2];
        words[i] = words[i - 16] + words[i - 7] +
                   (turned(early, 7) ^ turned(early, 18) ^ early >> 3) +
                   (turned(late, 17) ^ turned(late, 19) ^ late >> 10);
    }
}

/* Mixes one block into the state. */
static void mix(uint32_t state[WORDS], const uint8_t block[BLOCK])
{
    uint32_t words[ROUNDS], s[WORDS];
    schedule(block, words);
    memcpy(s, state, sizeof s);
    for (int i = 0; i < ROUNDS; i++) {
        uint32_t choice = (s[4] & s[5]) ^ (~s[4] & s[6]);
        uint32_t most = (s[0] & s[1]) ^ (s[0] & s[2]) ^ (s[1] & s[2]);
        uint32_t first = s[7] + (turned(s[4], 6) ^ turned(s[4], 11) ^ turned(s[4], 25)) +
                         choice + constants[i] + words[i];
        uint32_t second = (turned(s[0], 2) ^ turned(s[0], 13) ^ turned(s[0], 22)) + most;
        memmove(s + 1, s, (WORDS - 1) * sizeof s[0]);
        s[4] += first;
        s[0] = first + second;
    }
    for (int i = 0; i < WORDS; i++)
        state[i] += s[i];
}

/* The rest behind the whole blocks, the mark, zeros, and the length in bits. */
static void mix_rest(uint32_t state[WORDS], const uint8_t *rest, size_t count, uint64_t length)
{
    uint8_t last[2 * BLOCK] = {0};
    size_t size = count + 1 + LENGTH_WIDTH <= BLOCK ? BLOCK : 2 * BLOCK;
    memcpy(last, rest, count);
    last[count] = PADDING_MARK;
    for (int i = 0; i < LENGTH_WIDTH; i++)
        last[size - 1 - (size_t)i] = (uint8_t)(length * 8 >> 8 * i);
    for (size_t at = 0; at < size; at += BLOCK)
        mix(state, last + at);
}

void digest_of(const uint8_t *bytes, size_t length, char digest[DIGEST_ROOM])
{
    uint32_t state[WORDS];
    size_t at = 0;
    memcpy(state, start, sizeof state);
    for (; length - at >= BLOCK; at += BLOCK)
        mix(state, bytes + at);
    mix_rest(state, bytes + at, length - at, length);
    for (int i = 0; i < WORDS; i++)
        sprintf(digest + 8 * i, "%08x", (unsigned)state[i]);
}
