/* Names of eight bytes that begin at few places of a table whose seed is the one that everyone knows: of their hash, SipHash-1-3 of the
   bytes and of 0xFF, folded, none of the bits of the mask is set. */
#include <stdint.h>
#include <string.h>

#define TURNED(x, n) ((x) << (n) | (x) >> (64 - (n)))

static void turn(uint64_t v[4]) {
    v[0] += v[1], v[2] += v[3], v[1] = TURNED(v[1], 13) ^ v[0], v[3] = TURNED(v[3], 16) ^ v[2], v[0] = TURNED(v[0], 32);
    v[2] += v[1], v[0] += v[3], v[1] = TURNED(v[1], 17) ^ v[2], v[3] = TURNED(v[3], 21) ^ v[0], v[2] = TURNED(v[2], 32);
}

static uint32_t hashed(const char *name) {
    uint64_t words[2] = {0, 9ull << 56 | 0xFF}, v[4] = {0x736F6D6570736575, 0x646F72616E646F6D, 0x6C7967656E657261, 0x7465646279746573};
    memcpy(words, name, 8);
    for (int i = 0; i < 2; i++) v[3] ^= words[i], turn(v), v[0] ^= words[i];
    v[2] ^= 0xFF;
    for (int i = 0; i < 3; i++) turn(v);
    uint64_t all = v[0] ^ v[1] ^ v[2] ^ v[3];
    return (uint32_t)(all ^ all >> 32);
}

/* Puts so many of them behind one another. */
void find(long count, uint32_t mask, char *names) {
    char name[] = "p/aaaaaa";
    while (count) {
        if (!(hashed(name) & mask)) memcpy(names, name, 8), names += 8, count--;
        for (int i = 7; ++name[i] > 'z'; i--) name[i] = 'a';
    }
}
