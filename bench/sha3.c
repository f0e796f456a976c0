/* SHA3-256 of FIPS 202 in plain C: loops and tables over 25 lanes.
   It hashes 1,024 parts of 65,536 bytes, each followed by the digest before it,
   and prints the last digest, and on standard error the seconds that it took. */
#define _POSIX_C_SOURCE 199309L
#include <stdint.h>
#include <stdio.h>
#include <string.h>
#include <time.h>

#define RATE 136
#define PART 65536
#define TURNS 1024

static const uint64_t constants[24] = {
    0x0000000000000001, 0x0000000000008082, 0x800000000000808a, 0x8000000080008000,
    0x000000000000808b, 0x0000000080000001, 0x8000000080008081, 0x8000000000008009,
    0x000000000000008a, 0x0000000000000088, 0x0000000080008009, 0x000000008000000a,
    0x000000008000808b, 0x800000000000008b, 0x8000000000008089, 0x8000000000008003,
    0x8000000000008002, 0x8000000000000080, 0x000000000000800a, 0x800000008000000a,
    0x8000000080008081, 0x8000000000008080, 0x0000000080000001, 0x8000000080008008,
};

/* by how many bits rho turns the lane at x + 5y */
static const int offsets[25] = {
    0, 1, 62, 28, 27, 36, 44, 6, 55, 20, 3, 10, 43, 25, 39, 41, 45, 15, 21, 8, 18, 2, 61, 56, 14,
};

static uint64_t rotated(uint64_t a, int n) {
    return n ? (a << n) | (a >> (64 - n)) : a;
}

static void permute(uint64_t a[25]) {
    for (int r = 0; r < 24; r++) {
        uint64_t b[25], c[5];
        /* theta */
        for (int x = 0; x < 5; x++)
            c[x] = a[x] ^ a[x + 5] ^ a[x + 10] ^ a[x + 15] ^ a[x + 20];
        for (int x = 0; x < 5; x++) {
            uint64_t d = c[(x + 4) % 5] ^ rotated(c[(x + 1) % 5], 1);
            for (int y = 0; y < 5; y++)
                a[x + 5 * y] ^= d;
        }
        /* rho and pi */
        for (int x = 0; x < 5; x++)
            for (int y = 0; y < 5; y++)
                b[y + 5 * ((2 * x + 3 * y) % 5)] = rotated(a[x + 5 * y], offsets[x + 5 * y]);
        /* chi */
        for (int y = 0; y < 5; y++)
            for (int x = 0; x < 5; x++)
                a[x + 5 * y] = b[x + 5 * y] ^ (~b[(x + 1) % 5 + 5 * y] & b[(x + 2) % 5 + 5 * y]);
        /* iota */
        a[0] ^= constants[r];
    }
}

static void absorb(uint64_t a[25], const uint8_t *block) {
    for (int i = 0; i < RATE / 8; i++) {
        uint64_t lane = 0;
        for (int j = 0; j < 8; j++)
            lane |= (uint64_t)block[8 * i + j] << (8 * j);
        a[i] ^= lane;
    }
    permute(a);
}

struct sponge {
    uint64_t lanes[25];
    uint8_t block[RATE];
    size_t fill;
};

static void take(struct sponge *s, const uint8_t *bytes, size_t n) {
    while (n > 0) {
        if (s->fill == 0 && n >= RATE) {
            absorb(s->lanes, bytes);
            bytes += RATE;
            n -= RATE;
        } else {
            size_t k = n < RATE - s->fill ? n : RATE - s->fill;
            memcpy(s->block + s->fill, bytes, k);
            s->fill += k;
            bytes += k;
            n -= k;
            if (s->fill == RATE) {
                absorb(s->lanes, s->block);
                s->fill = 0;
            }
        }
    }
}

static void digest(const uint8_t *first, size_t m, const uint8_t *second, size_t n, uint8_t out[32]) {
    struct sponge s;
    memset(&s, 0, sizeof s);
    take(&s, first, m);
    take(&s, second, n);
    memset(s.block + s.fill, 0, RATE - s.fill);
    s.block[s.fill] = 0x06;
    s.block[RATE - 1] |= 0x80;
    absorb(s.lanes, s.block);
    for (int i = 0; i < 32; i++)
        out[i] = (uint8_t)(s.lanes[i / 8] >> (8 * (i % 8)));
}

int main(void) {
    static uint8_t part[PART];
    uint8_t last[32] = {0}, next[32];
    struct timespec start, end;
    memset(part, 0x5a, PART);
    clock_gettime(CLOCK_MONOTONIC, &start);
    for (int i = 0; i < TURNS; i++) {
        digest(part, PART, last, 32, next);
        memcpy(last, next, 32);
    }
    clock_gettime(CLOCK_MONOTONIC, &end);
    printf("sha3 ");
    for (int i = 0; i < 32; i++)
        printf("%02x", last[i]);
    printf("\n");
    fprintf(stderr, "sha3 %.6f\n", (double)(end.tv_sec - start.tv_sec) + (double)(end.tv_nsec - start.tv_nsec) / 1e9);
    return 0;
}
