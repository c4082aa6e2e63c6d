/* Counter mode and PBKDF2 as bench/crypt/program.rt.in runs them: the same AES in planes, eight blocks at once in vectors of two words,
   and the same SHA-1 with the padded keys hashed once. Prints the nanoseconds of a packet with keys of 16 and of 32 bytes, the
   microseconds of a derivation, and a sum of what came out. */
#include <stdint.h>
#include <stdio.h>
#include <string.h>
#include <time.h>

#define PACKETS 200000
#define DERIVATIONS 40
#define INLINE static inline __attribute__((always_inline))

typedef uint64_t planes __attribute__((vector_size(16)));

static uint8_t sub_table[256];

struct keys {
    int rounds;
    uint64_t planes[15][8];
};

static uint8_t xtime(uint8_t a) { return a << 1 ^ (a & 0x80 ? 0x1b : 0); }

static uint8_t times(uint8_t a, uint8_t b) {
    uint8_t r = 0;
    for (; b; b >>= 1, a = xtime(a))
        if (b & 1) r ^= a;
    return r;
}

static void fill_table(void) {
    for (int a = 0; a < 256; a++) {
        uint8_t i = 1, v = 0;
        for (int k = 0; k < 254; k++) i = times(i, a);
        for (int b = 0; b < 8; b++)
            v |= ((i >> b ^ i >> (b + 4) % 8 ^ i >> (b + 5) % 8 ^ i >> (b + 6) % 8 ^ i >> (b + 7) % 8 ^ 0x63 >> b) & 1) << b;
        sub_table[a] = v;
    }
}

/* bit row * 16 + column * 4 + block of plane p is bit p of a byte; round r has its columns turned by r times the row */
static void expand(struct keys *keys, const uint8_t *key, int size) {
    uint8_t words[240], constant = 1;
    int nk = size / 4;
    keys->rounds = nk + 6;
    memcpy(words, key, size);
    for (int i = nk; i < 4 * (keys->rounds + 1); i++) {
        uint8_t t[4];
        memcpy(t, words + 4 * i - 4, 4);
        if (i % nk == 0) {
            uint8_t first = t[0];
            t[0] = sub_table[t[1]] ^ constant;
            t[1] = sub_table[t[2]];
            t[2] = sub_table[t[3]];
            t[3] = sub_table[first];
            constant = xtime(constant);
        } else if (nk > 6 && i % nk == 4) {
            for (int j = 0; j < 4; j++) t[j] = sub_table[t[j]];
        }
        for (int j = 0; j < 4; j++) words[4 * i + j] = words[4 * (i - nk) + j] ^ t[j];
    }
    for (int r = 0; r <= keys->rounds; r++)
        for (int p = 0; p < 8; p++) {
            uint64_t w = 0;
            for (int row = 0; row < 4; row++)
                for (int col = 0; col < 4; col++)
                    if (words[16 * r + 4 * col + row] >> p & 1) w |= 0xfull << (row * 16 + (col + r * row) % 4 * 4);
            keys->planes[r][p] = w;
        }
}

/* the S-box as Boyar and Peralta's circuit: q[0] has bit 0 */
INLINE void substitute(planes *q) {
    planes x0 = q[7], x1 = q[6], x2 = q[5], x3 = q[4], x4 = q[3], x5 = q[2], x6 = q[1], x7 = q[0];
    planes y14 = x3 ^ x5, y13 = x0 ^ x6, y9 = x0 ^ x3, y8 = x0 ^ x5, t0 = x1 ^ x2, y1 = t0 ^ x7, y4 = y1 ^ x3, y12 = y13 ^ y14,
        y2 = y1 ^ x0, y5 = y1 ^ x6, y3 = y5 ^ y8, t1 = x4 ^ y12, y15 = t1 ^ x5, y20 = t1 ^ x1, y6 = y15 ^ x7, y10 = y15 ^ t0,
        y11 = y20 ^ y9, y7 = x7 ^ y11, y17 = y10 ^ y11, y19 = y10 ^ y8, y16 = t0 ^ y11, y21 = y13 ^ y16, y18 = x0 ^ y16;
    planes t2 = y12 & y15, t3 = y3 & y6, t4 = t3 ^ t2, t5 = y4 & x7, t6 = t5 ^ t2, t7 = y13 & y16, t8 = y5 & y1, t9 = t8 ^ t7,
        t10 = y2 & y7, t11 = t10 ^ t7, t12 = y9 & y11, t13 = y14 & y17, t14 = t13 ^ t12, t15 = y8 & y10, t16 = t15 ^ t12,
        t17 = t4 ^ t14, t18 = t6 ^ t16, t19 = t9 ^ t14, t20 = t11 ^ t16, t21 = t17 ^ y20, t22 = t18 ^ y19, t23 = t19 ^ y21,
        t24 = t20 ^ y18;
    planes t25 = t21 ^ t22, t26 = t21 & t23, t27 = t24 ^ t26, t28 = t25 & t27, t29 = t28 ^ t22, t30 = t23 ^ t24, t31 = t22 ^ t26,
        t32 = t31 & t30, t33 = t32 ^ t24, t34 = t23 ^ t33, t35 = t27 ^ t33, t36 = t24 & t35, t37 = t36 ^ t34, t38 = t27 ^ t36,
        t39 = t29 & t38, t40 = t25 ^ t39;
    planes t41 = t40 ^ t37, t42 = t29 ^ t33, t43 = t29 ^ t40, t44 = t33 ^ t37, t45 = t42 ^ t41;
    planes z0 = t44 & y15, z1 = t37 & y6, z2 = t33 & x7, z3 = t43 & y16, z4 = t40 & y1, z5 = t29 & y7, z6 = t42 & y11,
        z7 = t45 & y17, z8 = t41 & y10, z9 = t44 & y12, z10 = t37 & y3, z11 = t33 & y4, z12 = t43 & y13, z13 = t40 & y5,
        z14 = t29 & y2, z15 = t42 & y9, z16 = t45 & y14, z17 = t41 & y8;
    planes t46 = z15 ^ z16, t47 = z10 ^ z11, t48 = z5 ^ z13, t49 = z9 ^ z10, t50 = z2 ^ z12, t51 = z2 ^ z5, t52 = z7 ^ z8,
        t53 = z0 ^ z3, t54 = z6 ^ z7, t55 = z16 ^ z17, t56 = z12 ^ t48, t57 = t50 ^ t53, t58 = z4 ^ t46, t59 = z3 ^ t54,
        t60 = t46 ^ t57, t61 = z14 ^ t57, t62 = t52 ^ t58, t63 = t49 ^ t58, t64 = z4 ^ t59, t65 = t61 ^ t62, t66 = z1 ^ t63;
    planes s0 = t59 ^ t63, s6 = t56 ^ ~t62, s7 = t48 ^ ~t60, t67 = t64 ^ t65, s3 = t53 ^ t66, s4 = t51 ^ t66, s5 = t47 ^ t65,
        s1 = t64 ^ ~s3, s2 = t55 ^ ~t67;
    q[7] = s0; q[6] = s1; q[5] = s2; q[4] = s3; q[3] = s4; q[2] = s5; q[1] = s6; q[0] = s7;
}

INLINE planes turned_right(planes x, int n) { return (n & 63) ? x >> (n & 63) | x << (64 - (n & 63)) : x; }

static const uint64_t low[4] = {0xffffffffffffffffull, 0x0fff0fff0fff0fffull, 0x00ff00ff00ff00ffull, 0x000f000f000f000full};

/* rows by k, columns by c */
INLINE planes turned(planes x, int k, int c) {
    c &= 3;
    if (!c) return turned_right(x, 16 * k);
    planes kept = {low[c], low[c]};
    return (turned_right(x, 16 * k + 4 * c) & kept) | (turned_right(x, 16 * k + 4 * c - 16) & ~kept);
}

INLINE void mix_columns(planes *s, int r) {
    planes b[8], c[8], d[8];
    for (int i = 0; i < 8; i++) {
        b[i] = turned(s[i], 1, r);
        c[i] = s[i] ^ b[i];
    }
    for (int i = 0; i < 8; i++) d[i] = turned(c[i], 2, 2 * r);
    s[0] = b[0] ^ c[7] ^ d[0];
    s[1] = b[1] ^ c[0] ^ c[7] ^ d[1];
    s[2] = b[2] ^ c[1] ^ d[2];
    s[3] = b[3] ^ c[2] ^ c[7] ^ d[3];
    s[4] = b[4] ^ c[3] ^ c[7] ^ d[4];
    s[5] = b[5] ^ c[4] ^ d[5];
    s[6] = b[6] ^ c[5] ^ d[6];
    s[7] = b[7] ^ c[6] ^ d[7];
}

INLINE void add_key(planes *s, const uint64_t *key) {
    for (int i = 0; i < 8; i++) s[i] ^= (planes){key[i], key[i]};
}

INLINE void swap(planes *a, planes *b, uint64_t mask, int n) {
    planes t = ((*a >> n) ^ *b) & (planes){mask, mask};
    *b ^= t;
    *a ^= t << n;
}

INLINE void transpose(planes *q) {
    for (int i = 0; i < 8; i += 2) swap(q + i, q + i + 1, 0x5555555555555555ull, 1);
    for (int i = 0; i < 8; i += i % 4 == 1 ? 3 : 1) swap(q + i, q + i + 2, 0x3333333333333333ull, 2);
    for (int i = 0; i < 4; i++) swap(q + i, q + i + 4, 0x0f0f0f0f0f0f0f0full, 4);
}

INLINE planes gathered(planes x, int half) {
    planes y = x >> 8 * half & (planes){0x00ff00ff00ff00ffull, 0x00ff00ff00ff00ffull};
    y = (y | y >> 8) & (planes){0x0000ffff0000ffffull, 0x0000ffff0000ffffull};
    return (y | y >> 16) & (planes){0xffffffffull, 0xffffffffull};
}

/* eight blocks of the key stream, from the one with this number on */
static void write_blocks(const struct keys *keys, const uint64_t *base, unsigned first, uint8_t *out) {
    planes s[8];
    for (int i = 0; i < 8; i++)
        for (int j = 0; j < 2; j++) {
            unsigned n = first + 4 * j;
            uint64_t bits = i == 0 ? 0xa : i == 1 ? 0xc : (n >> i & 1) * 0xf;
            s[i][j] = base[i] | bits << (3 * 16 + 3 * 4);
        }
    add_key(s, keys->planes[0]);
    for (int r = 1;;) {
        substitute(s); mix_columns(s, 1); add_key(s, keys->planes[r++]);
        substitute(s); if (r == keys->rounds) break; mix_columns(s, 2); add_key(s, keys->planes[r++]);
        substitute(s); mix_columns(s, 3); add_key(s, keys->planes[r++]);
        substitute(s); if (r == keys->rounds) break; mix_columns(s, 0); add_key(s, keys->planes[r++]);
    }
    add_key(s, keys->planes[keys->rounds]);
    transpose(s);
    for (int b = 0; b < 4; b++) {
        planes q0 = gathered(s[b], 0), q2 = gathered(s[b], 1), q1 = gathered(s[4 + b], 0), q3 = gathered(s[4 + b], 1);
        if ((keys->rounds & 3) == 2) {
            planes mask = {0xff00ff00ull, 0xff00ff00ull}, t = (q0 ^ q2) & mask;
            q0 ^= t; q2 ^= t;
            t = (q1 ^ q3) & mask;
            q1 ^= t; q3 ^= t;
        }
        planes front = q0 | q1 << 32, back = q2 | q3 << 32;
        for (int l = 0; l < 2; l++) {
            uint64_t word = front[l];
            memcpy(out + 64 * l + 16 * b, &word, 8);
            word = back[l];
            memcpy(out + 64 * l + 16 * b + 8, &word, 8);
        }
    }
}

static void apply(const struct keys *keys, const uint8_t *salt, uint32_t number, uint8_t *payload, int size) {
    uint8_t fixed[14], stream[128];
    uint64_t base[8];
    memcpy(fixed, salt, 14);
    for (int i = 0; i < 4; i++) fixed[10 + i] ^= number >> (24 - 8 * i);
    for (int p = 0; p < 8; p++) {
        base[p] = 0;
        for (int i = 0; i < 14; i++)
            if (fixed[i] >> p & 1) base[p] |= 0xfull << (i % 4 * 16 + i / 4 * 4);
    }
    for (int at = 0; at < size; at += 128) {
        write_blocks(keys, base, at / 16, stream);
        for (int i = 0; i < 128 && at + i < size; i++) payload[at + i] ^= stream[i];
    }
}

#define LEFT(x, n) ((x) << (n) | (x) >> (32 - (n)))

static void compress(uint32_t *h, const uint32_t *block) {
    uint32_t w[80];
    memcpy(w, block, 64);
    for (int i = 16; i < 80; i++) w[i] = LEFT(w[i - 3] ^ w[i - 8] ^ w[i - 14] ^ w[i - 16], 1);
    uint32_t a = h[0], b = h[1], c = h[2], d = h[3], e = h[4];
    for (int i = 0; i < 80; i++) {
        uint32_t f = i < 20 ? (b & c) | (~b & d) : i < 40 || i >= 60 ? b ^ c ^ d : (b & c) | (b & d) | (c & d);
        uint32_t k = i < 20 ? 0x5a827999 : i < 40 ? 0x6ed9eba1 : i < 60 ? 0x8f1bbcdc : 0xca62c1d6;
        uint32_t t = LEFT(a, 5) + f + e + k + w[i];
        e = d; d = c; c = LEFT(b, 30); b = a; a = t;
    }
    h[0] += a; h[1] += b; h[2] += c; h[3] += d; h[4] += e;
}

static void keyed(const char *key, uint8_t pad, uint32_t *h) {
    static const uint32_t initial[5] = {0x67452301, 0xefcdab89, 0x98badcfe, 0x10325476, 0xc3d2e1f0};
    uint8_t bytes[64];
    uint32_t block[16];
    memset(bytes, pad, 64);
    for (int i = 0; key[i]; i++) bytes[i] ^= key[i];
    for (int i = 0; i < 16; i++) block[i] = (uint32_t)bytes[4 * i] << 24 | bytes[4 * i + 1] << 16 | bytes[4 * i + 2] << 8 | bytes[4 * i + 3];
    memcpy(h, initial, 20);
    compress(h, block);
}

/* h, after a text of so many words behind the key */
static void hashed(const uint32_t *key, const uint32_t *text, int words, uint32_t *h) {
    uint32_t block[16] = {0};
    memcpy(block, text, 4 * words);
    block[words] = 0x80000000;
    block[15] = (64 + 4 * words) * 8;
    memcpy(h, key, 20);
    compress(h, block);
}

/* the first block of the derived key, for a salt whose last eight bytes are these two words */
static void derive(const char *passphrase, uint32_t high, uint32_t low_word, uint32_t *sum) {
    uint32_t inner[5], outer[5], x[5], u[5], text[3] = {high, low_word, 1};
    keyed(passphrase, 0x36, inner);
    keyed(passphrase, 0x5c, outer);
    hashed(inner, text, 3, x);
    hashed(outer, x, 5, u);
    memcpy(sum, u, 20);
    for (int r = 1; r < 2048; r++) {
        hashed(inner, u, 5, x);
        hashed(outer, x, 5, u);
        for (int i = 0; i < 5; i++) sum[i] ^= u[i];
    }
}

static double now(void) {
    struct timespec t;
    clock_gettime(CLOCK_MONOTONIC, &t);
    return t.tv_sec * 1e9 + t.tv_nsec;
}

static uint32_t sum = 0;

static double packet(int size) {
    uint8_t key[32], salt[16], payload[1316];
    struct keys keys;
    for (int i = 0; i < 32; i++) key[i] = i;
    for (int i = 0; i < 16; i++) salt[i] = 17 * i;
    memset(payload, 0, sizeof payload);
    expand(&keys, key, size);
    double start = now();
    for (uint32_t i = 0; i < PACKETS; i++) apply(&keys, salt, i, payload, sizeof payload);
    double took = (now() - start) / PACKETS;
    for (int i = 0; i < 1316; i++) sum = sum * 31 + payload[i];
    return took;
}

int main(void) {
    fill_table();
    double small = packet(16), large = packet(32), start = now();
    for (uint32_t i = 0; i < DERIVATIONS; i++) {
        uint32_t h[5];
        derive("passphrase of 22 bytes", i, 7, h);
        sum = sum * 31 + (h[0] >> 24);
    }
    printf("%.0f %.0f %.0f %u\n", small, large, (now() - start) / DERIVATIONS / 1000, sum);
}
