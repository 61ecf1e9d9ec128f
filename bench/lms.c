/* LMS of RFC 8554 with w 8, eight chains at once, in C: what lms.sh compares avm with. It reads the lines that lms_peer reads:
   `key HEX` takes a private key file and prints the public key, `sign LEAF HEX` prints the signature of a text at a leaf of that
   key, `verify KEY TEXT SIGNATURE` prints `valid` or `invalid`. The chains of a leaf go as avm's do: the longest first, a lane
   that is done takes the next chain, and fewer than eight go singly. With the word `groups` they go in groups of eight in the
   order of their lengths, each group as far as its longest; with `plain` in groups as they stand; with `single` one by one. */
#include <stdint.h>
#include <stdio.h>
#include <stdlib.h>
#include <string.h>

enum { CHAINS = 34, LAST = 255, SIG = 4 + 32 + 32 * CHAINS, MOST = 1 << 20 };

typedef uint32_t v8 __attribute__((vector_size(32)));

static const uint32_t K[64] = {
    0x428a2f98, 0x71374491, 0xb5c0fbcf, 0xe9b5dba5, 0x3956c25b, 0x59f111f1, 0x923f82a4, 0xab1c5ed5, 0xd807aa98, 0x12835b01,
    0x243185be, 0x550c7dc3, 0x72be5d74, 0x80deb1fe, 0x9bdc06a7, 0xc19bf174, 0xe49b69c1, 0xefbe4786, 0x0fc19dc6, 0x240ca1cc,
    0x2de92c6f, 0x4a7484aa, 0x5cb0a9dc, 0x76f988da, 0x983e5152, 0xa831c66d, 0xb00327c8, 0xbf597fc7, 0xc6e00bf3, 0xd5a79147,
    0x06ca6351, 0x14292967, 0x27b70a85, 0x2e1b2138, 0x4d2c6dfc, 0x53380d13, 0x650a7354, 0x766a0abb, 0x81c2c92e, 0x92722c85,
    0xa2bfe8a1, 0xa81a664b, 0xc24b8b70, 0xc76c51a3, 0xd192e819, 0xd6990624, 0xf40e3585, 0x106aa070, 0x19a4c116, 0x1e376c08,
    0x2748774c, 0x34b0bcb5, 0x391c0cb3, 0x4ed8aa4a, 0x5b9cca4f, 0x682e6ff3, 0x748f82ee, 0x78a5636f, 0x84c87814, 0x8cc70208,
    0x90befffa, 0xa4506ceb, 0xbef9a3f7, 0xc67178f2};

#define R(x, n) ((x) >> (n) | (x) << (32 - (n)))

static void compress(uint32_t s[8], const uint8_t *block) {
    uint32_t w[64], a = s[0], b = s[1], c = s[2], d = s[3], e = s[4], f = s[5], g = s[6], h = s[7];
    for (int i = 0; i < 16; i++)
        w[i] = (uint32_t)block[4 * i] << 24 | block[4 * i + 1] << 16 | block[4 * i + 2] << 8 | block[4 * i + 3];
    for (int i = 16; i < 64; i++) {
        uint32_t x = w[i - 15], y = w[i - 2];
        w[i] = w[i - 16] + (R(x, 7) ^ R(x, 18) ^ x >> 3) + w[i - 7] + (R(y, 17) ^ R(y, 19) ^ y >> 10);
    }
    for (int i = 0; i < 64; i++) {
        uint32_t t = h + (R(e, 6) ^ R(e, 11) ^ R(e, 25)) + ((e & f) ^ (~e & g)) + K[i] + w[i];
        uint32_t u = (R(a, 2) ^ R(a, 13) ^ R(a, 22)) + ((a & b) ^ (a & c) ^ (b & c));
        h = g, g = f, f = e, e = d + t, d = c, c = b, b = a, a = t + u;
    }
    s[0] += a, s[1] += b, s[2] += c, s[3] += d, s[4] += e, s[5] += f, s[6] += g, s[7] += h;
}

static void hash(uint8_t *out, const uint8_t *text, size_t len) {
    uint32_t s[8] = {0x6a09e667, 0xbb67ae85, 0x3c6ef372, 0xa54ff53a, 0x510e527f, 0x9b05688c, 0x1f83d9ab, 0x5be0cd19};
    uint8_t last[128] = {0};
    size_t whole = len / 64 * 64, rest = len - whole, end = rest < 56 ? 64 : 128;
    for (size_t i = 0; i < whole; i += 64) compress(s, text + i);
    memcpy(last, text + whole, rest);
    last[rest] = 128;
    for (int i = 0; i < 8; i++) last[end - 1 - i] = (uint8_t)((uint64_t)len * 8 >> 8 * i);
    for (size_t i = 0; i < end; i += 64) compress(s, last + i);
    for (int i = 0; i < 32; i++) out[i] = (uint8_t)(s[i / 4] >> (24 - i % 4 * 8));
}

/* Eight texts of 55 bytes, each one block. */
static void hash8(uint8_t out[8][32], uint8_t texts[8][55]) {
    static const uint32_t start[8] = {0x6a09e667, 0xbb67ae85, 0x3c6ef372, 0xa54ff53a, 0x510e527f, 0x9b05688c, 0x1f83d9ab, 0x5be0cd19};
    uint8_t blocks[8][64];
    uint32_t words[16][8], ends[8][8];
    v8 w[16], s[8];
    for (int k = 0; k < 8; k++) memcpy(blocks[k], texts[k], 55), memcpy(blocks[k] + 55, "\200\0\0\0\0\0\0\1\270", 9);
    for (int k = 0; k < 8; k++)
        for (int i = 0; i < 16; i++) memcpy(&words[i][k], blocks[k] + 4 * i, 4), words[i][k] = __builtin_bswap32(words[i][k]);
    memcpy(w, words, sizeof w);
    for (int i = 0; i < 8; i++) s[i] = start[i] - (v8){0};
    v8 a = s[0], b = s[1], c = s[2], d = s[3], e = s[4], f = s[5], g = s[6], h = s[7];
#pragma GCC unroll 16
    for (int i = 0; i < 64; i++) {
        if (i >= 16) {
            v8 x = w[(i + 1) % 16], y = w[(i + 14) % 16];
            w[i % 16] += (R(x, 7) ^ R(x, 18) ^ x >> 3) + w[(i + 9) % 16] + (R(y, 17) ^ R(y, 19) ^ y >> 10);
        }
        v8 t = h + (R(e, 6) ^ R(e, 11) ^ R(e, 25)) + (g ^ (e & (f ^ g))) + K[i] + w[i % 16];
        v8 u = (R(a, 2) ^ R(a, 13) ^ R(a, 22)) + (b ^ ((a ^ b) & (b ^ c)));
        h = g, g = f, f = e, e = d + t, d = c, c = b, b = a, a = t + u;
    }
    s[0] += a, s[1] += b, s[2] += c, s[3] += d, s[4] += e, s[5] += f, s[6] += g, s[7] += h;
    memcpy(ends, s, sizeof s);
    for (int k = 0; k < 8; k++)
        for (int i = 0; i < 8; i++) ends[i][k] = __builtin_bswap32(ends[i][k]), memcpy(out[k] + 4 * i, &ends[i][k], 4);
}

static void put(uint8_t *at, int bytes, uint32_t n) {
    while (bytes--) at[bytes] = (uint8_t)n, n >>= 8;
}

static uint32_t number(const uint8_t *at) {
    return (uint32_t)at[0] << 24 | at[1] << 16 | at[2] << 8 | at[3];
}

enum { REFILLED, GROUPS, PLAIN, SINGLE } way = REFILLED;

static void push(uint8_t texts[][55], int *at, const int *to, const int *lanes, int steps) {
    uint8_t group[8][55], next[8][32];
    int from[8];
    for (int k = 0; k < 8; k++) memcpy(group[k], texts[lanes[k]], 55), from[k] = at[lanes[k]];
    for (int n = 0; n < steps; n++) {
        for (int k = 0; k < 8; k++) group[k][22] = (uint8_t)(from[k] + n);
        hash8(next, group);
        for (int k = 0; k < 8; k++)
            if (from[k] + n < to[lanes[k]]) memcpy(group[k] + 23, next[k], 32);
    }
    for (int k = 0; k < 8; k++) {
        memcpy(texts[lanes[k]], group[k], 55);
        at[lanes[k]] = from[k] + steps < to[lanes[k]] ? from[k] + steps : to[lanes[k]];
    }
}

static int less(const void *a, const void *b) {
    return *(const int *)a - *(const int *)b;
}

static void run(uint8_t texts[][55], const int *from, const int *to) {
    int at[CHAINS], order[CHAINS], length[CHAINS], lanes[8], next = 8;
    for (int i = 0; i < CHAINS; i++) at[i] = from[i], length[i] = to[i] - from[i], order[i] = 512 * (256 - length[i]) + i;
    if (way == REFILLED || way == GROUPS) qsort(order, CHAINS, sizeof *order, less);
    for (int i = 0; i < CHAINS; i++) order[i] %= 512;
    if (way == REFILLED) {
        memcpy(lanes, order, sizeof lanes);
        for (;;) {
            int steps = 256;
            for (int k = 0; k < 8; k++)
                if (to[lanes[k]] - at[lanes[k]] < steps) steps = to[lanes[k]] - at[lanes[k]];
            if (!steps) break;
            push(texts, at, to, lanes, steps);
            for (int k = 0; k < 8; k++)
                if (at[lanes[k]] == to[lanes[k]] && next < CHAINS) lanes[k] = order[next++];
        }
    } else if (way != SINGLE)
        for (int g = 0; g + 8 <= CHAINS; g += 8) {
            int steps = 0;
            for (int k = 0; k < 8; k++)
                if (length[order[g + k]] > steps) steps = length[order[g + k]];
            push(texts, at, to, order + g, steps);
        }
    for (int i = 0; i < CHAINS; i++)
        for (; at[i] < to[i]; at[i]++) texts[i][22] = (uint8_t)at[i], hash(texts[i] + 23, texts[i], 55);
}

static void start(uint8_t texts[][55], const uint8_t *base, const uint8_t *values, int apart) {
    for (int i = 0; i < CHAINS; i++) memcpy(texts[i], base, 20), put(texts[i] + 20, 2, i), memcpy(texts[i] + 23, values + apart * i, 32);
}

static void all(int *steps, int step) {
    for (int i = 0; i < CHAINS; i++) steps[i] = step;
}

static void secrets(uint8_t texts[][55], const uint8_t *base, const uint8_t *seed) {
    int from[CHAINS], to[CHAINS];
    start(texts, base, seed, 0), all(from, 255), all(to, 256), run(texts, from, to);
}

static void compressed(uint8_t *out, const uint8_t *base, uint8_t texts[][55]) {
    uint8_t ends[22 + 32 * CHAINS];
    memcpy(ends, base, 20), put(ends + 20, 2, 0x8080);
    for (int i = 0; i < CHAINS; i++) memcpy(ends + 22 + 32 * i, texts[i] + 23, 32);
    hash(out, ends, sizeof ends);
}

static void digits(int *steps, const uint8_t *base, const uint8_t *c, const uint8_t *text, size_t len) {
    static uint8_t all[54 + MOST];
    uint8_t q[34];
    memcpy(all, base, 20), put(all + 20, 2, 0x8181), memcpy(all + 22, c, 32), memcpy(all + 54, text, len);
    hash(q, all, 54 + len);
    int sum = 0;
    for (int i = 0; i < 32; i++) sum += 255 - q[i];
    put(q + 32, 2, sum);
    for (int i = 0; i < CHAINS; i++) steps[i] = q[i];
}

static uint8_t (*tree)[32], file[61];
static uint32_t height, leaves;

static void node(uint8_t *out, const uint8_t *id, uint32_t r, uint32_t tag, const uint8_t *left, const uint8_t *right) {
    uint8_t text[86];
    memcpy(text, id, 16), put(text + 16, 4, r), put(text + 20, 2, tag), memcpy(text + 22, left, 32);
    if (right) memcpy(text + 54, right, 32);
    hash(out, text, right ? 86 : 54);
}

static void base_of(uint8_t *base, const uint8_t *id, uint32_t q) {
    memcpy(base, id, 16), put(base + 16, 4, q);
}

static void make(uint8_t *key) {
    uint8_t base[20], texts[CHAINS][55], k[32];
    int from[CHAINS], to[CHAINS];
    height = 5 * (number(file + 5) - 4), leaves = 1u << height;
    free(tree), tree = malloc(64u * leaves);
    for (uint32_t q = 0; q < leaves; q++) {
        base_of(base, file + 13, q), secrets(texts, base, file + 29);
        all(from, 0), all(to, LAST), run(texts, from, to);
        compressed(k, base, texts);
        node(tree[leaves + q], file + 13, leaves + q, 0x8282, k, NULL);
    }
    for (uint32_t r = leaves - 1; r; r--) node(tree[r], file + 13, r, 0x8383, tree[2 * r], tree[2 * r + 1]);
    memcpy(key, file + 5, 24), memcpy(key + 24, tree[1], 32);
}

static size_t sign(uint8_t *out, uint32_t q, const uint8_t *text, size_t len) {
    uint8_t base[20], c[55], texts[CHAINS][55];
    int from[CHAINS], to[CHAINS];
    base_of(base, file + 13, q);
    memcpy(c, base, 20), put(c + 20, 2, 65533), c[22] = 255, memcpy(c + 23, file + 29, 32);
    put(out, 4, q), put(out + 4, 4, 4), hash(out + 8, c, 55);
    digits(to, base, out + 8, text, len), all(from, 0);
    secrets(texts, base, file + 29), run(texts, from, to);
    for (int i = 0; i < CHAINS; i++) memcpy(out + 40 + 32 * i, texts[i] + 23, 32);
    put(out + 4 + SIG, 4, number(file + 5));
    for (uint32_t i = 0, r = leaves + q; i < height; i++, r /= 2) memcpy(out + 8 + SIG + 32 * i, tree[r ^ 1], 32);
    return 8 + SIG + 32 * height;
}

static int valid(const uint8_t *key, size_t keylen, const uint8_t *text, size_t len, const uint8_t *sig, size_t siglen) {
    if (keylen != 56 || siglen < 8 + SIG || number(sig + 4) != 4 || number(key + 4) != 4) return 0;
    uint32_t type = number(key), q = number(sig), h = 5 * (type - 4);
    if (type < 5 || type > 9 || number(sig + 4 + SIG) != type || siglen != 8 + SIG + 32 * h || q >> h) return 0;
    uint8_t base[20], texts[CHAINS][55], k[32];
    int from[CHAINS], to[CHAINS];
    base_of(base, key + 8, q);
    digits(from, base, sig + 8, text, len), all(to, LAST);
    start(texts, base, sig + 40, 32), run(texts, from, to);
    compressed(k, base, texts);
    uint32_t r = (1u << h) + q;
    node(k, key + 8, r, 0x8282, k, NULL);
    for (const uint8_t *beside = sig + 8 + SIG; r > 1; r /= 2, beside += 32)
        r % 2 ? node(k, key + 8, r / 2, 0x8383, beside, k) : node(k, key + 8, r / 2, 0x8383, k, beside);
    return !memcmp(k, key + 24, 32);
}

static int digit(char c) {
    return c >= '0' && c <= '9' ? c - '0' : c >= 'a' && c <= 'f' ? c - 'a' + 10 : -1;
}

static size_t bytes(uint8_t *out, const char *word) {
    size_t n = 0;
    for (; n < MOST && digit(word[2 * n]) >= 0 && digit(word[2 * n + 1]) >= 0; n++)
        out[n] = (uint8_t)(16 * digit(word[2 * n]) + digit(word[2 * n + 1]));
    return n;
}

static void show(const uint8_t *at, size_t n) {
    for (; n--; at++) putchar("0123456789abcdef"[*at >> 4]), putchar("0123456789abcdef"[*at & 15]);
    putchar('\n');
}

int main(int count, char **words) {
    static uint8_t one[MOST], two[MOST], three[MOST];
    static char line[2 * MOST];
    if (count > 1) way = !strcmp(words[1], "groups") ? GROUPS : !strcmp(words[1], "plain") ? PLAIN : SINGLE;
    while (fgets(line, sizeof line, stdin)) {
        char *word = strtok(line, " \n"), *a = strtok(NULL, " \n"), *b = strtok(NULL, " \n"), *c = strtok(NULL, " \n");
        if (!strcmp(word, "key")) bytes(file, a), make(one), show(one, 56);
        else if (!strcmp(word, "sign")) show(two, sign(two, (uint32_t)atoi(a), one, bytes(one, b)));
        else puts(valid(one, bytes(one, a), two, bytes(two, b), three, bytes(three, c)) ? "valid" : "invalid");
    }
    return 0;
}
