/* RV32IM in plain C, with a switch and bounds-checked RAM: what machine.sh and replay.sh compare avm with.
   Usage: plain GUEST ROUNDS, a loop of so many instructions; or plain image FILE, flat bytes of RAM that run until they halt: what
   they print goes to standard output, and the count and the cause of the halt behind it. */
#include <stdint.h>
#include <stdio.h>
#include <stdlib.h>
#include <string.h>

enum { SIZE = 4096 * 16, LINE = 128 };

struct machine {
    uint32_t x[32], pc;
    uint8_t ram[SIZE], dirty[SIZE / 4096];
    uint64_t count;
    char line[LINE];
    uint32_t length;
};

static int load(const struct machine *m, uint32_t address, uint32_t bytes, uint32_t *value) {
    uint32_t at = address - 0x80000000u;
    if ((address & (bytes - 1)) != 0 || at >= SIZE || at + bytes > SIZE) return 0;
    *value = 0;
    memcpy(value, m->ram + at, bytes);
    return 1;
}

static int store(struct machine *m, uint32_t address, uint32_t bytes, uint32_t value) {
    uint32_t at = address - 0x80000000u;
    if ((address & (bytes - 1)) != 0 || at >= SIZE || at + bytes > SIZE) return 0;
    memcpy(m->ram + at, &value, bytes);
    m->dirty[at / 4096] = 1;
    return 1;
}

/* A word to the console: a line goes out with its count at its end. */
static int device_store(struct machine *m, uint32_t address, uint32_t bytes, uint32_t value) {
    if (address != 0x10000000u || bytes != 4) return 0;
    m->line[m->length++] = (char)value;
    if (m->length == LINE || (uint8_t)value == 10) {
        printf("%llu ", (unsigned long long)m->count + 1);
        fwrite(m->line, 1, m->length, stdout);
        m->length = 0;
    }
    return 1;
}

static uint32_t alu(uint32_t op, uint32_t alt, uint32_t a, uint32_t b) {
    switch (op) {
    case 0: return alt ? a - b : a + b;
    case 1: return a << (b & 31);
    case 2: return (int32_t)a < (int32_t)b;
    case 3: return a < b;
    case 4: return a ^ b;
    case 5: return alt ? (uint32_t)((int32_t)a >> (b & 31)) : a >> (b & 31);
    case 6: return a | b;
    default: return a & b;
    }
}

static uint32_t product(uint32_t op, uint32_t a, uint32_t b) {
    switch (op) {
    case 0: return a * b;
    case 1: return (uint32_t)((int64_t)(int32_t)a * (int32_t)b >> 32);
    case 2: return (uint32_t)((int64_t)(int32_t)a * b >> 32);
    case 3: return (uint32_t)((uint64_t)a * b >> 32);
    case 4: return b == 0 ? 0xffffffffu : a == 0x80000000u && b == 0xffffffffu ? a : (uint32_t)((int32_t)a / (int32_t)b);
    case 5: return b == 0 ? 0xffffffffu : a / b;
    case 6: return b == 0 ? a : a == 0x80000000u && b == 0xffffffffu ? 0 : (uint32_t)((int32_t)a % (int32_t)b);
    default: return b == 0 ? a : a % b;
    }
}

static int taken(uint32_t op, uint32_t a, uint32_t b) {
    switch (op) {
    case 0: return a == b;
    case 1: return a != b;
    case 4: return (int32_t)a < (int32_t)b;
    case 5: return (int32_t)a >= (int32_t)b;
    case 6: return a < b;
    default: return a >= b;
    }
}

/* One instruction: 0 where it goes on. */
static int step(struct machine *m) {
    uint32_t w, value, next = m->pc + 4;
    if (!load(m, m->pc, 4, &w)) return 9;
    uint32_t rd = w >> 7 & 31, f3 = w >> 12 & 7, a = m->x[w >> 15 & 31], b = m->x[w >> 20 & 31], f7 = w >> 25;
    uint32_t i = (uint32_t)((int32_t)w >> 20);
    switch (w & 127) {
    case 0x37: value = w & 0xfffff000u; break;
    case 0x17: value = m->pc + (w & 0xfffff000u); break;
    case 0x6f:
        value = next;
        next = m->pc + ((w & 0xff000) | (w >> 9 & 0x800) | (w >> 20 & 0x7fe) | (uint32_t)((int32_t)(w & 0x80000000u) >> 11));
        if (next % 4) return 4;
        break;
    case 0x67:
        if (f3) return 3;
        value = next;
        next = (a + i) & ~1u;
        if (next % 4) return 4;
        break;
    case 0x63:
        if (f3 == 2 || f3 == 3) return 3;
        if (taken(f3, a, b)) {
            next = m->pc + ((w >> 7 & 0x1e) | (w >> 20 & 0x7e0) | (w << 4 & 0x800) | (uint32_t)((int32_t)(w & 0x80000000u) >> 19));
            if (next % 4) return 4;
        }
        m->pc = next;
        return 0;
    case 0x03:
        if (f3 == 3 || f3 > 5) return 3;
        if ((a + i) & ((1u << (f3 & 3)) - 1)) return 5;
        if (!load(m, a + i, 1u << (f3 & 3), &value)) return 7;
        if (f3 == 0) value = (uint32_t)(int32_t)(int8_t)value;
        if (f3 == 1) value = (uint32_t)(int32_t)(int16_t)value;
        break;
    case 0x23:
        if (f3 > 2) return 3;
        i = (i & ~31u) | rd;
        if ((a + i) & ((1u << f3) - 1)) return 6;
        if (!store(m, a + i, 1u << f3, b) && !device_store(m, a + i, 1u << f3, b)) return 8;
        m->pc = next;
        return 0;
    case 0x13:
        if ((f3 == 1 && f7) || (f3 == 5 && f7 != 0 && f7 != 32)) return 3;
        value = alu(f3, f3 == 5 && f7 == 32, a, f3 == 1 || f3 == 5 ? i & 31 : i);
        break;
    case 0x33:
        if (f7 == 1) value = product(f3, a, b);
        else if (f7 == 0 || (f7 == 32 && (f3 == 0 || f3 == 5))) value = alu(f3, f7 == 32, a, b);
        else return 3;
        break;
    case 0x0f:
        if (f3) return 3;
        m->pc = next;
        return 0;
    default: return w == 0x73 ? 1 : w == 0x100073 ? 2 : 3;
    }
    if (rd) m->x[rd] = value;
    m->pc = next;
    return 0;
}

static int run_image(struct machine *m, const char *name) {
    FILE *file = fopen(name, "rb");
    if (!file) return 1;
    size_t got = fread(m->ram, 1, SIZE, file);
    fclose(file);
    m->pc = 0x80000000u;
    int cause;
    while (got != 0 && (cause = step(m)) == 0) m->count++;
    printf("%llu halt %d %u\n", (unsigned long long)m->count + 1, cause, m->x[10]);
    return 0;
}

int main(int count, char **words) {
    static const uint32_t guests[2][7] = {
        {0x00000193, 0x800000b7, 0x00118193, 0x4000a203, 0x00320233, 0x4040a023, 0xfe0198e3},
        {0x00100193, 0x04d00293, 0x025181b3, 0x0251d233, 0x003241b3, 0x0031d313, 0xfe5068e3}};
    static struct machine m;
    if (count != 3) return 1;
    if (strcmp(words[1], "image") == 0) return run_image(&m, words[2]);
    memcpy(m.ram, guests[strcmp(words[1], "moves") != 0], sizeof guests[0]);
    m.pc = 0x80000000u;
    for (long i = atol(words[2]); i > 0 && step(&m) == 0; i--) {
    }
    printf("%u\n", m.x[3]);
    return 0;
}
