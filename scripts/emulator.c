/* Every instruction of RV32IM but FENCE, ECALL and EBREAK, on corner and on drawn operands: a line a group of results, with its
   name and a sum over them. Built twice: for the machine, and with -DLINUX for an emulator of RISC-V Linux programs. */

typedef unsigned u32;

#ifdef LINUX
static char text[1 << 14];
static u32 used;

static void put(char c)
{
    text[used++] = c;
}

static long call(long number, long a, long b, long c)
{
    register long a0 __asm__("a0") = a;
    register long a1 __asm__("a1") = b;
    register long a2 __asm__("a2") = c;
    register long a7 __asm__("a7") = number;
    __asm__ volatile("ecall" : "+r"(a0) : "r"(a1), "r"(a2), "r"(a7) : "memory");
    return a0;
}

static void end(void)
{
    call(64, 1, (long)text, used);
    call(93, 0, 0, 0);
}
#define START "call run"
#else
static void put(char c)
{
    *(volatile u32 *)0x10000000 = (unsigned char)c;
}

static void end(void)
{
    __asm__ volatile("li a0, 0\n\tecall");
}
#define START "lui sp, 0x80010\n\tcall run"
#endif

void _start(void) __attribute__((section(".text.start"), naked, noreturn));
void run(void);

void _start(void)
{
    __asm__(START);
}

static u32 sum, drawn;

static void add(u32 result)
{
    sum = (sum << 5 | sum >> 27) + result + 0x9e3779b9;
}

/* Shifts and exclusive ors alone (xorshift32). */
static u32 draw(void)
{
    drawn ^= drawn << 13;
    drawn ^= drawn >> 17;
    drawn ^= drawn << 5;
    return drawn;
}

static const u32 corners[] = {0, 1, 2, 3, 31, 32, 0x7f, 0x80, 0xff, 0x7fff, 0x8000, 0xffff, 0x12345678, 0x7ffffffe, 0x7fffffff,
                              0x80000000, 0x80000001, 0xdeadbeef, 0xffff8000, 0xffffff80, 0xfffffffe, 0xffffffff};
#define CORNERS (sizeof corners / sizeof corners[0])
#define DRAWS 40

static void line(const char *name)
{
    while (*name)
        put(*name++);
    put(' ');
    for (int shift = 28; shift >= 0; shift -= 4)
        put("0123456789abcdef"[sum >> shift & 15]);
    put('\n');
    sum = 0;
    drawn = 2463534242u;
}

static void pairs(u32 (*result)(u32, u32), const char *name)
{
    for (u32 i = 0; i < CORNERS; i++)
        for (u32 k = 0; k < CORNERS; k++)
            add(result(corners[i], corners[k]));
    for (u32 i = 0; i < DRAWS; i++)
        add(result(draw(), draw()));
    line(name);
}

static void singles(u32 (*result)(u32), const char *name)
{
    for (u32 i = 0; i < CORNERS; i++)
        add(result(corners[i]));
    for (u32 i = 0; i < DRAWS; i++)
        add(result(draw()));
    line(name);
}

#define REGISTERS(X) X(add) X(sub) X(sll) X(slt) X(sltu) X(xor) X(srl) X(sra) X(or) X(and) \
    X(mul) X(mulh) X(mulhsu) X(mulhu) X(div) X(divu) X(rem) X(remu)
#define BRANCHES(X) X(beq) X(bne) X(blt) X(bge) X(bltu) X(bgeu)
#define IMMEDIATES(X) X(addi) X(slti) X(sltiu) X(xori) X(ori) X(andi)
#define SHIFTS(X) X(slli) X(srli) X(srai)
#define LOADS(X) X(lb) X(lbu) X(lh) X(lhu) X(lw)

#define REGISTER(name)                                                             \
    static u32 do_##name(u32 a, u32 b)                                             \
    {                                                                              \
        u32 r;                                                                     \
        __asm__ volatile(#name " %0, %1, %2" : "=r"(r) : "r"(a), "r"(b));          \
        return r;                                                                  \
    }
REGISTERS(REGISTER)

/* Forward and back: 1 where it is taken forward, and 2 more where it is taken back. */
#define BRANCH(name)                                                               \
    static u32 do_##name(u32 a, u32 b)                                             \
    {                                                                              \
        u32 r;                                                                     \
        __asm__ volatile("li %0, 1\n\t" #name " %1, %2, 1f\n\tli %0, 0\n\t"        \
                         "1:\tj 3f\n2:\taddi %0, %0, 2\n\tj 4f\n"                  \
                         "3:\t" #name " %1, %2, 2b\n4:"                            \
                         : "=&r"(r) : "r"(a), "r"(b));                             \
        return r;                                                                  \
    }
BRANCHES(BRANCH)

#define WITH(name, imm)                                                            \
    __asm__ volatile(#name " %0, %1, " #imm : "=r"(r) : "r"(a));                   \
    s = (s << 7 | s >> 25) ^ r;
#define IMMEDIATE(name)                                                            \
    static u32 do_##name(u32 a)                                                    \
    {                                                                              \
        u32 r, s = 0;                                                              \
        WITH(name, 0) WITH(name, 1) WITH(name, -1) WITH(name, 2047) WITH(name, -2048) WITH(name, 1365) WITH(name, -1366) \
        return s;                                                                  \
    }
IMMEDIATES(IMMEDIATE)
#define SHIFT(name)                                                                \
    static u32 do_##name(u32 a)                                                    \
    {                                                                              \
        u32 r, s = 0;                                                              \
        WITH(name, 0) WITH(name, 1) WITH(name, 7) WITH(name, 15) WITH(name, 16) WITH(name, 30) WITH(name, 31) \
        return s;                                                                  \
    }
SHIFTS(SHIFT)

static u32 memory[4] = {0x80ff7f01, 0x12348765, 0xffff8000, 0x0080ff7f};

#define AT(name, offset)                                                           \
    __asm__ volatile(#name " %0, " #offset "(%1)" : "=r"(r) : "r"(memory + 2) : "memory"); \
    add(r);
#define LOAD_BYTE(name) AT(name, -8) AT(name, -7) AT(name, -6) AT(name, -5) AT(name, 0) AT(name, 1) AT(name, 6) AT(name, 7)
#define LOAD_HALF(name) AT(name, -8) AT(name, -6) AT(name, -4) AT(name, -2) AT(name, 0) AT(name, 2) AT(name, 4) AT(name, 6)
#define LOAD_WORD(name) AT(name, -8) AT(name, -4) AT(name, 0) AT(name, 4)

static void loads(void)
{
    u32 r;
    LOAD_BYTE(lb) line("lb");
    LOAD_BYTE(lbu) line("lbu");
    LOAD_HALF(lh) line("lh");
    LOAD_HALF(lhu) line("lhu");
    LOAD_WORD(lw) line("lw");
}

#define PUT(name, offset)                                                          \
    __asm__ volatile(#name " %0, " #offset "(%1)" : : "r"(draw()), "r"(memory + 2) : "memory"); \
    for (int i = 0; i < 4; i++) add(memory[i]);

static void stores(void)
{
    PUT(sb, -8) PUT(sb, -7) PUT(sb, -2) PUT(sb, -1) PUT(sb, 0) PUT(sb, 1) PUT(sb, 2) PUT(sb, 3) line("sb");
    PUT(sh, -8) PUT(sh, -6) PUT(sh, 0) PUT(sh, 2) PUT(sh, 4) PUT(sh, 6) line("sh");
    PUT(sw, -8) PUT(sw, -4) PUT(sw, 0) PUT(sw, 4) line("sw");
}

#define UPPER(imm)                                                                 \
    __asm__ volatile("lui %0, " #imm : "=r"(r));                                   \
    add(r);                                                                        \
    __asm__ volatile("auipc %0, 0\n\tauipc %1, " #imm : "=&r"(r), "=r"(s));        \
    add(s - r);

static void jumps(void)
{
    u32 r, s;
    UPPER(0) UPPER(1) UPPER(0x7ffff) UPPER(0x80000) UPPER(0xfffff) UPPER(0x12345) line("lui auipc");
    __asm__ volatile("auipc %1, 0\n\tjal %0, 2f\n1:\taddi %0, %0, 0x100\n\tj 3f\n2:\tjal x0, 1b\n3:\tsub %0, %0, %1" : "=&r"(r), "=&r"(s));
    add(r);
    line("jal");
    /* Bit 0 of the target is cleared; the link may be the base. */
    __asm__ volatile("auipc %1, 0\n\taddi %0, %1, 17\n\tjalr %0, 0(%0)\n\taddi %0, %0, 0x100\n\tsub %0, %0, %1" : "=&r"(r), "=&r"(s));
    add(r);
    __asm__ volatile("auipc %1, 0\n\taddi %0, %1, 0x7f\n\tjalr %0, -0x6f(%0)\n\taddi %0, %0, 0x100\n\tsub %0, %0, %1" : "=&r"(r), "=&r"(s));
    add(r);
    line("jalr");
    __asm__ volatile("li %0, 5\n\taddi x0, %0, 1\n\tadd %0, x0, %0\n\tmul x0, %0, %0\n\tmv %1, x0" : "=&r"(r), "=&r"(s));
    add(r);
    add(s);
    line("x0");
}

void run(void)
{
    drawn = 2463534242u;
    loads();
    stores();
    jumps();
#define PAIRS(name) pairs(do_##name, #name);
    REGISTERS(PAIRS)
    BRANCHES(PAIRS)
#define SINGLES(name) singles(do_##name, #name);
    IMMEDIATES(SINGLES)
    SHIFTS(SINGLES)
    end();
}
