/* A guest of the machine, built by a stock cross compiler: it prints the primes below 60 and what they sum up to. It has
   code, constants, data that starts with values, and zeros behind the file's bytes. */

#define CONSOLE (*(volatile unsigned *)0x10000000)
#define LIMIT 60

static unsigned char composite[LIMIT];
static unsigned found = 1000;
static const char title[] = "primes";

void _start(void) __attribute__((section(".text.start"), naked, noreturn));
void run(void);

void _start(void)
{
    __asm__("lui sp, 0x80010\n\tcall run\n\tli a0, 0\n\tecall");
}

static void put_text(const char *text)
{
    while (*text)
        CONSOLE = *text++;
}

static void put_number(unsigned n)
{
    char digits[10];
    int len = 0;
    do {
        digits[len++] = '0' + n % 10;
        n /= 10;
    } while (n);
    while (len)
        CONSOLE = digits[--len];
}

void run(void)
{
    unsigned sum = 0;
    put_text(title);
    for (unsigned i = 2; i < LIMIT; i++) {
        if (composite[i])
            continue;
        put_text(" ");
        put_number(i);
        sum += i;
        found++;
        for (unsigned k = i * i; k < LIMIT; k += i)
            composite[k] = 1;
    }
    put_text("\n");
    put_number(found - 1000);
    put_text(" sum ");
    put_number(sum);
    put_text("\n");
}
