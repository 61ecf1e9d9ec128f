/* Counts primes, and answers a key on the console at once by the doorbell (machine version 2): it tells how far it has come,
   and ends on `q`. */
#include "avm.h"

static volatile uint32_t found, looked_at, is_over;

static void answer(void)
{
    int byte;
    while ((byte = avm_get()) >= 0) {
        if (byte == 'q')
            is_over = 1;
        if (byte == '\n')
            continue;
        avm_print_number(found);
        avm_print(" primes up to ");
        avm_print_number(looked_at);
        avm_print("\n");
    }
}

static int is_prime(uint32_t n)
{
    for (uint32_t k = 2; k * k <= n; k++)
        if (n % k == 0)
            return 0;
    return n > 1;
}

int main(void)
{
    avm_bell(answer);
    for (uint32_t n = 2; !is_over; n++) {
        found += is_prime(n);
        looked_at = n;
    }
    return 0;
}
