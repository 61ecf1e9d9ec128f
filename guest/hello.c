/* The smallest guest: it says hello, and when. */
#include "avm.h"

int main(void)
{
    avm_print("hello, auditor: it is ");
    avm_print_number((uint32_t)avm_clock());
    avm_print("\n");
    return 0;
}
