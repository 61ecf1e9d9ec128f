/* A game of nim against the house: 21 stones, each side takes 1 to 3 in turn, and who takes the last stone wins. A player
   types a digit. The house plays perfectly, so its operator is tempted to claim another move. */
#include "avm.h"

static void show(const char *who, uint32_t taken, uint32_t left)
{
    avm_print(who);
    avm_print(" takes ");
    avm_print_number(taken);
    avm_print(", ");
    avm_print_number(left);
    avm_print(" left\n");
}

int main(void)
{
    uint32_t left = 21;
    avm_print("21 stones, take 1 to 3\n");
    for (;;) {
        int byte = avm_get();
        if (byte < 0) {
            avm_wait();
            continue;
        }
        if (byte == '\n')
            continue;
        uint32_t taken = (uint32_t)byte - '0';
        if (taken < 1 || taken > 3 || taken > left) {
            avm_print("no such move\n");
            continue;
        }
        left -= taken;
        show("player", taken, left);
        if (left == 0) {
            avm_print("player wins\n");
            return 1;
        }
        taken = left % 4 ? left % 4 : 1;
        left -= taken;
        show("house", taken, left);
        if (left == 0) {
            avm_print("house wins\n");
            return 2;
        }
    }
}
