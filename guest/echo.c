/* Sends each message back to its peer and prints each line of the console, until a line says `quit`. */
#include "avm.h"

static struct avm_line line;
static unsigned char message[AVM_MESSAGE_MOST];
static uint32_t peer;
static int length = -1;

/* One message at a time: it is kept until the peer has acknowledged the one before. */
static void echo_message(void)
{
    if (length < 0)
        length = avm_receive(message, sizeof message, &peer);
    if (length >= 0 && avm_send(peer, message, (size_t)length) != AVM_BUSY)
        length = -1;
}

int main(void)
{
    for (;;) {
        int count = avm_read_line(&line);
        if (count == 4 && !__builtin_memcmp(line.bytes, "quit", 4))
            return 0;
        if (count >= 0) {
            avm_print_bytes(line.bytes, (size_t)count);
            avm_put('\n');
        }
        echo_message();
        if (count < 0 && length < 0)
            avm_wait();
    }
}
