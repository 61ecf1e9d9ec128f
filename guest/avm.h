/* Devices of the machine, and small calls on them, for guests in C. The meaning of each register is in docs/FORMATS.md,
   section "Devices". Every access is one word load or store, as the devices demand. */
#ifndef AVM_H
#define AVM_H

#include <stddef.h>
#include <stdint.h>

#define AVM_REGISTER(address) (*(volatile uint32_t *)(address))

#define AVM_CON_OUT AVM_REGISTER(0x10000000) /* store: a byte to the line */
#define AVM_CON_IN AVM_REGISTER(0x10000004)  /* load: the oldest console byte, or AVM_NONE */
#define AVM_CLK_LO AVM_REGISTER(0x10000008)  /* load: asks for the clock; gives its low word and latches the high one */
#define AVM_CLK_HI AVM_REGISTER(0x1000000c)  /* load: the latched word */
#define AVM_WAIT AVM_REGISTER(0x10000010)    /* store: waits where both queues are empty */
#define AVM_RX_LEN AVM_REGISTER(0x10000014)  /* load: the oldest message's length, or AVM_NONE */
#define AVM_RX_PEER AVM_REGISTER(0x10000018) /* load: who sent it, or AVM_NONE */
#define AVM_RX_POP AVM_REGISTER(0x1000001c)  /* store: drops it */
#define AVM_TX_PEER AVM_REGISTER(0x10000020)
#define AVM_TX_LEN AVM_REGISTER(0x10000024)
#define AVM_TX_SEND AVM_REGISTER(0x10000028) /* store: tries to send */
#define AVM_TX_RES AVM_REGISTER(0x1000002c)  /* load: an enum avm_sent */
#define AVM_RX_WINDOW ((volatile const uint32_t *)0x10001000)
#define AVM_TX_WINDOW ((volatile uint32_t *)0x10002000)
#define AVM_NONE 0xffffffffu
#define AVM_MESSAGE_MOST 1024u

/* The doorbell: registers of machine version 2 alone ("machine":2 in the configuration); in version 1 an access halts. */
#define AVM_BELL_VEC AVM_REGISTER(0x10000030) /* the handler's address, 0 for none */
#define AVM_BELL_PC AVM_REGISTER(0x10000034)  /* load: where the handler will return to */
#define AVM_BELL_RET AVM_REGISTER(0x10000038) /* store: returns from the handler; the start code does that */

/* What became of a try to send. */
enum avm_sent {
    AVM_SENT = 0,
    AVM_NO_PEER = 1,  /* the configuration has no such peer */
    AVM_TOO_LONG = 2, /* more than AVM_MESSAGE_MOST bytes */
    AVM_BUSY = 3      /* the last message to that peer isn't acknowledged yet */
};

/* Of the start code: the guest's own function, and the doorbell's entry, which calls avm_bell_handler. */
int main(void);
extern void (*volatile avm_bell_handler)(void);
void avm_bell_entry(void);

/* Ends the run: HALT with cause 1 (ECALL) and this value. Returning from main does the same. */
_Noreturn void avm_halt(uint32_t value);

/* Console ------------------------------------------------------------------------------------------------------------ */

/* The line is emitted by the byte 10, by its 128th byte, and by a halt. */
static inline void avm_put(char byte)
{
    AVM_CON_OUT = (unsigned char)byte;
}

/* The next byte of console input, or -1. */
static inline int avm_get(void)
{
    return (int)AVM_CON_IN;
}

void avm_print(const char *text);
void avm_print_bytes(const void *bytes, size_t count);
void avm_print_number(uint32_t number);
void avm_print_signed(int32_t number);
void avm_print_hex(uint32_t number);

/* Adds what has come to the line, without its end. Gives the line's length once its end (byte 10) has come, else -1, and
   then is called again with the same buffer when more has come. Bytes past the room are dropped. */
struct avm_line {
    size_t length;
    char bytes[128];
};
int avm_read_line(struct avm_line *line);

/* Clock -------------------------------------------------------------------------------------------------------------- */

/* Asks the monitor for the time. Its value is an input: it is the operator's word, and the log has it. */
static inline uint64_t avm_clock(void)
{
    uint32_t low = AVM_CLK_LO;
    return (uint64_t)AVM_CLK_HI << 32 | low;
}

/* Waiting ------------------------------------------------------------------------------------------------------------ */

/* Waits for console input, a message or an acknowledgement, where the console and message queues are empty; else it goes
   on at once. An acknowledgement that came just before doesn't end the wait: don't wait for one. */
static inline void avm_wait(void)
{
    AVM_WAIT = 0;
}

/* Messages ----------------------------------------------------------------------------------------------------------- */

/* Copies the oldest message's first `room` bytes and drops it. Gives its whole length, or -1 where there is none. */
int avm_receive(void *to, size_t room, uint32_t *peer);

/* Sends one message. The peer gets it at most once; until it has acknowledged it, AVM_BUSY comes. */
enum avm_sent avm_send(uint32_t peer, const void *bytes, size_t length);

/* Doorbell (machine version 2) ----------------------------------------------------------------------------------------- */

/* From now on `handler` is called whenever console input, a message or an acknowledgement has been taken; NULL ends that.
   A handler isn't interrupted: what comes meanwhile rings once more when it returns. Let it leave in the queues what the
   main loop waits for: a flag that it sets between a test and avm_wait would be slept over, a queue isn't. */
void avm_bell(void (*handler)(void));

#endif
