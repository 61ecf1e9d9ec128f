/* The calls of avm.h that aren't a single load or store, and those that a compiler may ask for by itself. */
#include "avm.h"

void (*volatile avm_bell_handler)(void);

void avm_print_bytes(const void *bytes, size_t count)
{
    const char *from = bytes;
    while (count--)
        avm_put(*from++);
}

void avm_print(const char *text)
{
    while (*text)
        avm_put(*text++);
}

void avm_print_number(uint32_t number)
{
    char digits[10];
    size_t count = 0;
    do {
        digits[count++] = (char)('0' + number % 10);
        number /= 10;
    } while (number);
    while (count)
        avm_put(digits[--count]);
}

void avm_print_signed(int32_t number)
{
    if (number < 0)
        avm_put('-');
    avm_print_number(number < 0 ? 0u - (uint32_t)number : (uint32_t)number);
}

void avm_print_hex(uint32_t number)
{
    for (int place = 28; place >= 0; place -= 4)
        avm_put("0123456789abcdef"[number >> place & 15]);
}

int avm_read_line(struct avm_line *line)
{
    int byte;
    while ((byte = avm_get()) >= 0) {
        if (byte == '\n') {
            int length = (int)line->length;
            line->length = 0;
            return length;
        }
        if (line->length < sizeof line->bytes)
            line->bytes[line->length++] = (char)byte;
    }
    return -1;
}

int avm_receive(void *to, size_t room, uint32_t *peer)
{
    uint32_t length = AVM_RX_LEN;
    if (length == AVM_NONE)
        return -1;
    *peer = AVM_RX_PEER;
    unsigned char *bytes = to;
    size_t taken = length < room ? length : room;
    uint32_t word = 0;
    for (size_t i = 0; i < taken; i++, word >>= 8) {
        if (i % 4 == 0)
            word = AVM_RX_WINDOW[i / 4];
        bytes[i] = (unsigned char)word;
    }
    AVM_RX_POP = 0;
    return (int)length;
}

enum avm_sent avm_send(uint32_t peer, const void *bytes, size_t length)
{
    const unsigned char *from = bytes;
    size_t shown = length < AVM_MESSAGE_MOST ? length : AVM_MESSAGE_MOST;
    for (size_t i = 0; i < shown; i += 4) {
        uint32_t word = 0;
        for (size_t k = 0; k < 4 && i + k < shown; k++)
            word |= (uint32_t)from[i + k] << 8 * k;
        AVM_TX_WINDOW[i / 4] = word;
    }
    AVM_TX_PEER = peer;
    AVM_TX_LEN = (uint32_t)length;
    AVM_TX_SEND = 0;
    return (enum avm_sent)AVM_TX_RES;
}

void avm_bell(void (*handler)(void))
{
    /* no handler is called while none is set */
    AVM_BELL_VEC = 0;
    avm_bell_handler = handler;
    AVM_BELL_VEC = handler ? (uint32_t)avm_bell_entry : 0;
}

void *memcpy(void *to, const void *from, size_t count)
{
    unsigned char *a = to;
    const unsigned char *b = from;
    while (count--)
        *a++ = *b++;
    return to;
}

void *memmove(void *to, const void *from, size_t count)
{
    unsigned char *a = to;
    const unsigned char *b = from;
    if ((uintptr_t)a <= (uintptr_t)b)
        return memcpy(to, from, count);
    while (count--)
        a[count] = b[count];
    return to;
}

void *memset(void *to, int byte, size_t count)
{
    unsigned char *a = to;
    while (count--)
        *a++ = (unsigned char)byte;
    return to;
}

int memcmp(const void *left, const void *right, size_t count)
{
    const unsigned char *a = left, *b = right;
    for (; count; count--, a++, b++)
        if (*a != *b)
            return *a < *b ? -1 : 1;
    return 0;
}
