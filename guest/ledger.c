/* A settlement ledger. Its operator opens accounts on the console; an account's owner, a peer, sends messages that pay out
   of it, and gets a receipt. Every receipt is printed too.

   Console:   open NAME PEER AMOUNT     an account, its owner's id and what it begins with
              show                      all accounts
              close                     ends the day
   Messages:  pay FROM TO AMOUNT        taken from the owner of FROM alone
              balance NAME */
#include "avm.h"

#define ACCOUNTS 16
#define NAME_MOST 12

struct account {
    char name[NAME_MOST + 1];
    uint32_t owner;
    uint32_t balance;
};

struct reply {
    size_t length;
    char bytes[128];
};

static struct account accounts[ACCOUNTS];
static uint32_t opened, receipts;
static struct reply reply;
static uint32_t reply_peer;
static int is_reply_due;

/* Words of a line */
struct words {
    const char *at, *end;
};

static size_t next_word(struct words *words, const char **start)
{
    while (words->at < words->end && *words->at == ' ')
        words->at++;
    *start = words->at;
    while (words->at < words->end && *words->at != ' ')
        words->at++;
    return (size_t)(words->at - *start);
}

static int is_word(struct words *words, const char *wanted)
{
    struct words rest = *words;
    const char *start;
    size_t length = next_word(&rest, &start);
    for (size_t i = 0; i < length; i++)
        if (start[i] != wanted[i])
            return 0;
    if (wanted[length])
        return 0;
    *words = rest;
    return 1;
}

/* A number up to 999,999,999. */
static int next_number(struct words *words, uint32_t *number)
{
    const char *start;
    size_t length = next_word(words, &start);
    *number = 0;
    if (length < 1 || length > 9)
        return 0;
    for (size_t i = 0; i < length; i++) {
        if (start[i] < '0' || start[i] > '9')
            return 0;
        *number = *number * 10 + (uint32_t)(start[i] - '0');
    }
    return 1;
}

static struct account *next_account(struct words *words)
{
    const char *start;
    size_t length = next_word(words, &start);
    for (uint32_t i = 0; i < opened; i++) {
        size_t k = 0;
        while (k < length && k < NAME_MOST && accounts[i].name[k] == start[k])
            k++;
        if (k == length && !accounts[i].name[k])
            return &accounts[i];
    }
    return NULL;
}

/* The reply */
static void say(const char *text)
{
    while (*text && reply.length < sizeof reply.bytes)
        reply.bytes[reply.length++] = *text++;
}

static void say_number(uint32_t number)
{
    if (number >= 10)
        say_number(number / 10);
    say((const char[]){(char)('0' + number % 10), 0});
}

/* What is said is printed, and sent where a peer asked. */
static void finish(int is_to_peer, uint32_t peer)
{
    avm_print_bytes(reply.bytes, reply.length);
    avm_put('\n');
    is_reply_due = is_to_peer;
    reply_peer = peer;
    if (!is_to_peer)
        reply.length = 0;
}

static void pay(struct words *words, uint32_t peer)
{
    struct account *from = next_account(words), *to = next_account(words);
    uint32_t amount;
    if (!from || !to || from == to || !next_number(words, &amount) || amount == 0) {
        say("refused: no such payment");
    } else if (from->owner != peer) {
        say("refused: not the owner of ");
        say(from->name);
    } else if (from->balance < amount) {
        say("refused: ");
        say(from->name);
        say(" has ");
        say_number(from->balance);
    } else {
        from->balance -= amount;
        to->balance += amount;
        say("receipt ");
        say_number(++receipts);
        say(" at ");
        say_number((uint32_t)avm_clock());
        say(": ");
        say(from->name);
        say(" pays ");
        say(to->name);
        say(" ");
        say_number(amount);
    }
}

static void take_message(void)
{
    char message[128];
    uint32_t peer;
    int length = avm_receive(message, sizeof message, &peer);
    if (length < 0)
        return;
    if (length > (int)sizeof message)
        length = 0;
    struct words words = {message, message + length};
    struct account *account;
    if (is_word(&words, "pay")) {
        pay(&words, peer);
    } else if (is_word(&words, "balance") && (account = next_account(&words))) {
        say(account->name);
        say(" has ");
        say_number(account->balance);
    } else {
        say("refused: no such order");
    }
    finish(1, peer);
}

static void open_account(struct words *words)
{
    const char *start;
    size_t length = next_word(words, &start);
    uint32_t owner, amount;
    struct words again = {start, start + length};
    if (length < 1 || length > NAME_MOST || opened == ACCOUNTS || next_account(&again) || !next_number(words, &owner)
        || !next_number(words, &amount)) {
        say("refused: no such account");
        return;
    }
    struct account *account = &accounts[opened++];
    for (size_t i = 0; i < length; i++)
        account->name[i] = start[i];
    account->owner = owner;
    account->balance = amount;
    say("opened ");
    say(account->name);
    say(" with ");
    say_number(amount);
}

static void show(void)
{
    for (uint32_t i = 0; i < opened; i++) {
        if (i)
            say(", ");
        say(accounts[i].name);
        say(" ");
        say_number(accounts[i].balance);
    }
}

int main(void)
{
    struct avm_line line = {0};
    avm_print("ledger ready\n");
    for (;;) {
        int length;
        /* one order at a time, and its reply goes before the next is looked at */
        if (is_reply_due) {
            if (avm_send(reply_peer, reply.bytes, reply.length) == AVM_BUSY)
                continue;
            is_reply_due = 0;
            reply.length = 0;
        }
        length = avm_read_line(&line);
        if (length >= 0) {
            struct words words = {line.bytes, line.bytes + length};
            if (is_word(&words, "open"))
                open_account(&words);
            else if (is_word(&words, "show"))
                show();
            else if (is_word(&words, "close"))
                break;
            else
                say("refused: no such order");
            finish(0, 0);
        }
        take_message();
        if (length < 0 && !is_reply_due)
            avm_wait();
    }
    show();
    finish(0, 0);
    return receipts;
}
