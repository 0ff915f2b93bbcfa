// Makes the calls of the door that stand on standard input, and writes what each gave and every byte that it was lent. The peer
// (tests/peer/fuzz.rs) makes the cases and compares. A case is a `struct head` and the five buffers, a reply a `struct reply` and the same
// buffers after the call. Each buffer stands between guard bytes, which are looked at after the call.
#include <stddef.h>
#include <stdint.h>
#include <stdio.h>
#include <string.h>

#include "rostimely.h"

enum { MEMORY, CACHE, TABLE, RECORD, LAST, BUFFERS };
enum { LOAD, STORE, BEGIN, STEP, FORMAT, RECOVER };
enum { GUARD = 64, MOST = 1 << 20, SHIFTS = 16 };

// Little-endian, as the machine's own.
struct head {
    uint8_t call;
    // where the buffers start
    uint8_t shift;
    uint8_t fill;
    uint8_t guard;
    uint32_t lengths[BUFFERS];
    // block, offset, p; or n, p; or blocks, slots, p
    uint64_t numbers[3];
};

struct reply {
    uint64_t number;
    uint64_t words;
    uint64_t registers;
    // one bit for each buffer with a changed guard
    uint64_t touched;
};

static uint8_t arenas[BUFFERS][GUARD + SHIFTS + MOST + GUARD];
static uint8_t guard[GUARD];

static int read_all(void *to, size_t length)
{
    return fread(to, 1, length, stdin) == length;
}

static struct reply plain(rostimely_answer answer)
{
    return (struct reply){answer.number, answer.words, 0, 0};
}

static struct reply make_call(const struct head *head, uint8_t *const *at)
{
    const uint32_t *lengths = head->lengths;
    const uint64_t *numbers = head->numbers;
#define LENT                                                                                                                               \
    at[MEMORY], lengths[MEMORY], at[CACHE], lengths[CACHE], at[TABLE], lengths[TABLE], at[RECORD], lengths[RECORD]
    switch (head->call) {
    case LOAD:
        return plain(rostimely_load(LENT, numbers[0], numbers[1], at[LAST], lengths[LAST]));
    case STORE:
        return plain(rostimely_store(LENT, numbers[0], numbers[1], at[LAST], lengths[LAST], numbers[2]));
    case BEGIN:
        return plain(rostimely_begin(LENT, at[LAST], lengths[LAST], numbers[2]));
    case STEP:
        return plain(rostimely_step(LENT, numbers[0], numbers[2]));
    case FORMAT:
        return plain(rostimely_format(LENT, numbers[0], numbers[1], head->fill, numbers[2]));
    default: {
        rostimely_recovery recovery = rostimely_recover(LENT, numbers[0], numbers[1]);
        return (struct reply){recovery.number, recovery.words, recovery.registers, 0};
    }
    }
}

// Tells whether a whole case was there.
static int run_case(const struct head *head)
{
    uint8_t *at[BUFFERS];
    memset(guard, head->guard, GUARD);
    for (int i = 0; i < BUFFERS; i++) {
        if (head->lengths[i] > MOST)
            return 0;
        at[i] = arenas[i] + GUARD + (head->shift + 5 * i) % SHIFTS;
        memcpy(at[i] - GUARD, guard, GUARD);
        if (!read_all(at[i], head->lengths[i]))
            return 0;
        memcpy(at[i] + head->lengths[i], guard, GUARD);
    }
    struct reply reply = make_call(head, at);
    for (int i = 0; i < BUFFERS; i++) {
        if (memcmp(at[i] - GUARD, guard, GUARD) != 0 || memcmp(at[i] + head->lengths[i], guard, GUARD) != 0)
            reply.touched |= (uint64_t)1 << i;
    }
    fwrite(&reply, sizeof reply, 1, stdout);
    for (int i = 0; i < BUFFERS; i++)
        fwrite(at[i], 1, head->lengths[i], stdout);
    return 1;
}

int main(void)
{
    struct head head;
    while (read_all(&head, sizeof head)) {
        if (head.call > RECOVER || !run_case(&head))
            return 1;
    }
    return 0;
}
