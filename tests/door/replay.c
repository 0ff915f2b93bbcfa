// The bench trace of document 01 over the door, as the program batch runs it: frames of a 4-byte big-endian length and a trace on standard input,
// each run on a fresh board, a line `.` after each. tests/door/run compares its lines with the peer's.
#include <stddef.h>
#include <stdint.h>
#include <stdio.h>
#include <string.h>

#include "rostimely.h"

enum { MOST_BLOCKS = 64, MOST_SLOTS = 16, MOST_LOADED = 255, UNKNOWN = -1 };

static const uint8_t new_record[ROSTIMELY_RECORD_LENGTH] = ROSTIMELY_NEW_RECORD;

// The trace program's board, in its own arrays, and the allowance for the next call.
static uint8_t memory[ROSTIMELY_MEMORY_LENGTH(MOST_BLOCKS, MOST_SLOTS)];
static uint8_t cache[ROSTIMELY_CACHE_LENGTH(MOST_BLOCKS, MOST_SLOTS)];
static uint8_t table[ROSTIMELY_TABLE_LENGTH(MOST_BLOCKS, MOST_SLOTS)];
static uint8_t record[ROSTIMELY_RECORD_LENGTH];
static uint64_t allowance;

// What is lent for the sizes of a call: the front of the arrays, or all of them for larger sizes, which they never fit.
static size_t memory_length;
static size_t cache_length;
static size_t table_length;

#define LENT memory, memory_length, cache, cache_length, table, table_length, record, sizeof record

// The rest of the frame that is being read, and the value of its last field.
static size_t left;
static uint8_t value[65536];

static size_t two(const uint8_t *bytes)
{
    return 256 * (size_t)bytes[0] + bytes[1];
}

static void lend(size_t blocks, size_t slots)
{
    if (blocks > MOST_BLOCKS || slots > MOST_SLOTS) {
        blocks = MOST_BLOCKS;
        slots = MOST_SLOTS;
    }
    memory_length = ROSTIMELY_MEMORY_LENGTH(blocks, slots);
    cache_length = ROSTIMELY_CACHE_LENGTH(blocks, slots);
    table_length = ROSTIMELY_TABLE_LENGTH(blocks, slots);
}

static uint64_t take_allowance(void)
{
    uint64_t p = allowance;
    allowance = ROSTIMELY_UNLIMITED;
    return p;
}

static void print_hex(const uint8_t *bytes, size_t length)
{
    static const char digits[] = "0123456789abcdef";
    char text[1 + 2 * MOST_LOADED] = " ";
    for (size_t i = 0; i < length; i++) {
        text[1 + 2 * i] = digits[bytes[i] / 16];
        text[2 + 2 * i] = digits[bytes[i] % 16];
    }
    fwrite(text, 1, 1 + 2 * length, stdout);
}

static void print_answer(size_t field, rostimely_answer answer)
{
    printf("%zu %llu %llu", field, (unsigned long long)answer.number, (unsigned long long)answer.words);
}

static void load(size_t field, size_t length)
{
    uint8_t into[MOST_LOADED] = {0};
    rostimely_answer answer = rostimely_load(LENT, two(value), value[2], into, length);
    print_answer(field, answer);
    if (answer.number == ROSTIMELY_DONE)
        print_hex(into, length);
}

static void begin(size_t field)
{
    uint8_t registers[ROSTIMELY_REGISTERS];
    memset(registers, value[0], sizeof registers);
    print_answer(field, rostimely_begin(LENT, registers, sizeof registers, take_allowance()));
}

static void recover(size_t field, size_t blocks, size_t slots)
{
    rostimely_recovery recovery = rostimely_recover(LENT, blocks, slots);
    print_answer(field, (rostimely_answer){recovery.number, recovery.words});
    if (recovery.number != ROSTIMELY_DONE)
        return;
    if (recovery.registers)
        print_hex(record + ROSTIMELY_AT_REGISTERS, 1);
    else
        printf(" --");
}

// Prints the line of a field; tells whether its tag is known and its length right.
static int turn(size_t field, int tag, size_t length)
{
    size_t blocks = two(record + ROSTIMELY_AT_BLOCKS);
    size_t slots = two(record + ROSTIMELY_AT_SLOTS);
    lend(blocks, slots);
    if (tag == 1 && length == 5) {
        lend(two(value), two(value + 2));
        print_answer(field, rostimely_format(LENT, two(value), two(value + 2), value[4], take_allowance()));
    } else if (tag == 2 && length >= 4 && length <= 67) {
        print_answer(field, rostimely_store(LENT, two(value), value[2], value + 3, length - 3, take_allowance()));
    } else if (tag == 3 && length == 4) {
        load(field, value[3]);
    } else if (tag == 4 && length == 1) {
        begin(field);
    } else if (tag == 5 && length == 2) {
        print_answer(field, rostimely_step(LENT, two(value), take_allowance()));
    } else if (tag == 6 && length == 2) {
        allowance = two(value);
        print_answer(field, (rostimely_answer){ROSTIMELY_DONE, 0});
    } else if (tag == 7 && length == 0) {
        recover(field, blocks, slots);
    } else {
        return 0;
    }
    printf("\n");
    return 1;
}

// Reads bytes of the frame; gives how many there were.
static size_t take(uint8_t *to, size_t length)
{
    size_t got = fread(to, 1, length < left ? length : left, stdin);
    left -= got;
    return got;
}

// Reads the next field of the frame into `value`; gives its tag, or UNKNOWN if it is cut short.
static int next_field(size_t *length)
{
    uint8_t head[3];
    if (take(head, sizeof head) < sizeof head)
        return UNKNOWN;
    *length = two(head + 1);
    return take(value, *length) < *length ? UNKNOWN : head[0];
}

static void run_frame(void)
{
    memset(memory, 0, sizeof memory);
    memset(cache, 0, sizeof cache);
    memset(table, 0, sizeof table);
    memcpy(record, new_record, sizeof record);
    allowance = ROSTIMELY_UNLIMITED;
    for (size_t field = 1; left > 0; field++) {
        size_t length = 0;
        int tag = next_field(&length);
        if (!turn(field, tag, length)) {
            printf("bad %zu\n", field);
            break;
        }
    }
    while (left > 0 && take(value, sizeof value) > 0)
        ;
    printf(".\n");
}

int main(void)
{
    uint8_t head[4];
    while (fread(head, 1, sizeof head, stdin) == sizeof head) {
        left = 65536 * two(head) + two(head + 2);
        run_frame();
    }
    return 0;
}
