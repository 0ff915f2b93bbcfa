// A small host of the board: it formats, writes, makes a checkpoint, writes again, loses its supply in the middle of the second
// checkpoint and recovers.
//   host [WORD]   the supply is lost after WORD words of the second checkpoint's steps (5 if none is given; from 13 on it is not lost)
#include <stddef.h>
#include <stdio.h>
#include <stdlib.h>
#include <string.h>

#include "rostimely.h"

enum { BLOCKS = 8, SLOTS = 4, WIRE = 3, OTHER_WIRE = 6, FILL = '.' };

// The nonvolatile memory.
static uint8_t memory[ROSTIMELY_MEMORY_LENGTH(BLOCKS, SLOTS)];

// The volatile rest.
static uint8_t cache[ROSTIMELY_CACHE_LENGTH(BLOCKS, SLOTS)];
static uint8_t table[ROSTIMELY_TABLE_LENGTH(BLOCKS, SLOTS)];
static uint8_t record[ROSTIMELY_RECORD_LENGTH] = ROSTIMELY_NEW_RECORD;

// The four that every call is lent, with their lengths.
#define LENT memory, sizeof memory, cache, sizeof cache, table, sizeof table, record, sizeof record

static const char *name_of(uint64_t number)
{
    switch (number) {
    case ROSTIMELY_DONE:
        return "done";
    case ROSTIMELY_CUT:
        return "cut";
    case ROSTIMELY_OFF:
        return "refused: the board is off";
    default:
        return "refused";
    }
}

static void say(const char *what, rostimely_answer answer)
{
    printf("%-16s %s (%u), words stored: %u\n", what, name_of(answer.number), (unsigned)answer.number, (unsigned)answer.words);
}

static void write_text(uint64_t block, const char *text)
{
    char what[64];
    rostimely_answer answer =
        rostimely_store(LENT, block, 0, (const uint8_t *)text, strlen(text), ROSTIMELY_UNLIMITED);
    snprintf(what, sizeof what, "write %u \"%s\"", (unsigned)block, text);
    say(what, answer);
}

static void show(uint64_t block)
{
    uint8_t bytes[12];
    char what[64];
    rostimely_answer answer = rostimely_load(LENT, block, 0, bytes, sizeof bytes);
    snprintf(what, sizeof what, "load %u", (unsigned)block);
    if (answer.number == ROSTIMELY_DONE)
        printf("%-16s \"%.12s\"\n", what, (const char *)bytes);
    else
        say(what, answer);
}

static int writing(void)
{
    return record[ROSTIMELY_AT_PHASE] == ROSTIMELY_PHASE_WRITING;
}

// A checkpoint with all registers `value`, in steps of 4 words. The supply lasts for `supply` words of the steps.
static void checkpoint(uint8_t value, uint64_t supply)
{
    uint8_t registers[ROSTIMELY_REGISTERS];
    memset(registers, value, sizeof registers);
    say("begin", rostimely_begin(LENT, registers, sizeof registers, ROSTIMELY_UNLIMITED));
    while (writing()) {
        rostimely_answer answer = rostimely_step(LENT, 4, supply);
        say("step", answer);
        supply -= answer.words;
    }
}

// What a loss of supply does to the volatile memory.
static void forget(void)
{
    memset(cache, 0xa5, sizeof cache);
    memset(table, 0xa5, sizeof table);
    memset(record, 0xa5, sizeof record);
}

static void recover(void)
{
    rostimely_recovery recovery = rostimely_recover(LENT, BLOCKS, SLOTS);
    rostimely_answer answer = {recovery.number, recovery.words};
    say("recover", answer);
    if (recovery.registers)
        printf("%-16s %u\n", "first register", record[ROSTIMELY_AT_REGISTERS]);
    else
        printf("there are no registers\n");
}

int main(int count, char **words)
{
    uint64_t supply = count > 1 ? strtoul(words[1], NULL, 10) : 5;
    say("format", rostimely_format(LENT, BLOCKS, SLOTS, FILL, ROSTIMELY_UNLIMITED));
    write_text(WIRE, "quiet");
    checkpoint(1, ROSTIMELY_UNLIMITED);
    write_text(WIRE, "break");
    write_text(OTHER_WIRE, "weak");
    show(WIRE);
    checkpoint(2, supply);
    show(WIRE);
    printf("the supply comes back\n");
    forget();
    recover();
    show(WIRE);
    show(OTHER_WIRE);
    return 0;
}
