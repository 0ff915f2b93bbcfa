// Repeats one call on a prepared board, as the program cost does; linked with plain.c, floor.c or door.c. tests/cost/measure says how.
#include "plain.h"

enum { TRIAL_BYTES = 14 };

enum call { LOAD = 1, STORE = 2, BEGIN = 3, STEP = 4, WHOLE_CHECKPOINT = 5, FORMAT = 6, RECOVERY = 7, SWEEP = 8 };

// A case of the program cost: the call, the board it meets and how often it is made.
struct trial {
    uint8_t call;
    // the state codes of the entries: of every slot, and of the last
    uint8_t every;
    uint8_t last;
    struct record record;
    size_t block;
    size_t offset;
    size_t length;
    size_t allowance;
    size_t repeats;
};

// The largest board that is measured: 4,096 blocks and 512 slots.
static uint8_t memory[WORD * (8 * MAX_BLOCKS + 10 * MAX_SLOTS + 17)];
static uint8_t cache[BLOCK * MAX_SLOTS];
static uint64_t table[MAX_SLOTS];

static size_t least(size_t a, size_t b)
{
    return a < b ? a : b;
}

static size_t two(const uint8_t *bytes)
{
    return 256 * (size_t)bytes[0] + bytes[1];
}

static struct trial trial_in(const uint8_t *bytes)
{
    struct sizes sizes = {two(bytes + 4), two(bytes + 6)};
    // the last slot's block or, where that slot is free, the last of the board
    size_t count = bytes[2] == FREE ? sizes.blocks : sizes.slots;
    return (struct trial){
        .call = bytes[0],
        .every = bytes[1],
        .last = bytes[2],
        .record = {.sizes = sizes, .finished = BACKUP_A, .phase = bytes[3] == 1 ? PHASE_WRITING : PHASE_RUNNING},
        .block = count == 0 ? 0 : count - 1,
        .offset = bytes[8],
        .length = least(bytes[9], BLOCK),
        .allowance = two(bytes + 10),
        .repeats = two(bytes + 12),
    };
}

// Each slot holds the block of its own number.
static void prepare_table(uint64_t *words, size_t slots, const struct trial *trial)
{
    for (size_t slot = 0; slot < slots; slot++) {
        uint8_t code = slot + 1 == slots ? trial->last : trial->every;
        words[slot] = code == FREE ? 0 : 256 * slot + code;
    }
}

// A board that is formatted and has the case's table in its finished backup.
static void prepare_memory(const struct lent *lent, const struct trial *trial)
{
    struct record record = trial->record;
    uint8_t registers[BLOCK];
    memset(registers, 7, BLOCK);
    board_format(lent, &record, record.sizes, 0, SIZE_MAX);
    prepare_table(lent->table, lent->table_length, trial);
    board_begin(lent, &record, registers, BLOCK, SIZE_MAX);
    board_step(lent, &record, SIZE_MAX, SIZE_MAX);
}

static struct answer make_call(const struct lent *lent, struct record *record, const struct trial *trial, uint8_t *bytes)
{
    size_t p = trial->allowance;
    switch (trial->call) {
    case LOAD:
        return (struct answer){board_load(lent, record, trial->block, trial->offset, bytes, trial->length), 0};
    case STORE:
        return board_store(lent, record, trial->block, trial->offset, bytes, trial->length, p);
    case BEGIN:
        return board_begin(lent, record, bytes, trial->length, p);
    case STEP:
        return board_step(lent, record, 1, p);
    case WHOLE_CHECKPOINT:
        board_begin(lent, record, bytes, trial->length, p);
        return board_step(lent, record, p, p);
    case FORMAT:
        return board_format(lent, record, record->sizes, 0, p);
    case RECOVERY:
        return board_recover(lent, record, record->sizes).answer;
    case SWEEP:
        return board_sweep(lent, record, MAX_SLOTS, p);
    default:
        return (struct answer){NUMBER_DONE, 0};
    }
}

static struct answer run(const struct trial *trial)
{
    struct sizes sizes = trial->record.sizes;
    struct lent lent = {
        .memory = memory,
        .memory_length = least(WORD * memory_words(sizes), sizeof memory),
        .cache = cache,
        .cache_length = least(BLOCK * sizes.slots, sizeof cache),
        .table = table,
        .table_length = least(sizes.slots, MAX_SLOTS),
    };
    uint64_t kept[MAX_SLOTS];
    uint8_t bytes[BLOCK];
    memset(bytes, 5, BLOCK);
    prepare_memory(&lent, trial);
    prepare_table(kept, lent.table_length, trial);
    struct answer answer = {NUMBER_DONE, 0};
    for (size_t left = trial->repeats; left > 0; left--) {
        struct record record = trial->record;
        memcpy(table, kept, WORD * lent.table_length);
        answer = make_call(&lent, &record, trial, bytes);
    }
    return answer;
}

// The number in decimal, before `end`; gives its first digit.
static char *decimal(char *end, size_t number)
{
    do {
        *--end = (char)('0' + number % 10);
        number /= 10;
    } while (number > 0);
    return end;
}

static void print(struct answer answer)
{
    char line[48];
    char *end = line + sizeof line;
    char *first = end;
    *--first = '\n';
    first = decimal(first, answer.words);
    *--first = ' ';
    first = decimal(first, answer.number);
    write(1, first, (size_t)(end - first));
}

static bool read_trial(uint8_t *bytes)
{
    for (size_t got = 0; got < TRIAL_BYTES;) {
        long more = read(0, bytes + got, TRIAL_BYTES - got);
        if (more <= 0)
            return false;
        got += (size_t)more;
    }
    return true;
}

int main(void)
{
    uint8_t bytes[TRIAL_BYTES];
    while (read_trial(bytes)) {
        struct trial trial = trial_in(bytes);
        print(run(&trial));
    }
    return 0;
}
