// The header by itself, as C99 and as C++: its macros are constants and its new record has 90 bytes.
#include "rostimely.h"

extern uint8_t memory[ROSTIMELY_MEMORY_LENGTH(2, 1)];
extern uint8_t memory[8 * 43];
extern uint8_t cache[ROSTIMELY_CACHE_LENGTH(2, 1)];
extern uint8_t cache[64];
extern uint8_t table[ROSTIMELY_TABLE_LENGTH(2, 1)];
extern uint8_t table[8];
extern uint8_t words[ROSTIMELY_FORMAT_WORDS(2, 1)];
extern uint8_t words[27];
extern uint8_t steps[ROSTIMELY_CHECKPOINT_WORDS(2, 1)];
extern uint8_t steps[10];

uint8_t record[] = ROSTIMELY_NEW_RECORD;
extern uint8_t record[ROSTIMELY_RECORD_LENGTH];
