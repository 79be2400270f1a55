/* Which states a controller can be in. */
#include "tests.h"

/* Whether the state that `make` gives is valid once a member of it is another. */
#define BECOMES(make, member, value, answer)                                                       \
    do {                                                                                           \
        lurgabel_controller c = make();                                                            \
        c.member = value;                                                                          \
        check(lurgabel_clear_errors(&c) == (answer), #make " with " #member " = " #value);         \
    } while (0)
#define VALID_WITH(make, member, value) BECOMES(make, member, value, LURGABEL_ACCEPTED)
#define INVALID_WITH(make, member, value) BECOMES(make, member, value, LURGABEL_INVALID)

static void test_valid_idle(void) {
    VALID_WITH(uninitialised, data_pages, 10);
    VALID_WITH(uninitialised, data_pages, 256);
    INVALID_WITH(uninitialised, data_pages, 257);
    VALID_WITH(uninitialised, regions[3].first_page, 32);
    VALID_WITH(uninitialised, regions[3].page_count, 32);
    INVALID_WITH(uninitialised, regions[3].page_count, 0xFFFFFFFFu);
    INVALID_WITH(uninitialised, read_queue.length, 1);
    INVALID_WITH(disabled, read_queue.length, 1);
    VALID_WITH(ready, read_queue.length, 16);
    INVALID_WITH(ready, program_queue.length, 1);
    INVALID_WITH(ready, last_address, 4);
    VALID_WITH(uninitialised, recorded, 0x3A0);
}

/* No rule looks at the rest of the progress while nothing runs. */
static void test_valid_not_running(void) {
    VALID_WITH(ready, progress.operation.address, 0xFFFFFFFFu);
    VALID_WITH(ready, progress.operation.count, 0xFFFFFFFFu);
    VALID_WITH(ready, progress.operation.kind, 255);
    VALID_WITH(ready, progress.operation.kind, 256);
    VALID_WITH(ready, progress.operation.kind, 0xFFFFFFFFu);
    VALID_WITH(ready, progress.operation.partition, 255);
    VALID_WITH(ready, progress.operation.partition, 256);
    VALID_WITH(ready, progress.operation.partition, 0xFFFFFFFFu);
    VALID_WITH(ready, progress.operation.info_type, 255);
    VALID_WITH(ready, progress.operation.info_type, 256);
    VALID_WITH(ready, progress.operation.info_type, 0xFFFFFFFFu);
    VALID_WITH(ready, progress.moved, 0xFFFFFFFFu);
    VALID_WITH(ready, progress.readable, 0xFFFFFFFFu);
}

static void test_valid_programming(void) {
    INVALID_WITH(programming, phase, LURGABEL_PHASE_UNINITIALISED);
    INVALID_WITH(programming, phase, LURGABEL_PHASE_DISABLED);
    INVALID_WITH(programming, default_rights, LURGABEL_CAN_READ | LURGABEL_CAN_ERASE);
    INVALID_WITH(programming, progress.running, 0);
    INVALID_WITH(programming, progress.operation.address, 0x74);
    INVALID_WITH(programming, progress.operation.address, 0x8000);
    INVALID_WITH(programming, progress.operation.count, 0);
    INVALID_WITH(programming, progress.operation.count, 2);
    VALID_WITH(programming, progress.operation.count, 3);
    INVALID_WITH(programming, progress.operation.kind, LURGABEL_READ);
    INVALID_WITH(programming, progress.operation.kind, LURGABEL_PAGE_ERASE);
    INVALID_WITH(programming, progress.operation.partition, LURGABEL_INFORMATION);
    VALID_WITH(programming, progress.moved, 2);
    INVALID_WITH(programming, progress.moved, 3);
    VALID_WITH(programming, program_queue.length, 3);
    INVALID_WITH(programming, program_queue.length, 4);
}

/* Over the creator's seed page, which is closed, from the last word of page 0 to the first one of page 2. */
static lurgabel_controller reading_seed(void) {
    lurgabel_controller c = open_everywhere();
    c.seeds_locked = 1;
    c.progress.operation = operation(LURGABEL_READ, LURGABEL_INFORMATION, 0, 0x3FC, 258);
    c.progress.readable = 1;
    c.progress.running = 1;
    return c;
}

static void test_valid_reading(void) {
    INVALID_WITH(reading, progress.readable, 0);
    INVALID_WITH(reading, progress.readable, 3);
    INVALID_WITH(reading, default_rights, LURGABEL_CAN_PROGRAM);
    INVALID_WITH(reading, program_queue.length, 1);
    VALID_WITH(reading, progress.moved, 3);
    INVALID_WITH(reading, progress.moved, 4);
    VALID_WITH(reading_denied, progress.moved, 3);
    INVALID_WITH(reading_denied, progress.readable, 1);
    INVALID_WITH(reading_denied, progress.readable, 4);
    INVALID_WITH(reading_denied, default_rights, LURGABEL_CAN_READ);
}

/* What is readable is counted from the settings and the inputs as they are. */
static void test_valid_reading_cut(void) {
    VALID_WITH(reading_cut, progress.readable, 2);
    INVALID_WITH(reading_cut, progress.readable, 0);
    INVALID_WITH(reading_cut, progress.readable, 1);
    INVALID_WITH(reading_cut, progress.readable, 3);
    INVALID_WITH(reading_cut, progress.readable, 4);
    VALID_WITH(reading_cut, progress.moved, 3);
    INVALID_WITH(reading_cut, progress.moved, 4);
    INVALID_WITH(reading_cut, default_rights, LURGABEL_CAN_PROGRAM);
    VALID_WITH(reading_cut, default_rights, LURGABEL_CAN_READ);
    INVALID_WITH(reading_cut, regions[0].on, 0);
    INVALID_WITH(reading_cut, regions[0].rights, LURGABEL_CAN_READ);
    VALID_WITH(reading_cut, regions[0].rights, 0);
    INVALID_WITH(reading_cut, regions[0].first_page, 0);
    INVALID_WITH(reading_cut, regions[0].first_page, 2);
    VALID_WITH(reading_cut, regions[0].page_count, 31);
    INVALID_WITH(reading_cut, progress.operation.address, 0x3FC);
    VALID_WITH(reading_cut, progress.operation.count, 3);
    INVALID_WITH(reading_cut, progress.operation.count, 1);
    VALID_WITH(reading_seed, progress.readable, 1);
    INVALID_WITH(reading_seed, progress.readable, 258);
    INVALID_WITH(reading_seed, seeds_locked, 0);
    VALID_WITH(reading_seed, provision_enabled, 0);
    VALID_WITH(reading_seed, info_pages[1].on, 0);
    INVALID_WITH(reading_seed, info_pages[0].on, 0);
    VALID_WITH(reading_seed, info_pages[2].on, 0);
}

static void test_valid_erasing(void) {
    VALID_WITH(erasing_page, progress.moved, 255);
    INVALID_WITH(erasing_page, progress.moved, 256);
    VALID_WITH(erasing_page, progress.operation.count, 0xFFFFFFFFu);
    INVALID_WITH(erasing_page, default_rights, LURGABEL_CAN_READ | LURGABEL_CAN_PROGRAM);
    VALID_WITH(erasing_bank, progress.moved, 4095);
    INVALID_WITH(erasing_bank, progress.moved, 4096);
    INVALID_WITH(erasing_bank, bank_erase[1], 0);
    VALID_WITH(erasing_bank, default_rights, 0);
    VALID_WITH(erasing_bank, progress.operation.info_type, 3);
    VALID_WITH(erasing_bank, progress.operation.info_type, 255);
    INVALID_WITH(erasing_bank, progress.operation.info_type, 256);
    INVALID_WITH(erasing_bank, progress.operation.partition, 256);
    VALID_WITH(erasing_bank, progress.readable, 0xFFFFFFFFu);
}

/* Only the refusals 5, 7, 8 and 9 are recorded. */
static void test_valid_recorded(void) {
    uint32_t bit;
    for (bit = 0; bit < 32; bit++) {
        bool known = bit == 5 || bit == 7 || bit == 8 || bit == 9;
        lurgabel_controller c = ready();
        c.recorded = 1u << bit;
        check_at((lurgabel_clear_errors(&c) == LURGABEL_ACCEPTED) == known, "recorded", bit);
    }
}

/* In any phase; whether an operation is in progress does not matter. */
static void test_valid_lost_turns(void) {
    VALID_WITH(uninitialised, lost_turns[0], 5);
    INVALID_WITH(uninitialised, lost_turns[0], 6);
    VALID_WITH(disabled, lost_turns[1], 5);
    INVALID_WITH(disabled, lost_turns[1], 255);
    INVALID_WITH(ready, lost_turns[0], 256);
    INVALID_WITH(ready, lost_turns[1], 261);
    VALID_WITH(erasing_page, lost_turns[1], 5);
    INVALID_WITH(erasing_page, lost_turns[1], 0xFFFFFFFFu);
}

void test_valid_states(void) {
    test_valid_idle();
    test_valid_not_running();
    test_valid_programming();
    test_valid_reading();
    test_valid_reading_cut();
    test_valid_erasing();
    test_valid_recorded();
    test_valid_lost_turns();
}
