/* Every field of the controller, one at a time. */
#include "tests.h"

#define AT(member) (offsetof(lurgabel_controller, member) / sizeof(uint32_t))
#define NUMBERS_OF(member) (sizeof(((lurgabel_controller *)0)->member) / sizeof(uint32_t))
#define ONE(member, value, refused, byte) {#member, AT(member), 1, 0, value, refused, byte}
#define EACH(array, elements, value, refused, byte) {#array, AT(array[0]), elements, 1, value, refused, byte}
#define EACH_OF(array, elements, member, value, refused, byte) \
    {#array "." #member, AT(array[0].member), elements, NUMBERS_OF(array[0]), value, refused, byte}

const field fields[FIELD_COUNT] = {
    ONE(data_pages, 9, true, false),
    ONE(phase, 3, true, true),
    ONE(provision_enabled, 2, true, true),
    ONE(seeds_locked, 2, true, true),
    ONE(default_rights, 8, true, true),
    EACH_OF(regions, 8, first_page, 33, true, false),
    EACH_OF(regions, 8, page_count, 33, true, false),
    EACH_OF(regions, 8, on, 2, true, true),
    EACH_OF(regions, 8, rights, 8, true, true),
    EACH_OF(info_pages, 26, on, 2, true, true),
    EACH_OF(info_pages, 26, rights, 8, true, true),
    EACH(bank_erase, 2, 2, true, true),
    ONE(progress.operation.address, 0x42, true, false),
    ONE(progress.operation.count, 1025, true, false),
    ONE(progress.operation.kind, 4, true, true),
    ONE(progress.operation.partition, 2, true, true),
    ONE(progress.operation.info_type, 3, false, true),
    ONE(progress.moved, 4, true, false),
    ONE(progress.readable, 0x87654321, false, false),
    ONE(progress.running, 2, true, true),
    EACH(read_queue.words, 16, 0x87654321, false, false),
    ONE(read_queue.length, 17, true, false),
    EACH(program_queue.words, 16, 0x87654321, false, false),
    ONE(program_queue.length, 17, true, false),
    ONE(recorded, 1, true, false),
    ONE(last_address, 0x87654321, false, false),
    EACH(lost_turns, 2, 6, true, false),
};

void put(lurgabel_controller *c, const field *f, size_t element, uint32_t value) {
    size_t number = f->number + element * f->stride;
    memcpy((unsigned char *)c + number * sizeof value, &value, sizeof value);
}

bool same(const lurgabel_controller *a, const lurgabel_controller *b) {
    return memcmp(a, b, LURGABEL_NUMBERS * sizeof(uint32_t)) == 0;
}

/* Every number of the controller belongs to exactly one field. */
void test_fields_are_all_listed(void) {
    unsigned listed[LURGABEL_NUMBERS] = {0};
    size_t i, element;
    for (i = 0; i < FIELD_COUNT; i++) {
        for (element = 0; element < fields[i].elements; element++) {
            listed[fields[i].number + element * fields[i].stride]++;
        }
    }
    for (i = 0; i < LURGABEL_NUMBERS; i++) {
        check_at(listed[i] == 1, "a field for the number", i);
    }
}

#define IS_NUMBER(member, number)                                                                       \
    do {                                                                                                \
        uint32_t numbers[LURGABEL_NUMBERS];                                                             \
        lurgabel_controller c;                                                                          \
        size_t i;                                                                                       \
        for (i = 0; i < LURGABEL_NUMBERS; i++) {                                                        \
            numbers[i] = 1000 + (uint32_t)i;                                                            \
        }                                                                                               \
        memcpy(&c, numbers, sizeof c);                                                                  \
        check(c.member == 1000 + (number), #member " is number " #number);                              \
    } while (0)

/* The library goes by these numbers, typed here again. */
void test_fields_by_number(void) {
    IS_NUMBER(data_pages, 0);
    IS_NUMBER(phase, 1);
    IS_NUMBER(provision_enabled, 2);
    IS_NUMBER(seeds_locked, 3);
    IS_NUMBER(default_rights, 4);
    IS_NUMBER(regions[0].first_page, 5);
    IS_NUMBER(regions[0].page_count, 6);
    IS_NUMBER(regions[0].on, 7);
    IS_NUMBER(regions[0].rights, 8);
    IS_NUMBER(regions[7].rights, 36);
    IS_NUMBER(info_pages[0].on, 37);
    IS_NUMBER(info_pages[0].rights, 38);
    IS_NUMBER(info_pages[25].rights, 88);
    IS_NUMBER(bank_erase[0], 89);
    IS_NUMBER(bank_erase[1], 90);
    IS_NUMBER(progress.operation.address, 91);
    IS_NUMBER(progress.operation.count, 92);
    IS_NUMBER(progress.operation.kind, 93);
    IS_NUMBER(progress.operation.partition, 94);
    IS_NUMBER(progress.operation.info_type, 95);
    IS_NUMBER(progress.moved, 96);
    IS_NUMBER(progress.readable, 97);
    IS_NUMBER(progress.running, 98);
    IS_NUMBER(read_queue.words[0], 99);
    IS_NUMBER(read_queue.words[15], 114);
    IS_NUMBER(read_queue.length, 115);
    IS_NUMBER(program_queue.words[0], 116);
    IS_NUMBER(program_queue.words[15], 131);
    IS_NUMBER(program_queue.length, 132);
    IS_NUMBER(recorded, 133);
    IS_NUMBER(last_address, 134);
    IS_NUMBER(lost_turns[0], 135);
    IS_NUMBER(lost_turns[1], 136);
}

/* One field alone is broken: the clearing of errors, which checks the state and nothing else, is refused. */
void test_broken_alone(void) {
    size_t i, element;
    for (i = 0; i < FIELD_COUNT; i++) {
        for (element = 0; element < fields[i].elements; element++) {
            lurgabel_controller c = programming();
            lurgabel_controller expected;
            put(&c, &fields[i], element, fields[i].value);
            expected = c;
            if (!fields[i].refused) {
                expected.recorded = 0;
                expected.last_address = 0;
            }
            check_at((lurgabel_clear_errors(&c) == LURGABEL_INVALID) == fields[i].refused, fields[i].name, element);
            check_at(same(&expected, &c), fields[i].name, element);
        }
    }
}

/* A number over 255 where the rules hold a byte encodes nothing, also where its low bits are those of a right value. */
void test_large_numbers(void) {
    static const uint32_t large[] = {256, 257, 258, 263, 0x10001, 0x01000000, 0x80000000u, 0xFFFFFFFFu};
    size_t i, element, n;
    for (i = 0; i < FIELD_COUNT; i++) {
        for (element = 0; fields[i].byte && element < fields[i].elements; element++) {
            for (n = 0; n < sizeof large / sizeof large[0]; n++) {
                lurgabel_controller before = programming();
                lurgabel_controller after;
                put(&before, &fields[i], element, large[n]);
                after = before;
                check_at(lurgabel_clear_errors(&after) == LURGABEL_INVALID, fields[i].name, large[n]);
                check_at(same(&before, &after), fields[i].name, large[n]);
            }
        }
    }
}
