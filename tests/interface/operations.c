/* Each field of an operation as an argument. */
#include "tests.h"

/* The answer of a start and of a whole operation, and what they record; litter and all else stay. */
static void test_refused(lurgabel_operation o, lurgabel_answer refusal, const char *what) {
    lurgabel_controller c = littered();
    lurgabel_controller whole = c;
    lurgabel_controller expected = c;
    uint32_t bits = 1;
    expected.recorded = LURGABEL_RECORDED(refusal);
    expected.last_address = o.address;
    check(lurgabel_start(&c, o) == refusal && same(&expected, &c), what);
    check(lurgabel_run(&whole, image, IMAGE_WORDS, o, buffer, LURGABEL_MAX_COUNT, &bits) == refusal && bits == 0, what);
    check(same(&expected, &whole), what);
    check(lurgabel_clear_errors(&c) == LURGABEL_ACCEPTED && c.recorded == 0 && c.last_address == 0, what);
}

/* What is over 255 counts as 255, also where its low bits are those of a right value. */
static void test_large_fields(void) {
    static const uint32_t large[] = {256, 257, 258, 259, 300, 0x10000, 0x80000000u, 0xFFFFFFFFu};
    size_t i;
    for (i = 0; i < sizeof large / sizeof large[0]; i++) {
        lurgabel_operation of_data = operation(LURGABEL_READ, LURGABEL_DATA, large[i], 0x40, 4);
        lurgabel_controller c = ready();
        lurgabel_controller expected = c;
        test_refused(on_data(large[i], 0x40, 4), LURGABEL_MALFORMED, "large kind");
        test_refused(operation(LURGABEL_READ, large[i], 0, 0x40, 4), LURGABEL_MALFORMED, "large partition");
        test_refused(operation(LURGABEL_BANK_ERASE, large[i], 0, 0x40, 4), LURGABEL_MALFORMED, "large partition");
        test_refused(operation(LURGABEL_READ, LURGABEL_INFORMATION, large[i], 0x40, 4), LURGABEL_MALFORMED,
                     "large type");
        check_at(lurgabel_run(&c, image, IMAGE_WORDS, of_data, buffer, 4, NULL) == LURGABEL_ACCEPTED &&
                     same(&expected, &c), "large type of a whole data operation", i);
        expected.progress.operation = operation(LURGABEL_READ, LURGABEL_DATA, 255, 0x40, 4);
        expected.progress.readable = 4;
        expected.progress.running = 1;
        check_at(lurgabel_start(&c, of_data) == LURGABEL_ACCEPTED && same(&expected, &c),
                 "large type of a data operation", i);
    }
}

void test_operation_fields(void) {
    test_refused(on_data(4, 0x40, 4), LURGABEL_MALFORMED, "kind 4");
    test_refused(on_data(255, 0x40, 4), LURGABEL_MALFORMED, "kind 255");
    test_refused(operation(LURGABEL_READ, 2, 0, 0x40, 4), LURGABEL_MALFORMED, "partition 2");
    test_refused(operation(LURGABEL_READ, 1, 3, 0x40, 4), LURGABEL_MALFORMED, "type 3");
    test_refused(on_data(LURGABEL_READ, 2, 1), LURGABEL_MALFORMED, "address 2");
    test_refused(on_data(LURGABEL_READ, 0, 0), LURGABEL_MALFORMED, "count 0");
    test_refused(on_data(LURGABEL_READ, 0, 1025), LURGABEL_MALFORMED, "count 1,025");
    test_refused(on_data(LURGABEL_READ, 0x7FFC, 2), LURGABEL_OUT_OF_RANGE, "past the last page");
    test_refused(on_data(LURGABEL_READ, 0xFFFFFFFCu, 1), LURGABEL_OUT_OF_RANGE, "last address");
    test_refused(operation(LURGABEL_READ, 1, 1, 0x400, 1), LURGABEL_OUT_OF_RANGE, "type 1 at 0x0400");
    test_refused(on_data(LURGABEL_PROGRAM, 0x3C, 2), LURGABEL_CROSSES_WINDOW, "two windows");
    test_refused(on_data(LURGABEL_BANK_ERASE, 0x4000, 0), LURGABEL_DENIED, "bank erase without permission");
    test_large_fields();
}
