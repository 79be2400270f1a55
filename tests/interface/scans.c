/* A write and a take of a scan: the words that they leave, what they give, what they refuse, and which pages serve. */
#include "tests.h"

/* ---- slots, made by hand --------------------------------------------------------------------------------------- */

uint32_t *slot(uint32_t page, uint32_t number) {
    return image + LURGABEL_IMAGE_WORD(16u, page * LURGABEL_PAGE_BYTES) + number * SLOT_WORDS;
}

void put_bytes(uint32_t *at, const uint8_t *bytes, size_t count) {
    size_t i;
    for (i = 0; i < PAYLOAD_BYTES; i++) {
        uint32_t byte = i < count ? bytes[i] : 0xFFu, shift = 8u * (uint32_t)(i % 4);
        at[2 + i / 4] = (at[2 + i / 4] & ~(0xFFu << shift)) | byte << shift;
    }
}

/* A number in groups of seven bits, lowest first, with the top bit on all but the last. Gives how many there are. */
static size_t groups_of(uint32_t number, uint8_t *groups) {
    size_t count = 0;
    while (number >= 128) {
        groups[count++] = (uint8_t)(number % 128 + 128);
        number /= 128;
    }
    groups[count++] = (uint8_t)number;
    return count;
}

void put_scan(uint32_t *at, uint32_t mark, uint32_t serial, const uint8_t *bytes, size_t length) {
    uint8_t payload[PAYLOAD_BYTES];
    size_t count = groups_of(serial, payload);
    count += groups_of((uint32_t)length, payload + count);
    memcpy(payload + count, bytes, length);
    put_bytes(at, payload, count + length);
    at[0] = 0;
    at[1] = mark;
}

void put_page(uint32_t page, uint32_t mark, uint32_t first_serial) {
    uint32_t number;
    for (number = 0; number < LURGABEL_SCAN_SLOTS; number++) {
        uint8_t byte = (uint8_t)(page + number);
        put_scan(slot(page, number), mark, first_serial + number, &byte, 1);
    }
}

/* ---- calls ----------------------------------------------------------------------------------------------------- */

/* Forty-nine bytes, one more than a scan may have. */
const uint8_t sample[LURGABEL_SCAN_BYTES + 1] = {
    0,  255, 128, 127, 1,  2,  3,  4,  5,  6,  7,  8,  9,  10, 11, 12, 13, 14, 15, 16, 17, 18, 19, 20, 21,
    22, 23,  24,  25,  26, 27, 28, 29, 30, 31, 32, 33, 34, 35, 36, 37, 38, 39, 40, 41, 42, 43, 0,  255,
};

lurgabel_answer write_to_queue(lurgabel_controller *c, size_t length) {
    return lurgabel_write_scan(c, image, IMAGE_WORDS, LOW, HIGH, sample, length);
}

lurgabel_answer take_from_queue(lurgabel_controller *c, lurgabel_scan *scan) {
    return lurgabel_take_scan(c, image, IMAGE_WORDS, LOW, HIGH, scan);
}

/* What the image should be. */
static uint32_t expected[IMAGE_WORDS];

static void expect_image(void) {
    memcpy(expected, image, sizeof expected);
}

static bool image_as_expected(void) {
    return memcmp(expected, image, sizeof expected) == 0;
}

static uint32_t *expected_slot(uint32_t page, uint32_t number) {
    return expected + (slot(page, number) - image);
}

/* Ready, with an error recorded, which no scan touches. */
static lurgabel_controller with_record(void) {
    lurgabel_controller c = ready();
    c.recorded = LURGABEL_RECORDED(LURGABEL_DENIED);
    c.last_address = 0x1234;
    return c;
}

/* ---- words and values ------------------------------------------------------------------------------------------ */

/* A write changes its slot alone, and leaves the controller ready. */
static void test_words(uint32_t sealed, size_t length, const char *what) {
    lurgabel_controller c = with_record();
    const lurgabel_controller before = c;
    lurgabel_blank_image(image, IMAGE_WORDS);
    put_scan(slot(HIGH, 15), TAKEN, sealed, sample, 48);
    expect_image();
    put_scan(expected_slot(LOW, 0), WAITING, sealed + 1, sample, length);
    check(write_to_queue(&c, length) == LURGABEL_ACCEPTED && image_as_expected(), what);
    check(same(&before, &c), what);
}

static bool is_scan(const lurgabel_scan *scan, uint32_t serial, size_t length) {
    uint8_t bytes[LURGABEL_SCAN_BYTES];
    memset(bytes, 0, sizeof bytes);
    memcpy(bytes, sample, length);
    return scan->serial == serial && scan->length == length && memcmp(scan->bytes, bytes, sizeof bytes) == 0;
}

/* A take changes the mark alone, and gives 48 bytes, zeros past the length. */
static void test_value(uint32_t serial, size_t length, const char *what) {
    lurgabel_controller c = with_record();
    const lurgabel_controller before = c;
    lurgabel_scan scan;
    memset(&scan, 0xA5, sizeof scan);
    lurgabel_blank_image(image, IMAGE_WORDS);
    put_scan(slot(HIGH, 15), WAITING, serial, sample, length);
    expect_image();
    expected_slot(HIGH, 15)[1] = 0;
    check(take_from_queue(&c, &scan) == LURGABEL_ACCEPTED && is_scan(&scan, serial, length), what);
    check(image_as_expected() && same(&before, &c), what);
}

/* The words of the first scan, typed again. */
static void test_first_scan(void) {
    lurgabel_controller c = ready();
    uint32_t i, ones = 0;
    lurgabel_blank_image(image, IMAGE_WORDS);
    check(write_to_queue(&c, 3) == LURGABEL_ACCEPTED, "first scan");
    check(slot(LOW, 0)[0] == 0 && slot(LOW, 0)[1] == LURGABEL_ERASED, "its seal and its mark");
    check(slot(LOW, 0)[2] == 0xFF000301u && slot(LOW, 0)[3] == 0xFFFFFF80u, "its serial, its length and its bytes");
    for (i = 4; i < SLOT_WORDS; i++) {
        ones += slot(LOW, 0)[i] == LURGABEL_ERASED;
    }
    check(ones == 12, "the rest is ones");
}

static void test_words_and_values(void) {
    static const uint32_t serials[] = {1, 127, 128, 16383, 16384, 2097151, 2097152, 268435455};
    static const size_t lengths[] = {1, 2, 3, 47, 48};
    size_t i, k;
    for (i = 0; i < sizeof serials / sizeof serials[0]; i++) {
        for (k = 0; k < sizeof lengths / sizeof lengths[0]; k++) {
            test_words(serials[i] - 1, lengths[k], "words of a scan");
            test_value(serials[i], lengths[k], "value of a scan");
        }
    }
    test_value(0, 1, "serial 0");
    test_first_scan();
}

/* ---- serials --------------------------------------------------------------------------------------------------- */

static void check_next_serial(uint32_t serial, const char *what) {
    lurgabel_controller c = ready();
    lurgabel_scan scan, last;
    memset(&last, 0, sizeof last);
    check(write_to_queue(&c, 1) == LURGABEL_ACCEPTED, what);
    while (take_from_queue(&c, &scan) == LURGABEL_ACCEPTED) {
        last = scan;
    }
    check(is_scan(&last, serial, 1), what);
}

/* One above the highest sealed one, whether it waits, is taken or neither; a dead one does not count. */
static void test_serials(void) {
    lurgabel_blank_image(image, IMAGE_WORDS);
    check_next_serial(1, "first serial");
    check_next_serial(2, "second serial");
    put_scan(slot(HIGH, 3), WAITING, 40, sample, 1);
    check_next_serial(41, "above a waiting one");
    put_scan(slot(HIGH, 4), TAKEN, 50, sample, 1);
    check_next_serial(51, "above a taken one");
    put_scan(slot(HIGH, 5), 0xFFFF0000u, 60, sample, 1);
    check_next_serial(61, "above one with an odd mark");
    put_scan(slot(HIGH, 6), WAITING, 70, sample, 1);
    slot(HIGH, 6)[0] = 1;
    check_next_serial(62, "a dead one");
    lurgabel_blank_image(image, IMAGE_WORDS);
    put_scan(slot(LOW, 0), TAKEN, 0, sample, 1);
    check_next_serial(1, "above serial 0");
}

/* It is settled before the erase: the page that goes had the highest. */
static void test_serial_before_erase(void) {
    lurgabel_controller c = ready();
    lurgabel_blank_image(image, IMAGE_WORDS);
    put_page(LOW, TAKEN, 100);
    put_page(HIGH, WAITING, 1);
    expect_image();
    lurgabel_blank_image(expected_slot(LOW, 0), LURGABEL_PAGE_WORDS);
    put_scan(expected_slot(LOW, 0), WAITING, 116, sample, 48);
    check(write_to_queue(&c, 48) == LURGABEL_ACCEPTED && image_as_expected(), "serial after an erase");
}

/* ---- refusals -------------------------------------------------------------------------------------------------- */

/* A call, with all its steps and with none: refused it is not cut, gives no scan and leaves everything. */
typedef struct asked {
    lurgabel_controller c;
    uint32_t page, other_page;
    size_t length;
} asked;

static asked ask(lurgabel_controller c, uint32_t page, uint32_t other_page, size_t length) {
    asked a;
    a.c = c;
    a.page = page;
    a.other_page = other_page;
    a.length = length;
    return a;
}

static void check_write_refused(asked a, uint32_t steps, lurgabel_answer answer, const char *what) {
    const lurgabel_controller before = a.c;
    uint32_t cut = 77;
    expect_image();
    check_at(lurgabel_write_scan_for(&a.c, image, IMAGE_WORDS, a.page, a.other_page, sample, a.length, steps,
                                     &cut) == answer && cut == 0, what, steps);
    check_at(same(&before, &a.c) && image_as_expected(), what, steps);
}

static void check_take_refused(asked a, uint32_t steps, lurgabel_answer answer, const char *what) {
    const lurgabel_controller before = a.c;
    lurgabel_scan scan;
    uint32_t cut = 77;
    memset(&scan, 0xA5, sizeof scan);
    expect_image();
    check_at(lurgabel_take_scan_for(&a.c, image, IMAGE_WORDS, a.page, a.other_page, &scan, steps, &cut) == answer &&
                 cut == 0 && is_scan(&scan, 0, 0), what, steps);
    check_at(same(&before, &a.c) && image_as_expected(), what, steps);
}

static void test_write_refused(asked a, lurgabel_answer answer, const char *what) {
    check_write_refused(a, UINT32_MAX, answer, what);
    check_write_refused(a, 0, answer, what);
}

static void test_take_refused(asked a, lurgabel_answer answer, const char *what) {
    check_take_refused(a, UINT32_MAX, answer, what);
    check_take_refused(a, 0, answer, what);
}

static void test_both_refused(asked a, lurgabel_answer answer, const char *what) {
    test_write_refused(a, answer, what);
    test_take_refused(a, answer, what);
}

/* Each of 1 to 4 with the same page twice and a length that is too large. */
static void test_states_refused(void) {
    lurgabel_controller c = with_record();
    test_both_refused(ask(zeros(), LOW, LOW, 49), LURGABEL_INVALID, "no state");
    test_both_refused(ask(disabled(), LOW, LOW, 49), LURGABEL_DISABLED, "disabled");
    test_both_refused(ask(uninitialised(), LOW, LOW, 49), LURGABEL_UNINITIALISED, "uninitialised");
    test_both_refused(ask(programming(), LOW, LOW, 49), LURGABEL_BUSY, "a program in progress");
    test_both_refused(ask(erasing_page(), LOW, LOW, 49), LURGABEL_BUSY, "an erase in progress");
    c.read_queue.length = 1;
    test_both_refused(ask(c, LOW, LOW, 49), LURGABEL_BUSY, "a word in the read queue");
}

/* 16 before 18, 17 and 19; 18 before 17. */
static void test_order_of_refusals(void) {
    const lurgabel_controller c = with_record();
    lurgabel_blank_image(image, IMAGE_WORDS);
    test_states_refused();
    test_both_refused(ask(c, LOW, LOW, 49), LURGABEL_BAD_PAGES, "the same page before its length, and empty");
    test_write_refused(ask(c, LOW, HIGH, 0), LURGABEL_BAD_SCAN, "length 0");
    test_write_refused(ask(c, LOW, HIGH, 49), LURGABEL_BAD_SCAN, "length 49");
    test_take_refused(ask(c, LOW, HIGH, 0), LURGABEL_NO_SCAN, "nothing waits");
    put_page(LOW, WAITING, 1);
    put_page(HIGH, WAITING, 17);
    test_write_refused(ask(c, LOW, LOW, 1), LURGABEL_BAD_PAGES, "the same page, full");
    test_write_refused(ask(c, LOW, HIGH, 49), LURGABEL_BAD_SCAN, "length 49 to a full queue");
    test_write_refused(ask(c, LOW, HIGH, 48), LURGABEL_SCANS_FULL, "full");
    test_states_refused();
    put_page(HIGH, WAITING, 268435440);
    test_write_refused(ask(c, LOW, HIGH, 1), LURGABEL_BAD_SCAN, "no serial left, and full");
    put_page(HIGH, TAKEN, 268435440);
    test_write_refused(ask(c, LOW, HIGH, 1), LURGABEL_BAD_SCAN, "no serial left, before an erase");
    lurgabel_blank_image(slot(LOW, 0), LURGABEL_PAGE_WORDS);
    test_write_refused(ask(c, LOW, HIGH, 1), LURGABEL_BAD_SCAN, "no serial left, and a page unused");
    test_take_refused(ask(c, LOW, HIGH, 0), LURGABEL_NO_SCAN, "all are taken");
}

/* ---- pages ----------------------------------------------------------------------------------------------------- */

static void test_bad_pages(lurgabel_controller c, uint32_t page, uint32_t other_page, const char *what) {
    test_both_refused(ask(c, page, other_page, 1), LURGABEL_BAD_PAGES, what);
    test_both_refused(ask(c, other_page, page, 1), LURGABEL_BAD_PAGES, what);
}

/* A scan is written to the lower page and taken out of it, in whatever order the pages are named. */
static void test_good_pages(lurgabel_controller c, uint32_t low, uint32_t high, const char *what) {
    lurgabel_scan scan;
    lurgabel_blank_image(image, IMAGE_WORDS);
    expect_image();
    put_scan(expected_slot(low, 0), WAITING, 1, sample, 48);
    check(lurgabel_write_scan(&c, image, IMAGE_WORDS, high, low, sample, 48) == LURGABEL_ACCEPTED &&
              image_as_expected(), what);
    check(lurgabel_take_scan(&c, image, IMAGE_WORDS, low, high, &scan) == LURGABEL_ACCEPTED && is_scan(&scan, 1, 48),
          what);
    check(lurgabel_write_scan(&c, image, IMAGE_WORDS, low, high, sample, 48) == LURGABEL_ACCEPTED &&
              slot(low, 1)[0] == 0, what);
    check(lurgabel_take_scan(&c, image, IMAGE_WORDS, high, low, &scan) == LURGABEL_ACCEPTED && is_scan(&scan, 2, 48),
          what);
}

static void test_pages_that_are_there(void) {
    lurgabel_blank_image(image, IMAGE_WORDS);
    test_bad_pages(ready(), 0, 0, "the same page");
    test_bad_pages(ready(), 0, 32, "page 2D");
    test_bad_pages(ready(), 31, 0xFFFFFFFFu, "the largest number");
    test_bad_pages(ready(), 32, 33, "two pages past the end");
    test_good_pages(ready(), 0, 1, "the first pages");
    test_good_pages(ready(), 30, 31, "the last pages");
    test_good_pages(ready(), 0, 31, "a page in each bank");
    test_good_pages(ready(), 15, 16, "the two sides of the banks' border");
}

/* Whose rights they are does not matter, and the banks' permissions do not either. */
static void test_rights_of_pages(void) {
    lurgabel_controller c = ready();
    uint32_t rights;
    for (rights = 0; rights < LURGABEL_ALL_RIGHTS; rights++) {
        c = ready();
        c.bank_erase[0] = c.bank_erase[1] = 1;
        c.default_rights = rights;
        test_bad_pages(c, LOW, HIGH, "a right that the default lacks");
        c.regions[7] = region(HIGH, 1, 1, LURGABEL_ALL_RIGHTS);
        test_bad_pages(c, LOW, HIGH, "a right that one page lacks");
        c.default_rights = LURGABEL_ALL_RIGHTS;
        c.regions[6] = region(HIGH, 1, 1, rights);
        test_bad_pages(c, LOW, HIGH, "a right that the lowest region lacks");
    }
    c = locked();
    c.regions[0] = region(LOW, HIGH - LOW + 1, 1, LURGABEL_ALL_RIGHTS);
    test_good_pages(c, LOW, HIGH, "a region over both");
}

/* With 10 data pages bank 1 begins at page 10, and page 20 is no more. */
static void test_pages_of_10(void) {
    lurgabel_controller c = ready();
    const size_t words = LURGABEL_IMAGE_WORDS(10);
    c.data_pages = 10;
    lurgabel_blank_image(image, IMAGE_WORDS);
    check(lurgabel_write_scan(&c, image, words, 11, 20, sample, 1) == LURGABEL_BAD_PAGES, "page 20 of 20");
    check(lurgabel_write_scan(&c, image, words, 19, 10, sample, 1) == LURGABEL_ACCEPTED &&
              image[LURGABEL_IMAGE_WORD(10u, 10u * LURGABEL_PAGE_BYTES)] == 0, "page 10 of 20");
}

/* ---- places that are not there --------------------------------------------------------------------------------- */

static void test_no_places(void) {
    lurgabel_controller c = ready();
    lurgabel_scan scan;
    lurgabel_blank_image(image, IMAGE_WORDS);
    check(lurgabel_write_scan(&c, image, IMAGE_WORDS, LOW, HIGH, NULL, 0) == LURGABEL_BAD_SCAN, "no bytes");
    check(lurgabel_write_scan_for(&c, image, IMAGE_WORDS, LOW, HIGH, sample, 1, 15, NULL) == LURGABEL_ACCEPTED,
          "a write with no place for the cut");
    check(lurgabel_take_scan_for(&c, image, IMAGE_WORDS, LOW, HIGH, &scan, 1, NULL) == LURGABEL_ACCEPTED &&
              is_scan(&scan, 1, 1), "a take with no place for the cut");
    check(take_from_queue(&c, NULL) == LURGABEL_NO_SCAN, "a refused take with no place for the scan");
    check(write_to_queue(&c, 2) == LURGABEL_ACCEPTED && take_from_queue(&c, NULL) == LURGABEL_ACCEPTED,
          "a take with no place for the scan");
    check(take_from_queue(&c, &scan) == LURGABEL_NO_SCAN && is_scan(&scan, 0, 0), "it is taken all the same");
}

void test_scans(void) {
    test_words_and_values();
    test_serials();
    test_serial_before_erase();
    test_order_of_refusals();
    test_pages_that_are_there();
    test_rights_of_pages();
    test_pages_of_10();
    test_no_places();
}
