/* The slots of the scan queue: what each is, which scan is the oldest, and where a new one goes. */
#include "tests.h"

/* ---- what a slot is -------------------------------------------------------------------------------------------- */

/* The next take gives the scan with this serial, and 0 stands for none. */
static uint32_t next_taken(lurgabel_controller *c) {
    lurgabel_scan scan;
    lurgabel_answer answer = take_from_queue(c, &scan);
    check(answer == LURGABEL_ACCEPTED || (answer == LURGABEL_NO_SCAN && scan.serial == 0), "take");
    return scan.serial;
}

/* A slot of which no take hands anything out, and to which no write goes. */
static void check_holds_none(bool sealed, const char *what) {
    lurgabel_controller c = ready();
    const uint32_t serial = sealed ? 8 : 1;
    check(next_taken(&c) == 0, what);
    check(write_to_queue(&c, 1) == LURGABEL_ACCEPTED && slot(LOW, 1)[0] == 0 && next_taken(&c) == serial, what);
}

static void begin_slot(const uint8_t *bytes, size_t count) {
    lurgabel_blank_image(image, IMAGE_WORDS);
    put_bytes(slot(LOW, 0), bytes, count);
    slot(LOW, 0)[0] = 0;
}

static void check_dead(const uint8_t *bytes, size_t count, const char *what) {
    begin_slot(bytes, count);
    check_holds_none(false, what);
}

/* The first bytes of words 2 to 15, and whether a scan waits there. */
static void test_payloads(void) {
    static const uint8_t whole[] = {7, 1, 0};
    static const uint8_t blank[] = {255};
    static const uint8_t long_serial[] = {0x87, 0, 1, 0};
    static const uint8_t five_groups[] = {0x80, 0x80, 0x80, 0x80, 1, 1, 0};
    static const uint8_t no_length[] = {7, 0};
    static const uint8_t length_49[] = {7, 49};
    static const uint8_t long_length[] = {7, 0x81, 0, 0};
    static const uint8_t two_groups[] = {7, 0x81, 1, 0};
    static const uint8_t byte_behind[] = {7, 1, 0, 254};
    uint8_t last_behind[PAYLOAD_BYTES];
    lurgabel_controller c = ready();
    begin_slot(whole, sizeof whole);
    check(next_taken(&c) == 7, "a waiting scan");
    check_dead(blank, sizeof blank, "no serial");
    check_dead(long_serial, sizeof long_serial, "a serial that is not in its shortest form");
    check_dead(five_groups, sizeof five_groups, "a serial of five groups");
    check_dead(no_length, sizeof no_length, "length 0");
    check_dead(length_49, sizeof length_49, "length 49");
    check_dead(long_length, sizeof long_length, "a length that is not in its shortest form");
    check_dead(two_groups, sizeof two_groups, "a length of two groups");
    check_dead(byte_behind, sizeof byte_behind, "a byte behind the scan");
    memset(last_behind, 0xFF, sizeof last_behind);
    memcpy(last_behind, whole, sizeof whole);
    last_behind[PAYLOAD_BYTES - 1] = 0x7F;
    check_dead(last_behind, sizeof last_behind, "the last byte");
}

/* Seal and mark of the slot with serial 7. */
static void test_seal_and_mark(uint32_t seal, uint32_t mark, bool sealed, const char *what) {
    static const uint8_t whole[] = {7, 1, 0};
    begin_slot(whole, sizeof whole);
    slot(LOW, 0)[0] = seal;
    slot(LOW, 0)[1] = mark;
    check_holds_none(sealed, what);
}

static void test_seals_and_marks(void) {
    test_seal_and_mark(LURGABEL_ERASED, WAITING, false, "no seal");
    test_seal_and_mark(1, WAITING, false, "a seal of 1");
    test_seal_and_mark(0x80000000u, WAITING, false, "a seal with its top bit");
    test_seal_and_mark(0, TAKEN, true, "taken");
    test_seal_and_mark(0, 0xFFFFFFFEu, true, "a mark without its lowest bit");
    test_seal_and_mark(0, 1, true, "a mark of 1");
}

/* One bit less in any word of a blank slot, and it is not unused. */
static void test_nearly_blank(void) {
    uint32_t word;
    for (word = 0; word < SLOT_WORDS; word++) {
        lurgabel_blank_image(image, IMAGE_WORDS);
        slot(LOW, 0)[word] = 0xFFFFFFFFu ^ (1u << word);
        check_holds_none(false, "nearly blank");
    }
}

/* ---- order ----------------------------------------------------------------------------------------------------- */

/* The lowest serial first; of equal ones the lower page, and then the lower slot. */
static void test_order(void) {
    static const uint8_t handed_out[] = {6, 5, 1, 2, 3, 4};
    lurgabel_controller c = ready();
    lurgabel_scan scan;
    uint8_t i;
    lurgabel_blank_image(image, IMAGE_WORDS);
    for (i = 1; i <= 4; i++) {
        put_scan(slot(i <= 2 ? LOW : HIGH, i % 2 ? 3 : 15), WAITING, 200, &i, 1);
    }
    put_scan(slot(LOW, 0), WAITING, 150, &i, 1);
    i = 6;
    put_scan(slot(HIGH, 7), WAITING, 127, &i, 1);
    for (i = 0; i < sizeof handed_out; i++) {
        check_at(take_from_queue(&c, &scan) == LURGABEL_ACCEPTED && scan.bytes[0] == handed_out[i], "order", i);
    }
    check(take_from_queue(&c, &scan) == LURGABEL_NO_SCAN, "all handed out");
}

/* ---- room ------------------------------------------------------------------------------------------------------ */

static void check_written_to(uint32_t page, uint32_t number, const char *what) {
    lurgabel_controller c = ready();
    uint32_t *at = slot(page, number);
    check(write_to_queue(&c, 48) == LURGABEL_ACCEPTED, what);
    check(at[0] == 0 && at[1] == WAITING && at[15] != 0, what);
}

static uint32_t blank_words(uint32_t page) {
    uint32_t i, count = 0;
    for (i = 0; i < LURGABEL_PAGE_WORDS; i++) {
        count += slot(page, 0)[i] == LURGABEL_ERASED;
    }
    return count;
}

static void kill_slot(uint32_t page, uint32_t number) {
    lurgabel_blank_image(slot(page, number), SLOT_WORDS);
    slot(page, number)[5] = 0;
}

static void kill_page(uint32_t page) {
    uint32_t number;
    for (number = 0; number < LURGABEL_SCAN_SLOTS; number++) {
        kill_slot(page, number);
    }
}

static void full_queue(void) {
    lurgabel_blank_image(image, IMAGE_WORDS);
    put_page(LOW, WAITING, 1);
    put_page(HIGH, WAITING, 17);
}

/* The unused slot of lowest place, also where both pages have scans waiting. */
static void test_unused(void) {
    full_queue();
    lurgabel_blank_image(slot(HIGH, 15), SLOT_WORDS);
    check_written_to(HIGH, 15, "the last slot");
    full_queue();
    lurgabel_blank_image(slot(HIGH, 2), SLOT_WORDS);
    lurgabel_blank_image(slot(LOW, 9), SLOT_WORDS);
    lurgabel_blank_image(slot(LOW, 11), SLOT_WORDS);
    check_written_to(LOW, 9, "the lowest of three");
    check(slot(LOW, 11)[0] == LURGABEL_ERASED && slot(HIGH, 2)[0] == LURGABEL_ERASED, "and no other");
}

/* The page that is erased has the new scan alone. */
static void check_erased(uint32_t page, const char *what) {
    check_written_to(page, 0, what);
    check(blank_words(page) >= LURGABEL_PAGE_WORDS - SLOT_WORDS + 1, what);
}

/* Taken, dead and odd slots do not keep a page; one that waits does. */
static void test_erases(void) {
    full_queue();
    put_page(LOW, TAKEN, 1);
    check_erased(LOW, "the lower page, all taken");
    check(blank_words(HIGH) < LURGABEL_PAGE_WORDS - SLOT_WORDS + 1, "and not the higher");
    full_queue();
    put_page(HIGH, TAKEN, 17);
    check_erased(HIGH, "the higher page, all taken");
    full_queue();
    put_page(HIGH, TAKEN, 17);
    put_page(LOW, 0x0000FFFFu, 1);
    check_erased(LOW, "the lower page of two, with odd marks");
    full_queue();
    kill_page(LOW);
    check_erased(LOW, "the lower page, all dead");
}

/* One scan that waits in each page, and 30 dead slots. */
static void test_full(void) {
    lurgabel_controller c = ready();
    uint8_t byte = 0;
    lurgabel_blank_image(image, IMAGE_WORDS);
    kill_page(LOW);
    kill_page(HIGH);
    put_scan(slot(LOW, 15), WAITING, 3, &byte, 1);
    put_scan(slot(HIGH, 0), WAITING, 2, &byte, 1);
    check(write_to_queue(&c, 1) == LURGABEL_SCANS_FULL, "full of dead slots");
    check(next_taken(&c) == 2, "the scan of the higher page");
    check_erased(HIGH, "the higher page, which has none waiting now");
    check(next_taken(&c) == 3 && next_taken(&c) == 4 && next_taken(&c) == 0, "both scans");
}

/* Thirty-two scans have room, not one more, and come out as they went in. */
static void test_capacity(void) {
    lurgabel_controller c = ready();
    uint32_t i;
    lurgabel_blank_image(image, IMAGE_WORDS);
    for (i = 1; i <= 2 * LURGABEL_SCAN_SLOTS; i++) {
        check_at(write_to_queue(&c, i) == LURGABEL_ACCEPTED, "a write with room", i);
    }
    check(write_to_queue(&c, 1) == LURGABEL_SCANS_FULL, "a write without room");
    for (i = 1; i <= 2 * LURGABEL_SCAN_SLOTS; i++) {
        check_at(next_taken(&c) == i, "taken in order", i);
    }
    check(next_taken(&c) == 0, "empty");
}

void test_slots(void) {
    test_payloads();
    test_seals_and_marks();
    test_nearly_blank();
    test_order();
    test_unused();
    test_erases();
    test_full();
    test_capacity();
}
