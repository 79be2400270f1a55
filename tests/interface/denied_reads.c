/* Reads that run into a denied page: their words, what they record, who decided, and their states. */
#include "tests.h"

/* ---- a read, and all that is told of it ------------------------------------------------------------------------- */

/* How many words of a read are the stored ones, the address of the next one, and who denies its page. Of a read that is
 * allowed it is every word, and nobody denies. */
typedef struct judged_read {
    lurgabel_operation operation;
    uint32_t readable, denied_address;
    lurgabel_decider by;
} judged_read;

static judged_read judged(lurgabel_operation o, uint32_t readable, uint32_t denied_address, lurgabel_decider by) {
    judged_read read;
    read.operation = o;
    read.readable = readable;
    read.denied_address = denied_address;
    read.by = by;
    return read;
}

static judged_read allowed(lurgabel_operation o) {
    return judged(o, o.count, 0, LURGABEL_NO_DECIDER);
}

/* No two words are the same, and none is erased. */
static void fill_image(void) {
    uint32_t i;
    for (i = 0; i < IMAGE_WORDS; i++) {
        image[i] = 0xC0DE0000u + i;
    }
}

static void check_image_kept(void) {
    uint32_t i = 0;
    while (i < IMAGE_WORDS && image[i] == 0xC0DE0000u + i) {
        i++;
    }
    check_at(i == IMAGE_WORDS, "a read leaves the image", i);
}

static uint32_t word_of(const judged_read *read, uint32_t data_pages, uint32_t k) {
    uint32_t address = read->operation.address + 4 * k;
    if (k >= read->readable) {
        return LURGABEL_ERASED;
    }
    return image[read->operation.partition == LURGABEL_DATA
                     ? LURGABEL_IMAGE_WORD(data_pages, address)
                     : LURGABEL_IMAGE_INFO_WORD(data_pages, read->operation.info_type, address)];
}

/* What is left of it once it is finished and drained: its record. */
static lurgabel_controller left_by(const judged_read *read, lurgabel_controller c) {
    if (read->by != LURGABEL_NO_DECIDER) {
        c.recorded |= LURGABEL_RECORDED(LURGABEL_DENIED);
        c.last_address = read->denied_address;
    }
    return c;
}

static lurgabel_controller started(const judged_read *read, lurgabel_controller c) {
    c = left_by(read, c);
    c.progress.operation = read->operation;
    c.progress.readable = read->readable;
    c.progress.running = 1;
    return c;
}

static bool steps_to(lurgabel_controller *c, lurgabel_movement expected) {
    lurgabel_movement movement = LURGABEL_NONE;
    uint32_t bits = 1;
    return lurgabel_step(c, image, LURGABEL_IMAGE_WORDS(c->data_pages), &movement, &bits) == LURGABEL_ACCEPTED &&
           movement == expected && bits == 0;
}

static bool pops(lurgabel_controller *c, uint32_t expected) {
    uint32_t word = ~expected;
    return lurgabel_pop(c, &word) == LURGABEL_ACCEPTED && word == expected;
}

/* A step and a pop for each word: how many words come as they should before one does not. */
static uint32_t right_words(const judged_read *read, lurgabel_controller *c) {
    const uint32_t count = read->operation.count;
    uint32_t k = 0;
    while (k < count && steps_to(c, k + 1 < count ? LURGABEL_MOVED : LURGABEL_FINISHED) &&
           pops(c, word_of(read, c->data_pages, k))) {
        k++;
    }
    return k;
}

static void test_by_steps(const judged_read *read, lurgabel_controller c, const char *what, size_t element) {
    const lurgabel_controller begun = started(read, c), left = left_by(read, c);
    lurgabel_decider by = UNWRITTEN;
    lurgabel_answer answer = lurgabel_start_by(&c, read->operation, &by);
    check_at(told(answer, by, read->by), what, element);
    check_at(same(&begun, &c), what, element);
    check_at(right_words(read, &c) == read->operation.count, what, element);
    check_at(same(&left, &c), what, element);
}

/* The buffer is longer than the read, and keeps its last two words. */
static void test_whole(const judged_read *read, lurgabel_controller c, const char *what, size_t element) {
    static uint32_t words[LURGABEL_MAX_COUNT + 2];
    const lurgabel_controller left = left_by(read, c);
    const uint32_t count = read->operation.count;
    lurgabel_decider by = UNWRITTEN;
    lurgabel_answer answer;
    uint32_t bits = 1, k = 0;
    memset(words, 0xA5, sizeof words);
    answer = lurgabel_run_by(&c, image, LURGABEL_IMAGE_WORDS(c.data_pages), read->operation, words, count + 2, &bits,
                             &by);
    check_at(told(answer, by, read->by) && bits == 0, what, element);
    check_at(same(&left, &c), what, element);
    while (k < count && words[k] == word_of(read, c.data_pages, k)) {
        k++;
    }
    check_at(k == count && words[count] == 0xA5A5A5A5u && words[count + 1] == 0xA5A5A5A5u, what, element);
}

/* No other number of readable words is a state of the controller. */
static void test_readable(const judged_read *read, lurgabel_controller c, const char *what, size_t element) {
    const uint32_t count = read->operation.count, readable = read->readable;
    const uint32_t numbers[] = {readable, 0, readable - 1, readable + 1, count - 1, count, count + 1};
    size_t i;
    for (i = 0; i < sizeof numbers / sizeof numbers[0]; i++) {
        lurgabel_controller state = started(read, c);
        state.progress.readable = numbers[i];
        check_at(lurgabel_clear_errors(&state) == (numbers[i] == readable ? LURGABEL_ACCEPTED : LURGABEL_INVALID), what,
                 element);
    }
}

static void test_read_at(judged_read read, lurgabel_controller c, const char *what, size_t element) {
    test_by_steps(&read, c, what, element);
    test_whole(&read, c, what, element);
    test_readable(&read, c, what, element);
}

static void test_read(judged_read read, lurgabel_controller c, const char *what) {
    test_read_at(read, c, what, 0);
}

/* ---- data pages ------------------------------------------------------------------------------------------------- */

/* Every data page may be read but these, which region 3 holds. */
static lurgabel_controller closed(uint32_t first_page, uint32_t page_count) {
    lurgabel_controller c = ready();
    c.regions[3] = region(first_page, page_count, 1, LURGABEL_CAN_PROGRAM | LURGABEL_CAN_ERASE);
    return c;
}

static judged_read of_data(uint32_t address, uint32_t count, uint32_t readable, uint32_t denied_address) {
    return judged(on_data(LURGABEL_READ, address, count), readable, denied_address, LURGABEL_BY_REGION_3);
}

/* Page 2 ends with the word at 0xBFC. */
static void test_data_pages(void) {
    test_read(of_data(0xBF4, 3, 0, 0xBF4), closed(2, 1), "the only page");
    test_read(of_data(0xBF8, 5, 0, 0xBF8), closed(2, 1), "the first of two pages");
    test_read(of_data(0xBF8, 5, 2, 0xC00), closed(3, 1), "the last of two pages");
    test_read(of_data(0xBF8, 5, 0, 0xBF8), closed(2, 2), "two of two pages");
    test_read(of_data(0xBF8, 261, 0, 0xBF8), closed(2, 1), "the first of three pages");
    test_read(of_data(0xBF8, 261, 2, 0xC00), closed(3, 1), "the middle of three pages");
    test_read(of_data(0xBF8, 261, 258, 0x1000), closed(4, 1), "the last of three pages");
    test_read(of_data(0xBF8, 261, 2, 0xC00), closed(3, 2), "the last two of three pages");
    test_read(of_data(0xBFC, 1024, 1, 0xC00), closed(3, 1), "the second of five pages");
    test_read(of_data(0xBFC, 1024, 769, 0x1800), closed(6, 1), "the last of five pages");
    test_read(allowed(on_data(LURGABEL_READ, 0xBF8, 2)), closed(3, 1), "up to a denied page");
    test_read(allowed(on_data(LURGABEL_READ, 0x1000, 2)), closed(3, 1), "from behind a denied page on");
}

/* Data page 15 is bank 0's last one. */
static void test_bank_border(void) {
    lurgabel_controller before = closed(9, 1), behind = closed(10, 1);
    test_read(of_data(0x3FF8, 5, 0, 0x3FF8), closed(15, 1), "bank 0, and all of bank 1 with it");
    test_read(of_data(0x3FF8, 5, 2, 0x4000), closed(16, 1), "bank 1");
    test_read(of_data(0x3C00, 260, 256, 0x4000), closed(16, 1), "bank 1 after a whole page of bank 0");
    test_read(of_data(0x3BFC, 259, 1, 0x3C00), closed(15, 1), "bank 0 after a word of page 14");
    test_read(of_data(0x3BFC, 259, 257, 0x4000), closed(16, 1), "bank 1 after two pages of bank 0");
    test_read(of_data(0x3FFC, 258, 257, 0x4400), closed(17, 1), "bank 1 after a page of its own");
    before.data_pages = behind.data_pages = 10;
    test_read(of_data(0x27F8, 5, 0, 0x27F8), before, "bank 0 of 10 data pages");
    test_read(of_data(0x27F8, 5, 2, 0x2800), behind, "bank 1 of 10 data pages");
}

/* ---- information pages ------------------------------------------------------------------------------------------ */

static lurgabel_operation of_info(uint32_t info_type, uint32_t address, uint32_t count) {
    return operation(LURGABEL_READ, LURGABEL_INFORMATION, info_type, address, count);
}

static void test_info_pages(void) {
    const lurgabel_decider setting = LURGABEL_BY_PAGE_SETTING;
    lurgabel_controller c = open_everywhere();
    c.info_pages[LURGABEL_INFO_INDEX(0u, 0u, 5u)].on = 0;
    test_read(judged(of_info(0, 0x13F8, 259), 2, 0x1400, setting), c, "page 5 of bank 0 is off");
    test_read(judged(of_info(0, 0x17FC, 2), 0, 0x17FC, setting), c, "from page 5 of bank 0 on");
    test_read(allowed(of_info(0, 0x53F8, 259)), c, "page 5 of bank 1 is on");
    c = open_everywhere();
    c.info_pages[LURGABEL_INFO_INDEX(1u, 0u, 9u)].rights = LURGABEL_CAN_PROGRAM | LURGABEL_CAN_ERASE;
    test_read(judged(of_info(0, 0x5FFC, 513), 257, 0x6400, setting), c, "page 9 of bank 1 may not be read");
    c.info_pages[LURGABEL_INFO_INDEX(1u, 2u, 1u)].on = 0;
    test_read(judged(of_info(2, 0x43F4, 4), 3, 0x4400, setting), c, "page 1 of type 2 is off");
    test_read(allowed(of_info(2, 0x3F4, 4)), c, "page 1 of type 2 is on in bank 0");
}

/* Page 1 of bank 0 is the creator's, page 2 the owner's. */
static void test_seed_pages(void) {
    const lurgabel_decider lock = LURGABEL_BY_SEED_LOCK;
    lurgabel_controller c = open_everywhere();
    test_read(allowed(of_info(0, 0x3F8, 259)), c, "open seed pages");
    c.info_pages[2].on = 0;
    test_read(judged(of_info(0, 0x7FC, 2), 1, 0x800, LURGABEL_BY_PAGE_SETTING), c, "the owner's page is off");
    c = open_everywhere();
    c.seeds_locked = 1;
    test_read(judged(of_info(0, 0x3F8, 259), 2, 0x400, lock), c, "the creator's page is locked");
    test_read(allowed(of_info(0, 0x800, 257)), c, "the owner's page is open");
    test_read(allowed(of_info(0, 0x43F8, 259)), c, "page 1 of bank 1");
    c.provision_enabled = 0;
    test_read(judged(of_info(0, 0x3F8, 259), 2, 0x400, lock), c, "the creator's page without provision");
    test_read(judged(of_info(0, 0xBF8, 4), 0, 0xBF8, lock), c, "the owner's page without provision");
}

/* ---- the record and the queue ----------------------------------------------------------------------------------- */

/* The denial joins what is recorded, at the start and at no step. */
static void test_recorded_once(void) {
    const judged_read read = of_data(0xBF8, 5, 2, 0xC00);
    lurgabel_controller c = closed(3, 1), cleared = c;
    c.recorded = LURGABEL_RECORDED(LURGABEL_MALFORMED);
    c.last_address = 0x1236;
    test_read(read, c, "a second kind of error");
    check(lurgabel_start(&c, read.operation) == LURGABEL_DENIED && c.recorded == 0x220 && c.last_address == 0xC00,
          "recorded at the start");
    check(lurgabel_clear_errors(&c) == LURGABEL_ACCEPTED && right_words(&read, &c) == 5 && same(&cleared, &c),
          "and not again");
}

/* It waits while the queue is full, as every read does. */
static void test_waits(void) {
    const judged_read read = of_data(0xBF8, 18, 2, 0xC00);
    lurgabel_controller c = closed(3, 1);
    uint32_t k;
    check(lurgabel_start(&c, read.operation) == LURGABEL_DENIED, "a read of 18 words");
    for (k = 0; k < LURGABEL_QUEUE_WORDS; k++) {
        check_at(steps_to(&c, LURGABEL_MOVED) && c.read_queue.words[k] == word_of(&read, 16, k), "queued", k);
    }
    check(steps_to(&c, LURGABEL_STALLED) && c.progress.moved == 16, "the queue is full");
    check(pops(&c, word_of(&read, 16, 0)) && steps_to(&c, LURGABEL_MOVED), "room for one word");
    check(steps_to(&c, LURGABEL_STALLED) && c.progress.moved == 17, "the queue is full again");
    check(pops(&c, word_of(&read, 16, 1)) && steps_to(&c, LURGABEL_FINISHED), "room for the last word");
}

/* Checks 6 and 7 come first, also for the sake of words that would be ones. */
static void test_refused_before(void) {
    lurgabel_controller c = closed(3, 1), expected = c;
    lurgabel_decider by = UNWRITTEN;
    check(lurgabel_run_by(&c, image, IMAGE_WORDS, on_data(LURGABEL_READ, 0xBF8, 5), buffer, 4, NULL, &by) ==
              LURGABEL_SHORT_BUFFER && by == LURGABEL_NO_DECIDER && same(&expected, &c),
          "a buffer too short for the ones");
    c = expected = closed(31, 1);
    expected.recorded = LURGABEL_RECORDED(LURGABEL_OUT_OF_RANGE);
    expected.last_address = 0x7BFC;
    check(lurgabel_start_by(&c, on_data(LURGABEL_READ, 0x7BFC, 258), &by) == LURGABEL_OUT_OF_RANGE &&
              by == LURGABEL_NO_DECIDER && same(&expected, &c), "past the last page, over a denied one");
}

void test_denied_reads(void) {
    fill_image();
    test_data_pages();
    test_bank_border();
    test_info_pages();
    test_seed_pages();
    test_recorded_once();
    test_waits();
    test_refused_before();
    check_image_kept();
}

/* ---- the first denied page of every read ------------------------------------------------------------------------ */

/* The pages of a partition's type from an address on, and who denies reading each of them. */
typedef struct denied_pages {
    uint32_t partition, start, count;
    lurgabel_decider by[32];
} denied_pages;

/* From the last word of a page to the first one of another. */
static judged_read read_over(const denied_pages *pages, uint32_t first, uint32_t last) {
    uint32_t address = pages->start + first * 1024 + 1020, denied = first;
    lurgabel_operation o =
        operation(LURGABEL_READ, pages->partition, 0, address, first == last ? 1 : (last - first - 1) * 256 + 2);
    while (denied < last && pages->by[denied] == LURGABEL_NO_DECIDER) {
        denied++;
    }
    if (pages->by[denied] == LURGABEL_NO_DECIDER) {
        return allowed(o);
    }
    return denied == first ? judged(o, 0, address, pages->by[denied])
                           : judged(o, (denied - first - 1) * 256 + 1, pages->start + denied * 1024, pages->by[denied]);
}

/* Every read over as many pages as a read can cover. */
static void test_reads_over(lurgabel_controller c, const denied_pages *pages, const char *what) {
    uint32_t first, last;
    for (first = 0; first < pages->count; first++) {
        for (last = first; last < first + 5 && last < pages->count; last++) {
            test_read_at(read_over(pages, first, last), c, what, first * 32 + last);
        }
    }
}

/* Regions that overlap, one that is off, and pages that none holds, over both banks. */
static void test_first_denied_data_page(uint32_t default_rights, lurgabel_decider d) {
    const lurgabel_decider none = LURGABEL_NO_DECIDER, r1 = LURGABEL_BY_REGION_1, r2 = LURGABEL_BY_REGION_2,
                           r4 = LURGABEL_BY_REGION_4, r6 = LURGABEL_BY_REGION_6, r7 = LURGABEL_BY_REGION_7;
    const denied_pages pages = {
        LURGABEL_DATA, 0, 32,
        {d,  d,  r1, none, r1, r1, none, none, r2, r2, none, d, d, d, r4, r4,
         r4, r4, d,  r6,   r6, r6, d,    d,    d,  d,  d,    d, d, d, r7, r7},
    };
    lurgabel_controller c = locked();
    c.default_rights = default_rights;
    c.regions[0] = region(3, 1, 1, LURGABEL_CAN_READ);
    c.regions[1] = region(2, 4, 1, 0);
    c.regions[2] = region(8, 2, 1, LURGABEL_CAN_PROGRAM | LURGABEL_CAN_ERASE);
    c.regions[3] = region(4, 7, 1, LURGABEL_CAN_READ);
    c.regions[4] = region(14, 4, 1, 0);
    c.regions[5] = region(20, 4, 0, 0);
    c.regions[6] = region(19, 3, 1, LURGABEL_CAN_ERASE);
    c.regions[7] = region(30, 2, 1, 0);
    test_reads_over(c, &pages, "first denied data page");
}

/* Seed pages between others, in bank 0; bank 1 has none. */
static void test_first_denied_info_page(uint32_t bank, lurgabel_decider creator, lurgabel_decider owner,
                                        bool provision, bool locked_seeds) {
    const lurgabel_decider none = LURGABEL_NO_DECIDER, s = LURGABEL_BY_PAGE_SETTING;
    const denied_pages pages = {
        LURGABEL_INFORMATION, bank * 0x4000, 10,
        {none, creator, owner, none, s, none, none, none, s, none},
    };
    lurgabel_controller c = open_everywhere();
    lurgabel_page_setting *settings = c.info_pages + bank * 13;
    c.provision_enabled = provision;
    c.seeds_locked = locked_seeds;
    settings[2].on = 0;
    settings[4].on = 0;
    settings[8].rights = LURGABEL_CAN_PROGRAM | LURGABEL_CAN_ERASE;
    test_reads_over(c, &pages, "first denied information page");
}

void test_first_denied_page(void) {
    const lurgabel_decider none = LURGABEL_NO_DECIDER, s = LURGABEL_BY_PAGE_SETTING, lock = LURGABEL_BY_SEED_LOCK;
    fill_image();
    test_first_denied_data_page(LURGABEL_CAN_READ, none);
    test_first_denied_data_page(LURGABEL_CAN_PROGRAM | LURGABEL_CAN_ERASE, LURGABEL_BY_DEFAULT);
    test_first_denied_info_page(0, lock, lock, false, false);
    test_first_denied_info_page(0, lock, lock, false, true);
    test_first_denied_info_page(0, none, s, true, false);
    test_first_denied_info_page(0, lock, s, true, true);
    test_first_denied_info_page(1, none, s, false, true);
    test_first_denied_info_page(1, none, s, true, false);
    check_image_kept();
}
