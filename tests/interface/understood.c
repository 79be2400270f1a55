/* What the model understands by each field of the state. */
#include "tests.h"

static bool starts(lurgabel_controller c, lurgabel_operation o) {
    return lurgabel_start(&c, o) == LURGABEL_ACCEPTED;
}

/* The right that a kind needs is its own alone. */
static void test_rights_understood(void) {
    uint8_t rights;
    for (rights = 0; rights < 8; rights++) {
        lurgabel_controller c = ready();
        c.default_rights = rights;
        check_at(starts(c, on_data(LURGABEL_READ, 0, 1)) == ((rights & 1) != 0), "read right", rights);
        check_at(starts(c, on_data(LURGABEL_PROGRAM, 0, 1)) == ((rights & 2) != 0), "program right", rights);
        check_at(starts(c, on_data(LURGABEL_PAGE_ERASE, 0, 0)) == ((rights & 4) != 0), "erase right", rights);
    }
}

/* A region alone gives its own pages its rights; switched off it gives none. */
static void test_regions_understood(void) {
    uint32_t number, page;
    for (number = 0; number < LURGABEL_REGIONS; number++) {
        lurgabel_controller c = locked();
        c.regions[number] = region(15 + number, 2, 1, LURGABEL_CAN_PROGRAM);
        for (page = 0; page < 32; page++) {
            bool inside = page == 15 + number || page == 16 + number;
            check_at(starts(c, on_data(LURGABEL_PROGRAM, page * 1024, 1)) == inside, "region's pages", page);
        }
        c.regions[number].on = 0;
        check_at(!starts(c, on_data(LURGABEL_PROGRAM, (15 + number) * 1024, 1)), "region off", number);
    }
}

/* The lowest region that is on and holds the page decides, alone. */
static void test_region_order_understood(void) {
    uint32_t number;
    for (number = 0; number + 1 < LURGABEL_REGIONS; number++) {
        lurgabel_controller c = ready();
        c.regions[number] = region(2, 2, 1, LURGABEL_CAN_READ);
        c.regions[number + 1] = region(0, 8, 1, LURGABEL_ALL_RIGHTS);
        check_at(!starts(c, on_data(LURGABEL_PROGRAM, 2 * 1024, 1)), "lower region decides", number);
        check_at(starts(c, on_data(LURGABEL_PROGRAM, 4 * 1024, 1)), "page outside of it", number);
    }
}

/* With one information page switched on, that page and no other may be read. */
static void test_info_pages_understood(void) {
    uint32_t on, asked;
    for (on = 0; on < 26; on++) {
        lurgabel_controller c = locked();
        c.provision_enabled = 1;
        c.info_pages[on] = page_setting(1, LURGABEL_CAN_READ);
        for (asked = 0; asked < 26; asked++) {
            info_page p = info_page_at(asked);
            lurgabel_operation o = operation(LURGABEL_READ, LURGABEL_INFORMATION, p.info_type, address_of(p), 1);
            check_at(starts(c, o) == (on == asked), "information page", on * 26 + asked);
        }
        c.info_pages[on].on = 0;
        c.info_pages[on].rights = LURGABEL_ALL_RIGHTS;
        check_at(!starts(c, operation(LURGABEL_READ, LURGABEL_INFORMATION, info_page_at(on).info_type,
                                      address_of(info_page_at(on)), 1)), "information page off", on);
    }
}

/* The creator page needs provision and unlocked seeds, the owner page provision. */
static void test_inputs_understood(void) {
    uint8_t n;
    for (n = 0; n < 4; n++) {
        bool provision = (n & 1) != 0, seeds_locked = (n & 2) != 0;
        lurgabel_controller c = locked();
        c.provision_enabled = provision;
        c.seeds_locked = seeds_locked;
        c.info_pages[1] = page_setting(1, LURGABEL_ALL_RIGHTS);
        c.info_pages[2] = page_setting(1, LURGABEL_ALL_RIGHTS);
        check_at(starts(c, operation(LURGABEL_READ, 1, 0, 1 * 1024, 1)) == (provision && !seeds_locked), "creator", n);
        check_at(starts(c, operation(LURGABEL_READ, 1, 0, 2 * 1024, 1)) == provision, "owner", n);
    }
}

static void test_bank_erase_understood(void) {
    uint32_t bank;
    for (bank = 0; bank < LURGABEL_BANKS; bank++) {
        lurgabel_controller c = locked();
        c.bank_erase[bank] = 1;
        check_at(starts(c, on_data(LURGABEL_BANK_ERASE, 0, 0)) == (bank == 0), "erase of bank 0", bank);
        check_at(starts(c, on_data(LURGABEL_BANK_ERASE, 0x4000, 0)) == (bank == 1), "erase of bank 1", bank);
    }
}

/* D moves bank 1: with 10 data pages its first byte is 0x2800. */
static void test_data_pages_understood(void) {
    lurgabel_controller c = ready();
    c.data_pages = 10;
    check(starts(c, on_data(LURGABEL_READ, 20 * 1024 - 4, 1)), "last word of 20 pages");
    check(!starts(c, on_data(LURGABEL_READ, 20 * 1024, 1)), "first word after 20 pages");
    lurgabel_blank_image(image, IMAGE_WORDS);
    image[23 * 256] = 77;
    check(lurgabel_run(&c, image, LURGABEL_IMAGE_WORDS(10), on_data(LURGABEL_READ, 0x2800, 1), buffer, 1, NULL) ==
              LURGABEL_ACCEPTED && buffer[0] == 77, "bank 1 of 10 data pages");
}

/* Every word of the read queue, oldest first; the places behind them become 0. */
static void test_read_queue_understood(void) {
    lurgabel_controller c = ready();
    uint32_t i, word;
    for (i = 0; i < LURGABEL_QUEUE_WORDS; i++) {
        c.read_queue.words[i] = 100 + i;
    }
    c.read_queue.length = LURGABEL_QUEUE_WORDS;
    for (i = 0; i < LURGABEL_QUEUE_WORDS; i++) {
        check_at(lurgabel_pop(&c, &word) == LURGABEL_ACCEPTED && word == 100 + i, "popped", i);
        check_at(c.read_queue.length == 15 - i && c.read_queue.words[15 - i] == 0, "queue after a pop", i);
    }
    check(lurgabel_pop(&c, &word) == LURGABEL_QUEUE_EMPTY && word == 0, "pop of nothing");
}

/* A program of 16 words that are all queued: step k programs word k at its place in page 31. */
static void test_program_queue_understood(void) {
    lurgabel_controller c = in_progress(LURGABEL_PROGRAM, 31 * 1024, 16);
    uint32_t *page = image + 14848 - 13 * 256 - 256;
    lurgabel_movement movement;
    uint32_t i, bits;
    lurgabel_blank_image(image, IMAGE_WORDS);
    for (i = 0; i < LURGABEL_QUEUE_WORDS; i++) {
        c.program_queue.words[i] = 0xFFFFFFFFu ^ (3u << i);
    }
    c.program_queue.length = LURGABEL_QUEUE_WORDS;
    for (i = 0; i < LURGABEL_QUEUE_WORDS; i++) {
        check_at(lurgabel_step(&c, image, IMAGE_WORDS, &movement, &bits) == LURGABEL_ACCEPTED && bits == 2, "step", i);
        check_at(movement == (i < 15 ? LURGABEL_MOVED : LURGABEL_FINISHED), "movement", i);
        check_at(page[i] == (0xFFFFFFFFu ^ (3u << i)) && page[i + 1] == LURGABEL_ERASED, "programmed", i);
    }
    check(c.progress.running == 0 && c.program_queue.length == 0, "finished");
}

/* The operation and the words moved say where the next word lies. */
static void test_progress_understood(void) {
    lurgabel_controller c = programming();
    lurgabel_movement movement;
    lurgabel_blank_image(image, IMAGE_WORDS);
    check(lurgabel_step(&c, image, IMAGE_WORDS, &movement, NULL) == LURGABEL_ACCEPTED && image[17] == 0x12345678,
          "second word of a program");
    check(movement == LURGABEL_MOVED && c.progress.moved == 2 && c.program_queue.length == 1, "moved");
    c = erasing_page();
    c.progress.moved = 255;
    image[14848 - 13 * 256 - 1] = 0;
    check(lurgabel_step(&c, image, IMAGE_WORDS, &movement, NULL) == LURGABEL_ACCEPTED &&
              movement == LURGABEL_FINISHED && image[14848 - 13 * 256 - 1] == LURGABEL_ERASED, "last word of an erase");
    image[16] = 99;
    c = reading();
    check(lurgabel_step(&c, image, IMAGE_WORDS, NULL, NULL) == LURGABEL_ACCEPTED && c.read_queue.words[0] == 99,
          "first word of a read");
    c = reading_denied();
    check(lurgabel_step(&c, image, IMAGE_WORDS, NULL, NULL) == LURGABEL_ACCEPTED &&
              c.read_queue.words[0] == LURGABEL_ERASED, "denied read");
    image[255] = 98;
    image[256] = 97;
    c = reading_cut();
    c.progress.moved = 1;
    check(lurgabel_step(&c, image, IMAGE_WORDS, NULL, NULL) == LURGABEL_ACCEPTED && c.read_queue.words[0] == 98,
          "last word before a denied page");
    check(lurgabel_step(&c, image, IMAGE_WORDS, NULL, NULL) == LURGABEL_ACCEPTED &&
              c.read_queue.words[1] == LURGABEL_ERASED, "first word of a denied page");
}

/* A started operation stands in the state field for field. */
static void test_start_understood(void) {
    lurgabel_controller c = littered();
    lurgabel_controller expected = c;
    memset(&expected.progress, 0, sizeof expected.progress);
    expected.progress.operation = operation(LURGABEL_READ, LURGABEL_DATA, 3, 0x100, 1024);
    expected.progress.readable = 1024;
    expected.progress.running = 1;
    check(lurgabel_start(&c, expected.progress.operation) == LURGABEL_ACCEPTED && same(&expected, &c), "read started");
    c = littered();
    expected.progress.operation = operation(LURGABEL_PROGRAM, LURGABEL_DATA, 200, 0x7C, 1);
    expected.progress.readable = 0;
    check(lurgabel_start(&c, expected.progress.operation) == LURGABEL_ACCEPTED && same(&expected, &c),
          "program started");
    c = littered();
    c.regions[0] = reading_cut().regions[0];
    expected = c;
    expected.progress = reading_cut().progress;
    expected.recorded = LURGABEL_RECORDED(LURGABEL_DENIED);
    expected.last_address = 0x400;
    check(lurgabel_start(&c, expected.progress.operation) == LURGABEL_DENIED && same(&expected, &c),
          "denied read started");
}

void test_understood(void) {
    test_rights_understood();
    test_regions_understood();
    test_region_order_understood();
    test_info_pages_understood();
    test_inputs_understood();
    test_bank_erase_understood();
    test_data_pages_understood();
    test_read_queue_understood();
    test_program_queue_understood();
    test_progress_understood();
    test_start_understood();
}
