/* The header's places in the image against the truth: a word is programmed at an address and found in the image. */
#include "tests.h"

#define MARK 0x600DF00Du

static uint32_t flash[LURGABEL_IMAGE_WORDS(LURGABEL_MAX_DATA_PAGES)];

/* The mark is programmed and must be at its place; it is wiped there, so that one elsewhere would stay. */
static void test_place(uint32_t data_pages, lurgabel_operation program, uint32_t place, const char *what) {
    lurgabel_controller c = open_everywhere();
    uint32_t word = MARK;
    c.data_pages = data_pages;
    check_at(lurgabel_run(&c, flash, LURGABEL_IMAGE_WORDS(data_pages), program, &word, 1, NULL) == LURGABEL_ACCEPTED,
             what, program.address);
    check_at(flash[place] == MARK, what, program.address);
    flash[place] = LURGABEL_ERASED;
}

static void test_data_places(uint32_t data_pages, uint32_t offset) {
    const uint32_t pages[] = {0, 1, data_pages - 1};
    uint32_t bank;
    size_t i;
    for (bank = 0; bank < LURGABEL_BANKS; bank++) {
        for (i = 0; i < sizeof pages / sizeof pages[0]; i++) {
            uint32_t address = LURGABEL_ADDRESS(data_pages, bank, pages[i], offset);
            test_place(data_pages, on_data(LURGABEL_PROGRAM, address, 1), LURGABEL_IMAGE_WORD(data_pages, address),
                       "place of a data word");
        }
    }
}

static void test_info_places(uint32_t data_pages, uint32_t offset) {
    uint32_t index;
    for (index = 0; index < 26; index++) {
        info_page p = info_page_at(index);
        uint32_t address = LURGABEL_ADDRESS(data_pages, p.bank, p.page, offset);
        test_place(data_pages, operation(LURGABEL_PROGRAM, LURGABEL_INFORMATION, p.info_type, address, 1),
                   LURGABEL_IMAGE_INFO_WORD(data_pages, p.info_type, address), "place of an information word");
    }
}

void test_places(void) {
    static const uint32_t counts[] = {10, 16, 37, 256}, offsets[] = {0, 4, 0x200, 0x3FC};
    size_t i, j, blank = 0;
    lurgabel_blank_image(flash, sizeof flash / sizeof flash[0]);
    for (i = 0; i < sizeof counts / sizeof counts[0]; i++) {
        for (j = 0; j < sizeof offsets / sizeof offsets[0]; j++) {
            test_data_places(counts[i], offsets[j]);
            test_info_places(counts[i], offsets[j]);
        }
    }
    for (i = 0; i < sizeof flash / sizeof flash[0]; i++) {
        blank += flash[i] == LURGABEL_ERASED;
    }
    check(blank == sizeof flash / sizeof flash[0], "no mark elsewhere");
}
