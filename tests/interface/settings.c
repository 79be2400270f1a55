/* Each setting changes its own field, and no other. */
#include "tests.h"

static void check_set(lurgabel_answer answer, const lurgabel_controller *expected, const lurgabel_controller *c,
                      const char *what, size_t element) {
    check_at(answer == LURGABEL_ACCEPTED && same(expected, c), what, element);
}

static void test_set_inputs(void) {
    uint8_t n;
    for (n = 0; n < 4; n++) {
        lurgabel_controller c = uninitialised();
        lurgabel_controller expected = c;
        expected.provision_enabled = n & 1;
        expected.seeds_locked = n >> 1;
        check_set(lurgabel_set_inputs(&c, n & 1, n >> 1), &expected, &c, "set_inputs", n);
    }
}

static void test_set_default_rights(void) {
    uint8_t rights;
    for (rights = 0; rights < 8; rights++) {
        lurgabel_controller c = uninitialised();
        lurgabel_controller expected = c;
        expected.default_rights = rights;
        check_set(lurgabel_set_default_rights(&c, rights), &expected, &c, "set_default_rights", rights);
    }
}

static void test_set_region(void) {
    const lurgabel_region alone[] = {region(32, 0, 0, 0), region(0, 32, 0, 0), region(0, 0, 1, 0), region(0, 0, 0, 7),
                                     region(3, 5, 1, 6)};
    uint32_t number;
    size_t i;
    for (number = 0; number < LURGABEL_REGIONS; number++) {
        for (i = 0; i < sizeof alone / sizeof alone[0]; i++) {
            lurgabel_controller c = uninitialised();
            lurgabel_controller expected = c;
            expected.regions[number] = alone[i];
            check_set(lurgabel_set_region(&c, number, alone[i]), &expected, &c, "set_region", number);
        }
    }
}

static void test_set_info_page(void) {
    const lurgabel_page_setting alone[] = {page_setting(1, 0), page_setting(0, 7), page_setting(1, 5)};
    uint32_t index;
    size_t i;
    for (index = 0; index < 26; index++) {
        info_page p = info_page_at(index);
        for (i = 0; i < sizeof alone / sizeof alone[0]; i++) {
            lurgabel_controller c = uninitialised();
            lurgabel_controller expected = c;
            expected.info_pages[index] = alone[i];
            check_set(lurgabel_set_info_page(&c, p.bank, p.info_type, p.page, alone[i]), &expected, &c, "set_info_page",
                      index);
        }
    }
}

static void test_set_bank_erase(void) {
    uint32_t bank;
    for (bank = 0; bank < LURGABEL_BANKS; bank++) {
        lurgabel_controller c = uninitialised();
        lurgabel_controller expected = c;
        expected.bank_erase[bank] = 1;
        check_set(lurgabel_set_bank_erase(&c, bank, true), &expected, &c, "set_bank_erase", bank);
        expected.bank_erase[bank] = 0;
        check_set(lurgabel_set_bank_erase(&c, bank, false), &expected, &c, "set_bank_erase off", bank);
    }
}

/* Any flag but 0 is on, and the state has a 1 for it. */
static void test_flags(void) {
    static const uint32_t on[] = {2, 128, 255, 256, 0x80000000u, 0xFFFFFFFFu};
    size_t i;
    for (i = 0; i < sizeof on / sizeof on[0]; i++) {
        lurgabel_controller c = uninitialised();
        lurgabel_controller expected = c;
        expected.regions[0] = region(0, 1, 1, 0);
        check_set(lurgabel_set_region(&c, 0, region(0, 1, on[i], 0)), &expected, &c, "region on", i);
        expected.info_pages[0].on = 1;
        check_set(lurgabel_set_info_page(&c, 0, 0, 0, page_setting(on[i], 0)), &expected, &c, "information page on", i);
        expected.provision_enabled = 1;
        check_set((lurgabel_answer)lurgabel_layout4_set_inputs(&c, on[i], 0), &expected, &c, "provision on", i);
        expected.provision_enabled = 0;
        expected.seeds_locked = 1;
        check_set((lurgabel_answer)lurgabel_layout4_set_inputs(&c, 0, on[i]), &expected, &c, "seeds locked", i);
        expected.bank_erase[1] = 1;
        check_set((lurgabel_answer)lurgabel_layout4_set_bank_erase(&c, 1, on[i]), &expected, &c, "bank erase on", i);
    }
}

static void test_bad_settings(void) {
    lurgabel_controller c = uninitialised();
    lurgabel_controller before = c;
    check(lurgabel_set_region(&c, 8, region(0, 0, 0, 0)) == LURGABEL_BAD_SETTING, "region 8");
    check(lurgabel_set_region(&c, 0, region(0, 0, 0, 8)) == LURGABEL_BAD_SETTING, "region's rights 8");
    check(lurgabel_set_region(&c, 0, region(32, 1, 0, 0)) == LURGABEL_BAD_SETTING, "region past 2D");
    check(lurgabel_set_region(&c, 0, region(0xFFFFFFFFu, 2, 0, 0)) == LURGABEL_BAD_SETTING, "region that wraps");
    check(lurgabel_set_default_rights(&c, 8) == LURGABEL_BAD_SETTING, "default rights 8");
    check(lurgabel_set_info_page(&c, 2, 0, 0, page_setting(0, 0)) == LURGABEL_BAD_SETTING, "bank 2");
    check(lurgabel_set_info_page(&c, 0, 3, 0, page_setting(0, 0)) == LURGABEL_BAD_SETTING, "type 3");
    check(lurgabel_set_info_page(&c, 0, 0, 10, page_setting(0, 0)) == LURGABEL_BAD_SETTING, "page 10 of type 0");
    check(lurgabel_set_info_page(&c, 0, 1, 1, page_setting(0, 0)) == LURGABEL_BAD_SETTING, "page 1 of type 1");
    check(lurgabel_set_info_page(&c, 0, 2, 2, page_setting(0, 0)) == LURGABEL_BAD_SETTING, "page 2 of type 2");
    check(lurgabel_set_info_page(&c, 0, 0, 0, page_setting(0, 8)) == LURGABEL_BAD_SETTING, "page's rights 8");
    check(lurgabel_set_bank_erase(&c, 2, true) == LURGABEL_BAD_SETTING, "erase of bank 2");
    check(same(&before, &c), "all unchanged");
}

/* Rights and types over 255 are none, also where their low bits are those of a right value. */
static void test_large_settings(void) {
    static const uint32_t large[] = {256, 257, 258, 263, 0x10002, 0x80000000u, 0xFFFFFFFFu};
    size_t i;
    for (i = 0; i < sizeof large / sizeof large[0]; i++) {
        lurgabel_controller c = littered();
        lurgabel_controller before = c;
        check_at(lurgabel_set_region(&c, 0, region(0, 1, 1, large[i])) == LURGABEL_BAD_SETTING, "region's rights", i);
        check_at(lurgabel_set_info_page(&c, 0, 0, 0, page_setting(1, large[i])) == LURGABEL_BAD_SETTING,
                 "page's rights", i);
        check_at(lurgabel_layout4_set_default_rights(&c, large[i]) == LURGABEL_BAD_SETTING, "default rights", i);
        check_at(lurgabel_layout4_set_info_page(&c, 0, large[i], 0, page_setting(1, 1)) == LURGABEL_BAD_SETTING,
                 "type", i);
        check_at(same(&before, &c), "all unchanged", i);
    }
}

void test_settings(void) {
    test_set_inputs();
    test_set_default_rights();
    test_set_region();
    test_set_info_page();
    test_set_bank_erase();
    test_flags();
    test_bad_settings();
    test_large_settings();
}
