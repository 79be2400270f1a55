/* Who decides a page: every decider, as every call that rights can deny names it. */
#include "tests.h"

static lurgabel_decider unless(bool allowed, lurgabel_decider decider) {
    return allowed ? LURGABEL_NO_DECIDER : decider;
}

bool told(lurgabel_answer answer, lurgabel_decider by, lurgabel_decider expected) {
    return answer == (expected == LURGABEL_NO_DECIDER ? LURGABEL_ACCEPTED : LURGABEL_DENIED) && by == expected;
}

/* ---- the calls ------------------------------------------------------------------------------------------------- */

/* A start and a whole operation. */
static void test_operation(lurgabel_controller c, lurgabel_operation o, lurgabel_decider expected, const char *what,
                           size_t element) {
    lurgabel_controller whole = c;
    lurgabel_decider by = UNWRITTEN;
    lurgabel_answer answer = lurgabel_start_by(&c, o, &by);
    check_at(told(answer, by, expected), what, element);
    by = UNWRITTEN;
    answer = lurgabel_run_by(&whole, image, IMAGE_WORDS, o, buffer, LURGABEL_MAX_COUNT, NULL, &by);
    check_at(told(answer, by, expected), what, element);
}

/* A host read, a round in which the host asks alone, and a view. */
static void test_host(lurgabel_controller c, uint32_t page, lurgabel_decider expected, const char *what,
                      size_t element) {
    const uint32_t address = page * 1024 + 1020, *view;
    lurgabel_decider by = UNWRITTEN;
    lurgabel_answer answer = lurgabel_host_read_by(&c, image, IMAGE_WORDS, address, NULL, &by);
    lurgabel_round_reply r = lurgabel_round(&c, image, IMAGE_WORDS, &address, false);
    check_at(told(answer, by, expected), what, element);
    check_at(r.host_turn == LURGABEL_SERVED && told(r.host_answer, r.host_decider, expected), what, element);
    by = UNWRITTEN;
    view = lurgabel_view_by(&c, image, IMAGE_WORDS, page, &answer, &by);
    check_at(told(answer, by, expected) && (view == NULL) == (answer == LURGABEL_DENIED), what, element);
}

/* A page whose decider gives these rights, for every kind that looks at a page. */
static void test_kinds(lurgabel_controller c, lurgabel_operation o, lurgabel_decider decider, uint32_t rights,
                       const char *what, size_t element) {
    o.count = 1;
    o.kind = LURGABEL_READ;
    test_operation(c, o, unless((rights & LURGABEL_CAN_READ) != 0, decider), what, element);
    o.kind = LURGABEL_PROGRAM;
    test_operation(c, o, unless((rights & LURGABEL_CAN_PROGRAM) != 0, decider), what, element);
    o.kind = LURGABEL_PAGE_ERASE;
    test_operation(c, o, unless((rights & LURGABEL_CAN_ERASE) != 0, decider), what, element);
}

static void test_data_page(lurgabel_controller c, uint32_t page, lurgabel_decider decider, uint32_t rights,
                           const char *what) {
    test_kinds(c, on_data(LURGABEL_READ, page * 1024, 1), decider, rights, what, rights);
    test_host(c, page, unless((rights & LURGABEL_CAN_READ) != 0, decider), what, rights);
}

static void test_info_page(lurgabel_controller c, uint32_t index, lurgabel_decider decider, uint32_t rights,
                           const char *what) {
    info_page p = info_page_at(index);
    test_kinds(c, operation(LURGABEL_READ, LURGABEL_INFORMATION, p.info_type, address_of(p), 1), decider, rights, what,
               index);
}

/* ---- every page ------------------------------------------------------------------------------------------------ */

/* No region decides page 6: each is off, or holds the next page, or holds none. What `rights` lack they all give. */
static lurgabel_controller passed_over(uint32_t rights) {
    lurgabel_controller c = ready();
    uint32_t others = LURGABEL_ALL_RIGHTS ^ rights, number;
    for (number = 0; number < LURGABEL_REGIONS; number++) {
        c.regions[number] = number % 3 == 0   ? region(6, 1, 0, others)
                            : number % 3 == 1 ? region(7, 1, 1, others)
                                              : region(6, 0, 1, others);
    }
    c.default_rights = others;
    return c;
}

static void test_default_decides(uint32_t rights) {
    lurgabel_controller c = passed_over(rights);
    c.default_rights = rights;
    test_data_page(c, 6, LURGABEL_BY_DEFAULT, rights, "default rights");
}

/* All higher regions hold the page too. */
static void test_region_decides(uint32_t number, uint32_t rights) {
    lurgabel_controller c = passed_over(rights);
    uint32_t higher;
    c.regions[number] = region(5, 2, 1, rights);
    for (higher = number + 1; higher < LURGABEL_REGIONS; higher++) {
        c.regions[higher] = region(0, 32, 1, LURGABEL_ALL_RIGHTS ^ rights);
    }
    test_data_page(c, 6, (lurgabel_decider)number, rights, "region");
}

/* A setting that is off denies everything, and is the decider all the same. Every other page has the other rights. */
static void test_setting_decides(uint32_t index, uint32_t rights) {
    lurgabel_controller c = open_everywhere();
    uint32_t other;
    for (other = 0; other < 26; other++) {
        c.info_pages[other] = page_setting(1, LURGABEL_ALL_RIGHTS ^ rights);
    }
    c.info_pages[index] = page_setting(1, rights);
    test_info_page(c, index, LURGABEL_BY_PAGE_SETTING, rights, "setting");
    c.info_pages[index].on = 0;
    test_info_page(c, index, LURGABEL_BY_PAGE_SETTING, 0, "setting off");
}

/* The creator's page is number 1, the owner's number 2. */
static bool is_closed(uint32_t index, bool provision, bool locked_seeds) {
    return index == 1 ? !provision || locked_seeds : index == 2 && !provision;
}

/* A closed seed page names the lock whatever its setting says; an open one, and any other page, names its setting. */
static void test_inputs_decide(bool provision, bool locked_seeds, lurgabel_page_setting setting) {
    lurgabel_controller c = locked();
    uint32_t index;
    c.provision_enabled = provision;
    c.seeds_locked = locked_seeds;
    for (index = 0; index < 26; index++) {
        c.info_pages[index] = setting;
    }
    for (index = 0; index < 26; index++) {
        if (is_closed(index, provision, locked_seeds)) {
            test_info_page(c, index, LURGABEL_BY_SEED_LOCK, 0, "seed lock");
        } else {
            test_info_page(c, index, LURGABEL_BY_PAGE_SETTING, setting.on ? setting.rights : 0, "no seed lock");
        }
    }
}

static void test_seed_lock_decides(void) {
    uint32_t inputs, rights;
    for (inputs = 0; inputs < 4; inputs++) {
        for (rights = 0; rights < 8; rights++) {
            test_inputs_decide((inputs & 1) != 0, (inputs & 2) != 0, page_setting(0, rights));
            test_inputs_decide((inputs & 1) != 0, (inputs & 2) != 0, page_setting(1, rights));
        }
    }
}

/* A bank erase at the address of the bank's page 1, in information the seed page of the creator. */
static void test_bank_decides(lurgabel_controller c, uint32_t partition, const char *what) {
    uint32_t permissions, bank;
    for (permissions = 0; permissions < 4; permissions++) {
        c.bank_erase[0] = permissions & 1;
        c.bank_erase[1] = permissions >> 1;
        for (bank = 0; bank < LURGABEL_BANKS; bank++) {
            test_operation(c, operation(LURGABEL_BANK_ERASE, partition, 0, bank * 0x4000 + 0x400, 0),
                           unless(c.bank_erase[bank] == 1, LURGABEL_BY_BANK_PERMISSION), what, permissions);
        }
    }
}

void test_deciders(void) {
    uint32_t rights, number, index;
    for (rights = 0; rights < 8; rights++) {
        test_default_decides(rights);
        for (number = 0; number < LURGABEL_REGIONS; number++) {
            test_region_decides(number, rights);
        }
        for (index = 0; index < 26; index++) {
            test_setting_decides(index, rights);
        }
    }
    test_seed_lock_decides();
    test_bank_decides(locked(), LURGABEL_DATA, "bank erase over denied pages");
    test_bank_decides(locked(), LURGABEL_INFORMATION, "bank erase over closed seed pages");
    test_bank_decides(open_everywhere(), LURGABEL_DATA, "bank erase over allowed pages");
    test_bank_decides(open_everywhere(), LURGABEL_INFORMATION, "bank erase over open seed pages");
}
