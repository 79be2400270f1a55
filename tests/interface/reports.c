/* When a decider is reported: with a denial, by the calls that ask, and nowhere else. */
#include "tests.h"

/* ---- what each form of a call gives ---------------------------------------------------------------------------- */

/* All that a call gives and leaves. */
typedef struct outcome {
    lurgabel_controller left;
    lurgabel_answer answer;
    uint32_t value; /* bits or a word */
    const uint32_t *view;
    uint32_t buffer[16];
} outcome;

static outcome from(lurgabel_controller c) {
    outcome o;
    memset(&o, 0, sizeof o);
    memset(o.buffer, 0xA5, sizeof o.buffer);
    o.left = c;
    o.value = 0xA5A5A5A5u;
    return o;
}

static bool same_outcome(const outcome *a, const outcome *b) {
    return same(&a->left, &b->left) && a->answer == b->answer && a->value == b->value && a->view == b->view &&
           memcmp(a->buffer, b->buffer, sizeof a->buffer) == 0;
}

/* The forms that ask who decided, that have no place for it, and that do not ask differ in *by alone. It is written in
 * every case, and names somebody exactly if the access was denied. */
static void check_forms(const outcome *asks, const outcome *no_place, const outcome *plain, lurgabel_decider by,
                        const char *what, size_t element) {
    check_at(same_outcome(asks, no_place) && same_outcome(asks, plain), what, element);
    check_at(by != UNWRITTEN && (by == LURGABEL_NO_DECIDER) == (asks->answer != LURGABEL_DENIED), what, element);
}

static void test_forms_of_start(lurgabel_controller c, lurgabel_operation o, size_t element) {
    outcome asks = from(c), no_place = from(c), plain = from(c);
    lurgabel_decider by = UNWRITTEN;
    asks.answer = lurgabel_start_by(&asks.left, o, &by);
    no_place.answer = lurgabel_start_by(&no_place.left, o, NULL);
    plain.answer = lurgabel_start(&plain.left, o);
    check_forms(&asks, &no_place, &plain, by, "forms of start", element);
}

static void test_forms_of_run(lurgabel_controller c, lurgabel_operation o, size_t element) {
    outcome asks = from(c), no_place = from(c), plain = from(c);
    lurgabel_decider by = UNWRITTEN;
    lurgabel_blank_image(image, IMAGE_WORDS);
    asks.answer = lurgabel_run_by(&asks.left, image, IMAGE_WORDS, o, asks.buffer, 16, &asks.value, &by);
    lurgabel_blank_image(image, IMAGE_WORDS);
    no_place.answer =
        lurgabel_run_by(&no_place.left, image, IMAGE_WORDS, o, no_place.buffer, 16, &no_place.value, NULL);
    lurgabel_blank_image(image, IMAGE_WORDS);
    plain.answer = lurgabel_run(&plain.left, image, IMAGE_WORDS, o, plain.buffer, 16, &plain.value);
    check_forms(&asks, &no_place, &plain, by, "forms of run", element);
}

static void test_forms_of_host_read(lurgabel_controller c, uint32_t address) {
    outcome asks = from(c), no_place = from(c), plain = from(c);
    lurgabel_decider by = UNWRITTEN;
    asks.answer = lurgabel_host_read_by(&asks.left, image, IMAGE_WORDS, address, &asks.value, &by);
    no_place.answer = lurgabel_host_read_by(&no_place.left, image, IMAGE_WORDS, address, &no_place.value, NULL);
    plain.answer = lurgabel_host_read(&plain.left, image, IMAGE_WORDS, address, &plain.value);
    check_forms(&asks, &no_place, &plain, by, "forms of host read", address);
    check_at(same(&asks.left, &c), "a host read leaves the controller", address);
}

static void test_forms_of_view(lurgabel_controller c, uint32_t page) {
    outcome asks = from(c), no_place = from(c), plain = from(c);
    lurgabel_decider by = UNWRITTEN, alone = UNWRITTEN;
    asks.view = lurgabel_view_by(&asks.left, image, IMAGE_WORDS, page, &asks.answer, &by);
    no_place.view = lurgabel_view_by(&no_place.left, image, IMAGE_WORDS, page, &no_place.answer, NULL);
    plain.view = lurgabel_view(&plain.left, image, IMAGE_WORDS, page, &plain.answer);
    check_forms(&asks, &no_place, &plain, by, "forms of view", page);
    check_at(lurgabel_view_by(&c, image, IMAGE_WORDS, page, NULL, &alone) == asks.view && alone == by,
             "a view with no place for the answer", page);
}

static void test_forms(void) {
    static lurgabel_controller (*const states[])(void) = {
        zeros, uninitialised, disabled, locked, ready, open_everywhere, littered, reading, reading_denied, reading_cut,
        programming,
    };
    static const uint32_t addresses[] = {0, 0x7FFC, 2, 0x8000}, pages[] = {0, 31, 32};
    const lurgabel_operation operations[] = {
        on_data(LURGABEL_READ, 0x40, 16),         on_data(LURGABEL_PROGRAM, 0x40, 16),
        on_data(LURGABEL_PAGE_ERASE, 0x7FFC, 0),  on_data(LURGABEL_BANK_ERASE, 0x4000, 0),
        operation(LURGABEL_READ, 1, 0, 0x400, 4), operation(LURGABEL_READ, 1, 2, 0x4400, 4),
        on_data(LURGABEL_READ, 0x40, 17),         on_data(LURGABEL_PROGRAM, 0x3C, 2),
        on_data(LURGABEL_READ, 0x8000, 1),        on_data(4, 0, 1),
    };
    size_t s, i;
    for (s = 0; s < sizeof states / sizeof states[0]; s++) {
        for (i = 0; i < sizeof operations / sizeof operations[0]; i++) {
            test_forms_of_start(states[s](), operations[i], s * 100 + i);
            test_forms_of_run(states[s](), operations[i], s * 100 + i);
        }
        for (i = 0; i < sizeof addresses / sizeof addresses[0]; i++) {
            test_forms_of_host_read(states[s](), addresses[i]);
        }
        for (i = 0; i < sizeof pages / sizeof pages[0]; i++) {
            test_forms_of_view(states[s](), pages[i]);
        }
    }
}

/* ---- every other answer ---------------------------------------------------------------------------------------- */

static void test_start_reports_none(lurgabel_controller c, lurgabel_operation o, lurgabel_answer answer) {
    lurgabel_decider by = UNWRITTEN;
    check_at(lurgabel_start_by(&c, o, &by) == answer && by == LURGABEL_NO_DECIDER, "start reports none", answer);
}

static void test_run_reports_none(lurgabel_controller c, size_t image_words, lurgabel_operation o, size_t buffer_words,
                                  lurgabel_answer answer) {
    lurgabel_decider by = UNWRITTEN;
    check_at(lurgabel_run_by(&c, image, image_words, o, buffer, buffer_words, NULL, &by) == answer &&
                 by == LURGABEL_NO_DECIDER, "run reports none", answer);
}

static void test_operation_reports_none(lurgabel_controller c, lurgabel_operation o, lurgabel_answer answer) {
    test_start_reports_none(c, o, answer);
    test_run_reports_none(c, IMAGE_WORDS, o, LURGABEL_MAX_COUNT, answer);
}

/* No page allows anything; the lost turns are those of no controller. */
static lurgabel_controller broken(void) {
    lurgabel_controller c = locked();
    c.lost_turns[0] = LURGABEL_LOST_LIMIT + 1;
    return c;
}

/* The rights deny each of them as well, but another check answers first. */
static void test_other_refusals_of_operations(void) {
    const lurgabel_operation read = on_data(LURGABEL_READ, 0, 4);
    lurgabel_controller c = locked();
    lurgabel_decider by = UNWRITTEN;
    test_operation_reports_none(broken(), read, LURGABEL_INVALID);
    test_run_reports_none(locked(), IMAGE_WORDS - 1, read, 4, LURGABEL_INVALID);
    test_operation_reports_none(disabled(), read, LURGABEL_DISABLED);
    test_operation_reports_none(uninitialised(), read, LURGABEL_UNINITIALISED);
    test_operation_reports_none(reading_denied(), read, LURGABEL_BUSY);
    test_operation_reports_none(locked(), on_data(4, 0, 4), LURGABEL_MALFORMED);
    test_run_reports_none(locked(), IMAGE_WORDS, read, 3, LURGABEL_SHORT_BUFFER);
    test_operation_reports_none(locked(), on_data(LURGABEL_READ, 0x7FFC, 2), LURGABEL_OUT_OF_RANGE);
    test_operation_reports_none(locked(), on_data(LURGABEL_PROGRAM, 0x3C, 2), LURGABEL_CROSSES_WINDOW);
    c.read_queue.length = 1;
    test_run_reports_none(c, IMAGE_WORDS, read, 4, LURGABEL_BUSY);
    check(lurgabel_start_by(&c, read, &by) == LURGABEL_DENIED && by == LURGABEL_BY_DEFAULT, "a queued word");
}

static void test_acceptance(void) {
    test_operation_reports_none(ready(), on_data(LURGABEL_READ, 0, 4), LURGABEL_ACCEPTED);
    test_operation_reports_none(ready(), on_data(LURGABEL_PROGRAM, 0, 4), LURGABEL_ACCEPTED);
    test_operation_reports_none(ready(), on_data(LURGABEL_PAGE_ERASE, 0, 0), LURGABEL_ACCEPTED);
    test_operation_reports_none(open_everywhere(), operation(LURGABEL_READ, 1, 0, 0x400, 4), LURGABEL_ACCEPTED);
}

static void test_host_reports_none(lurgabel_controller c, size_t image_words, uint32_t address,
                                   lurgabel_answer answer) {
    lurgabel_decider by = UNWRITTEN;
    lurgabel_round_reply r = lurgabel_round(&c, image, image_words, &address, false);
    check_at(r.host_answer == answer && r.host_decider == LURGABEL_NO_DECIDER, "round reports none", answer);
    check_at(lurgabel_host_read_by(&c, image, image_words, address, NULL, &by) == answer && by == LURGABEL_NO_DECIDER,
             "host read reports none", answer);
}

static void test_view_reports_none(lurgabel_controller c, size_t image_words, uint32_t page, lurgabel_answer answer) {
    lurgabel_decider by = UNWRITTEN;
    lurgabel_answer given;
    bool seen = lurgabel_view_by(&c, image, image_words, page, &given, &by) != NULL;
    check_at(given == answer && by == LURGABEL_NO_DECIDER && seen == (answer == LURGABEL_ACCEPTED), "view reports none",
             answer);
}

static void test_other_answers_to_the_host(void) {
    static lurgabel_controller (*const states[4])(void) = {ready, broken, disabled, uninitialised};
    uint32_t answer;
    for (answer = LURGABEL_ACCEPTED; answer <= LURGABEL_UNINITIALISED; answer++) {
        test_host_reports_none(states[answer](), IMAGE_WORDS, 0, (lurgabel_answer)answer);
        test_view_reports_none(states[answer](), IMAGE_WORDS, 0, (lurgabel_answer)answer);
    }
    test_host_reports_none(locked(), IMAGE_WORDS + 1, 0, LURGABEL_INVALID);
    test_view_reports_none(locked(), IMAGE_WORDS + 1, 0, LURGABEL_INVALID);
    test_host_reports_none(locked(), IMAGE_WORDS, 2, LURGABEL_MALFORMED);
    test_host_reports_none(locked(), IMAGE_WORDS, 0x8000, LURGABEL_OUT_OF_RANGE);
    test_view_reports_none(locked(), IMAGE_WORDS, 32, LURGABEL_OUT_OF_RANGE);
}

/* ---- rounds ---------------------------------------------------------------------------------------------------- */

/* Page 31 is being erased, and region 6 gives it the erase right alone; the default rights are all. */
static lurgabel_controller erasing_unreadable(void) {
    lurgabel_controller c = erasing_page();
    c.regions[6] = region(31, 1, 1, LURGABEL_CAN_ERASE);
    return c;
}

static bool host_told(lurgabel_round_reply r, lurgabel_turn turn, lurgabel_answer answer, lurgabel_decider by) {
    return r.host_turn == turn && r.host_answer == answer && r.host_decider == by && r.word == 0;
}

/* Only a host read that is served has an answer, and so a decider. */
static void test_round_reports(void) {
    static const uint32_t unreadable = 0x7C00, readable = 0x7800, other_bank = 0;
    lurgabel_controller c = erasing_unreadable();
    lurgabel_round_reply r;
    memset(image, 0, sizeof image);
    r = lurgabel_round(&c, image, IMAGE_WORDS, &unreadable, true);
    check(host_told(r, LURGABEL_SERVED, LURGABEL_DENIED, LURGABEL_BY_REGION_6) && r.step_turn == LURGABEL_WAITING,
          "served and denied, before the step");
    r = lurgabel_round(&c, image, IMAGE_WORDS, &readable, true);
    check(host_told(r, LURGABEL_SERVED, LURGABEL_ACCEPTED, LURGABEL_NO_DECIDER), "served and accepted");
    r = lurgabel_round(&c, image, IMAGE_WORDS, &unreadable, false);
    check(host_told(r, LURGABEL_SERVED, LURGABEL_DENIED, LURGABEL_BY_REGION_6), "denied, and no step is asked");
    r = lurgabel_round(&c, image, IMAGE_WORDS, NULL, true);
    check(host_told(r, LURGABEL_UNASKED, LURGABEL_ACCEPTED, LURGABEL_NO_DECIDER) && r.step_turn == LURGABEL_SERVED,
          "the step alone");
    r = lurgabel_round(&c, image, IMAGE_WORDS, NULL, false);
    check(host_told(r, LURGABEL_UNASKED, LURGABEL_ACCEPTED, LURGABEL_NO_DECIDER), "nobody asks");
    c.lost_turns[1] = LURGABEL_LOST_LIMIT;
    r = lurgabel_round(&c, image, IMAGE_WORDS, &unreadable, true);
    check(host_told(r, LURGABEL_WAITING, LURGABEL_ACCEPTED, LURGABEL_NO_DECIDER) && r.step_turn == LURGABEL_SERVED,
          "a denied read that waits");
    c.regions[5] = region(0, 1, 1, LURGABEL_CAN_PROGRAM);
    r = lurgabel_round(&c, image, IMAGE_WORDS, &other_bank, true);
    check(host_told(r, LURGABEL_SERVED, LURGABEL_DENIED, LURGABEL_BY_REGION_5) && r.step_turn == LURGABEL_SERVED,
          "denied beside a step that is served");
}

/* ---- a denied read, and the record ----------------------------------------------------------------------------- */

/* Reported at its start; its steps are accepted and deliver a stored word and two of ones, in rounds too. */
static void test_denied_read_by_steps(void) {
    lurgabel_controller c = ready();
    lurgabel_controller expected = c;
    lurgabel_decider by = UNWRITTEN;
    lurgabel_movement movement;
    lurgabel_round_reply r;
    uint32_t word, i;
    c.regions[3] = expected.regions[3] = region(1, 1, 1, LURGABEL_CAN_PROGRAM | LURGABEL_CAN_ERASE);
    expected.recorded = LURGABEL_RECORDED(LURGABEL_DENIED);
    expected.last_address = 0x400;
    expected.progress.operation = on_data(LURGABEL_READ, 0x3FC, 3);
    expected.progress.readable = 1;
    expected.progress.running = 1;
    memset(image, 0, sizeof image);
    check(lurgabel_start_by(&c, on_data(LURGABEL_READ, 0x3FC, 3), &by) == LURGABEL_DENIED, "denied read");
    check(by == LURGABEL_BY_REGION_3 && same(&expected, &c), "it starts, and is recorded");
    check(lurgabel_step(&c, image, IMAGE_WORDS, &movement, NULL) == LURGABEL_ACCEPTED && movement == LURGABEL_MOVED,
          "its first step");
    r = lurgabel_round(&c, image, IMAGE_WORDS, NULL, true);
    check(r.step_answer == LURGABEL_ACCEPTED && r.movement == LURGABEL_MOVED, "its second step, in a round");
    check(r.host_turn == LURGABEL_UNASKED && r.host_decider == LURGABEL_NO_DECIDER, "which reports nobody");
    check(lurgabel_step(&c, image, IMAGE_WORDS, &movement, NULL) == LURGABEL_ACCEPTED && movement == LURGABEL_FINISHED,
          "its last step");
    for (i = 0; i < 3; i++) {
        check_at(lurgabel_pop(&c, &word) == LURGABEL_ACCEPTED && word == (i == 0 ? 0 : LURGABEL_ERASED), "its word", i);
    }
}

/* Whoever decided: the kind and the operation's own address are recorded, and nothing else. */
static void test_recorded_alike(lurgabel_controller c, lurgabel_operation o, lurgabel_decider decider,
                                const char *what) {
    lurgabel_controller whole = c;
    lurgabel_controller expected = c;
    lurgabel_decider by = UNWRITTEN;
    uint32_t bits = 1;
    expected.recorded = LURGABEL_RECORDED(LURGABEL_DENIED);
    expected.last_address = o.address;
    check(lurgabel_start_by(&c, o, &by) == LURGABEL_DENIED && by == decider && same(&expected, &c), what);
    by = UNWRITTEN;
    check(lurgabel_run_by(&whole, image, IMAGE_WORDS, o, buffer, 1, &bits, &by) == LURGABEL_DENIED && by == decider,
          what);
    check(bits == 0 && same(&expected, &whole), what);
}

static void test_not_recorded(void) {
    lurgabel_controller c = littered();
    c.regions[7] = region(2, 1, 1, LURGABEL_CAN_READ);
    test_recorded_alike(c, on_data(LURGABEL_PROGRAM, 0x844, 1), LURGABEL_BY_REGION_7, "region's denial");
    c.default_rights = LURGABEL_CAN_READ;
    test_recorded_alike(c, on_data(LURGABEL_PAGE_ERASE, 0x7FC, 0), LURGABEL_BY_DEFAULT, "default's denial");
    test_recorded_alike(c, operation(LURGABEL_PROGRAM, 1, 1, 4, 1), LURGABEL_BY_PAGE_SETTING, "setting's denial");
    test_recorded_alike(c, operation(LURGABEL_PROGRAM, 1, 0, 0xBFC, 1), LURGABEL_BY_SEED_LOCK, "seed lock's denial");
    test_recorded_alike(c, on_data(LURGABEL_BANK_ERASE, 0x47FC, 0), LURGABEL_BY_BANK_PERMISSION, "bank's denial");
}

void test_reports(void) {
    test_forms();
    test_other_refusals_of_operations();
    test_acceptance();
    test_other_answers_to_the_host();
    test_round_reports();
    test_denied_read_by_steps();
    test_not_recorded();
}
