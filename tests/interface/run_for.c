/* A whole operation for a number of steps: with one for each word it is lurgabel_run, with fewer its first steps. */
#include "tests.h"

/* ---- an operation, made in three ways -------------------------------------------------------------------------- */

/* All that is told and left. */
typedef struct outcome {
    lurgabel_controller left;
    lurgabel_answer answer;
    lurgabel_decider by;
    uint32_t bits;
    uint32_t buffer[32];
    uint32_t flash[IMAGE_WORDS];
} outcome;

static outcome ran, driven;

/* No two words are the same, and none is erased. */
static void begin(outcome *o, lurgabel_controller c) {
    uint32_t i;
    for (i = 0; i < IMAGE_WORDS; i++) {
        o->flash[i] = 0xC0DE0000u + i;
    }
    for (i = 0; i < 32; i++) {
        o->buffer[i] = 0x600DF000u + i;
    }
    o->left = c;
    o->by = UNWRITTEN;
    o->bits = 77;
}

static bool same_outcomes(void) {
    return same(&ran.left, &driven.left) && ran.answer == driven.answer && ran.by == driven.by &&
           ran.bits == driven.bits && memcmp(ran.buffer, driven.buffer, sizeof ran.buffer) == 0 &&
           memcmp(ran.flash, driven.flash, sizeof ran.flash) == 0;
}

static void run_whole(lurgabel_controller c, lurgabel_operation o) {
    begin(&ran, c);
    ran.answer = lurgabel_run_by(&ran.left, ran.flash, IMAGE_WORDS, o, ran.buffer, 32, &ran.bits, &ran.by);
}

/* The calls for a word: those of a read pop it, those of a program push it. */
static void make_step(lurgabel_operation o, uint32_t k) {
    uint32_t bits = 0;
    bool accepted = o.kind != LURGABEL_PROGRAM || lurgabel_push(&ran.left, ran.buffer[k]) == LURGABEL_ACCEPTED;
    accepted = accepted && lurgabel_step(&ran.left, ran.flash, IMAGE_WORDS, NULL, &bits) == LURGABEL_ACCEPTED;
    ran.bits += bits;
    if (o.kind == LURGABEL_READ) {
        accepted = accepted && lurgabel_pop(&ran.left, &ran.buffer[k]) == LURGABEL_ACCEPTED;
    }
    check_at(accepted, "a step by the calls", k);
}

static void run_by_calls(lurgabel_controller c, lurgabel_operation o, uint32_t steps) {
    uint32_t k;
    begin(&ran, c);
    ran.answer = lurgabel_start_by(&ran.left, o, &ran.by);
    ran.bits = 0;
    for (k = 0; k < steps; k++) {
        make_step(o, k);
    }
}

static void run_for(lurgabel_controller c, lurgabel_operation o, uint32_t steps, uint32_t cut, const char *what) {
    uint32_t was_cut = 77;
    begin(&driven, c);
    driven.answer = lurgabel_run_for_by(&driven.left, driven.flash, IMAGE_WORDS, o, driven.buffer, 32, &driven.bits,
                                        &driven.by, steps, &was_cut);
    check_at(was_cut == cut, what, steps);
    check_at(same_outcomes(), what, steps);
}

static uint32_t steps_left(lurgabel_controller c, lurgabel_operation o, uint32_t steps) {
    begin(&driven, c);
    return lurgabel_layout4_run_for(&driven.left, driven.flash, IMAGE_WORDS, o, driven.buffer, 32, steps).left;
}

/* ---- enough steps, and too few --------------------------------------------------------------------------------- */

static void test_enough(lurgabel_controller c, lurgabel_operation o, uint32_t words, const char *what) {
    run_whole(c, o);
    run_for(c, o, words, 0, what);
    run_for(c, o, words + 1, 0, what);
    run_for(c, o, UINT32_MAX, 0, what);
    check(steps_left(c, o, words) == 0, what);
    check(steps_left(c, o, words + 5) == 5, what);
    check(steps_left(c, o, UINT32_MAX) == UINT32_MAX - words, what);
}

static void test_cut_after(lurgabel_controller c, lurgabel_operation o, uint32_t steps, const char *what) {
    run_by_calls(c, o, steps);
    run_for(c, o, steps, 1, what);
    check_at(driven.left.progress.running == 1 && driven.left.progress.moved == steps, what, steps);
    check_at(steps_left(c, o, steps) == 0, what, steps);
}

static void test_every_cut(lurgabel_controller c, lurgabel_operation o, uint32_t words, const char *what) {
    uint32_t steps;
    test_enough(c, o, words, what);
    for (steps = 0; steps < words; steps++) {
        test_cut_after(c, o, steps, what);
    }
}

static lurgabel_controller page_1_denied(void) {
    lurgabel_controller c = ready();
    c.regions[5] = region(1, 1, 1, LURGABEL_CAN_PROGRAM);
    return c;
}

static void test_kinds(void) {
    static const uint32_t cuts[] = {0, 1, 2047, 4095};
    const lurgabel_operation bank_erase = on_data(LURGABEL_BANK_ERASE, 0x4000, 0);
    lurgabel_controller c = ready();
    size_t i;
    test_every_cut(c, on_data(LURGABEL_READ, 0x3E0, 20), 20, "read");
    test_every_cut(open_everywhere(), operation(LURGABEL_READ, 1, 2, 0x4000, 3), 3, "read of an information page");
    test_every_cut(locked(), on_data(LURGABEL_READ, 0x40, 3), 3, "denied read");
    test_every_cut(page_1_denied(), on_data(LURGABEL_READ, 0x3F8, 20), 20, "read that runs into a denied page");
    test_every_cut(c, on_data(LURGABEL_PROGRAM, 0x4040, 16), 16, "program");
    test_every_cut(open_everywhere(), operation(LURGABEL_PROGRAM, 1, 1, 0, 1), 1, "program of an information page");
    test_every_cut(c, on_data(LURGABEL_PAGE_ERASE, 0x7FFC, 0), 256, "page erase");
    c.bank_erase[1] = 1;
    test_enough(c, bank_erase, 4096, "bank erase");
    for (i = 0; i < sizeof cuts / sizeof cuts[0]; i++) {
        test_cut_after(c, bank_erase, cuts[i], "bank erase");
    }
}

/* ---- refusals -------------------------------------------------------------------------------------------------- */

/* Refused as the whole operation is: not cut, no step made, and nothing left but the record of the whole operation. */
static void test_refused(lurgabel_controller c, lurgabel_operation o, lurgabel_answer answer, const char *what) {
    run_whole(c, o);
    check(ran.answer == answer, what);
    run_for(c, o, 0, 0, what);
    run_for(c, o, UINT32_MAX, 0, what);
    check(steps_left(c, o, 0) == 0 && steps_left(c, o, 3) == 3, what);
}

static void test_refusals(void) {
    const lurgabel_operation read = on_data(LURGABEL_READ, 0, 4);
    lurgabel_controller c = ready();
    test_refused(zeros(), read, LURGABEL_INVALID, "no state");
    test_refused(disabled(), read, LURGABEL_DISABLED, "disabled");
    test_refused(uninitialised(), read, LURGABEL_UNINITIALISED, "uninitialised");
    test_refused(reading(), on_data(4, 0, 4), LURGABEL_BUSY, "an operation in progress");
    c.read_queue.length = 1;
    test_refused(c, on_data(4, 0, 4), LURGABEL_BUSY, "a word in a queue");
    test_refused(ready(), on_data(4, 0, 33), LURGABEL_MALFORMED, "no such kind");
    test_refused(ready(), on_data(LURGABEL_READ, 0x8000, 33), LURGABEL_SHORT_BUFFER, "short buffer");
    test_refused(ready(), on_data(LURGABEL_READ, 0x7FFC, 2), LURGABEL_OUT_OF_RANGE, "past the last page");
    test_refused(ready(), on_data(LURGABEL_PROGRAM, 0x3C, 2), LURGABEL_CROSSES_WINDOW, "two windows");
    test_refused(locked(), on_data(LURGABEL_PROGRAM, 0, 1), LURGABEL_DENIED, "denied program");
    test_refused(locked(), on_data(LURGABEL_PAGE_ERASE, 0, 0), LURGABEL_DENIED, "denied page erase");
    test_refused(ready(), on_data(LURGABEL_BANK_ERASE, 0, 0), LURGABEL_DENIED, "denied bank erase");
}

/* ---- places that are not there --------------------------------------------------------------------------------- */

/* The form that does not ask who decided, and NULL in each place, change nothing else. */
static void test_no_places(lurgabel_controller c, lurgabel_operation o, uint32_t steps) {
    uint32_t cut = 77;
    run_by_calls(c, o, steps);
    begin(&driven, c);
    driven.answer = lurgabel_run_for(&driven.left, driven.flash, IMAGE_WORDS, o, driven.buffer, 32, &driven.bits, steps,
                                     &cut);
    driven.by = ran.by;
    check_at(cut == 1 && same_outcomes(), "the form that does not ask who decided", steps);
    begin(&driven, c);
    driven.answer =
        lurgabel_run_for_by(&driven.left, driven.flash, IMAGE_WORDS, o, driven.buffer, 32, NULL, NULL, steps, NULL);
    driven.by = ran.by;
    driven.bits = ran.bits;
    check_at(same_outcomes(), "no places", steps);
}

/* An erase needs no buffer. */
static void test_no_buffer(void) {
    lurgabel_controller c = ready();
    uint32_t bits, cut;
    lurgabel_blank_image(image, IMAGE_WORDS);
    image[0] = image[1] = 0;
    check(lurgabel_run_for(&c, image, IMAGE_WORDS, on_data(LURGABEL_PAGE_ERASE, 0, 0), NULL, 0, &bits, 1, &cut) ==
              LURGABEL_ACCEPTED && bits == 32 && cut == 1, "an erase without a buffer");
    check(image[0] == LURGABEL_ERASED && image[1] == 0, "its first step");
}

void test_run_for(void) {
    test_kinds();
    test_refusals();
    test_no_places(ready(), on_data(LURGABEL_PROGRAM, 0x40, 4), 3);
    test_no_places(page_1_denied(), on_data(LURGABEL_READ, 0x3F8, 4), 3);
    test_no_buffer();
}
