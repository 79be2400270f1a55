/* Rounds: who is served, what each side is told, and the lost turns. */
#include "tests.h"

static lurgabel_round_reply both_ask(lurgabel_controller *c, uint32_t address) {
    return lurgabel_round(c, image, IMAGE_WORDS, &address, true);
}

/* Anything but a denial, so that nobody decided it. */
static bool host_told(lurgabel_round_reply r, lurgabel_turn turn, lurgabel_answer answer, uint32_t word) {
    return r.host_turn == turn && r.host_answer == answer && r.host_decider == LURGABEL_NO_DECIDER && r.word == word;
}

static bool step_told(lurgabel_round_reply r, lurgabel_turn turn, lurgabel_answer answer, lurgabel_movement movement,
                      uint32_t bits) {
    return r.step_turn == turn && r.step_answer == answer && r.movement == movement && r.bits == bits;
}

static bool host_waits(lurgabel_round_reply r) {
    return host_told(r, LURGABEL_WAITING, LURGABEL_ACCEPTED, 0);
}

static bool step_waits(lurgabel_round_reply r) {
    return step_told(r, LURGABEL_WAITING, LURGABEL_ACCEPTED, LURGABEL_STALLED, 0);
}

static bool host_unasked(lurgabel_round_reply r) {
    return host_told(r, LURGABEL_UNASKED, LURGABEL_ACCEPTED, 0);
}

static bool step_unasked(lurgabel_round_reply r) {
    return step_told(r, LURGABEL_UNASKED, LURGABEL_ACCEPTED, LURGABEL_NONE, 0);
}

static bool lost(const lurgabel_controller *c, uint32_t bank_0, uint32_t bank_1) {
    return c->lost_turns[0] == bank_0 && c->lost_turns[1] == bank_1;
}

/* The state that `make` gives, with lost turns. */
static lurgabel_controller with_lost(lurgabel_controller (*make)(void), uint32_t bank_0, uint32_t bank_1) {
    lurgabel_controller c = make();
    c.lost_turns[0] = bank_0;
    c.lost_turns[1] = bank_1;
    return c;
}

/* A word for the host at 0x100, in bank 0 as is the next one of programming(), at 0x44. */
static void put_polled_word(void) {
    lurgabel_blank_image(image, IMAGE_WORDS);
    image[64] = 0xCAFE;
}

static bool polled_word_told(lurgabel_round_reply r) {
    return host_told(r, LURGABEL_SERVED, LURGABEL_ACCEPTED, 0xCAFE);
}

/* Five rounds are the host's, the sixth is the step's, and then it begins anew. */
static void test_contest(void) {
    lurgabel_controller c = with_lost(programming, 0, 3);
    lurgabel_controller expected = c;
    lurgabel_round_reply r;
    put_polled_word();
    while (expected.lost_turns[0] < LURGABEL_LOST_LIMIT) {
        expected.lost_turns[0]++;
        r = both_ask(&c, 0x100);
        check_at(polled_word_told(r) && step_waits(r), "the host goes first", expected.lost_turns[0]);
        check_at(same(&expected, &c) && image[17] == LURGABEL_ERASED, "the count alone", expected.lost_turns[0]);
    }
    r = both_ask(&c, 0x100);
    check(host_waits(r) && step_told(r, LURGABEL_SERVED, LURGABEL_ACCEPTED, LURGABEL_MOVED, 19), "the step goes");
    check(lost(&c, 0, 3) && c.progress.moved == 2 && image[17] == 0x12345678, "what the step leaves");
    r = both_ask(&c, 0x100);
    check(polled_word_told(r) && step_waits(r) && lost(&c, 1, 3), "the host goes first again");
}

/* At the limit the host waits even if its read would be refused. */
static void test_limit_before_refusal(void) {
    lurgabel_controller c = with_lost(erasing_page, 0, LURGABEL_LOST_LIMIT);
    lurgabel_round_reply r = both_ask(&c, 0x8000);
    check(host_waits(r) && r.step_turn == LURGABEL_SERVED && r.movement == LURGABEL_MOVED, "a refused read waits");
    check(lost(&c, 0, 0), "and the count returns to 0");
}

/* What a host asks for, the bank that it is counted in, and the answer. */
typedef struct asked_read {
    uint32_t address, bank;
    lurgabel_answer answer;
} asked_read;

/* One turn is lost where the next word of `c` lies in the host's bank, and none elsewhere. */
static void test_banks(lurgabel_controller c, uint32_t bank, asked_read host) {
    bool contest = host.bank == bank;
    lurgabel_round_reply r = both_ask(&c, host.address);
    check_at(r.host_turn == LURGABEL_SERVED && r.host_answer == host.answer, "host read", host.address);
    check_at(r.step_turn == (contest ? LURGABEL_WAITING : LURGABEL_SERVED), "step", host.address);
    check_at(c.lost_turns[bank] == (contest ? 1u : 0u) && c.lost_turns[1 - bank] == 0, "lost turns", host.address);
}

/* An address past the pages is counted in bank 1; a refused read uses its turn. */
static void test_host_bank(void) {
    static const asked_read reads[] = {
        {0, 0, LURGABEL_ACCEPTED},          {0x3FFC, 0, LURGABEL_ACCEPTED},
        {0x3FFF, 0, LURGABEL_MALFORMED},    {0x4000, 1, LURGABEL_ACCEPTED},
        {0x4001, 1, LURGABEL_MALFORMED},    {0x7FFC, 1, LURGABEL_ACCEPTED},
        {0x8000, 1, LURGABEL_OUT_OF_RANGE}, {0xFFFFFFFCu, 1, LURGABEL_OUT_OF_RANGE},
    };
    static const asked_read denied = {0, 0, LURGABEL_DENIED};
    size_t i;
    for (i = 0; i < sizeof reads / sizeof reads[0]; i++) {
        test_banks(programming(), 0, reads[i]);
        test_banks(erasing_page(), 1, reads[i]);
    }
    test_banks(reading_denied(), 0, denied);
}

static void test_step_in(uint32_t bank, lurgabel_controller c) {
    static const asked_read reads[] = {{0, 0, LURGABEL_ACCEPTED}, {0x7FFC, 1, LURGABEL_ACCEPTED}};
    test_banks(c, bank, reads[0]);
    test_banks(c, bank, reads[1]);
}

static lurgabel_controller erasing_info_page(uint32_t index) {
    info_page p = info_page_at(index);
    lurgabel_controller c = ready();
    c.info_pages[index] = page_setting(1, LURGABEL_ALL_RIGHTS);
    c.progress.operation = operation(LURGABEL_PAGE_ERASE, LURGABEL_INFORMATION, p.info_type, address_of(p), 0);
    c.progress.running = 1;
    return c;
}

/* A read of the last word of bank 0 and the first one of bank 1 changes its bank, also if a page of it is denied. */
static void test_read_into_bank_1(uint32_t denied_page, uint32_t readable) {
    lurgabel_controller c = in_progress(LURGABEL_READ, 0x3FFC, 2);
    c.regions[5] = region(denied_page, 1, 1, LURGABEL_CAN_PROGRAM);
    c.progress.readable = readable;
    test_step_in(0, c);
    c.progress.moved = 1;
    test_step_in(1, c);
}

/* Information pages are their bank's. */
static void test_step_bank(void) {
    test_step_in(0, reading());
    test_step_in(1, erasing_bank());
    test_step_in(0, erasing_info_page(12));
    test_step_in(1, erasing_info_page(13));
    test_read_into_bank_1(14, 2);
    test_read_into_bank_1(15, 0);
    test_read_into_bank_1(16, 1);
}

/* D moves the border of the banks: with 10 data pages bank 1 begins at 0x2800. */
static void test_border(void) {
    static const uint32_t last_of_bank_0 = 0x27FC, first_of_bank_1 = 0x2800;
    lurgabel_controller c = in_progress(LURGABEL_PAGE_ERASE, 0x2800, 0);
    lurgabel_round_reply r;
    c.data_pages = 10;
    r = lurgabel_round(&c, image, LURGABEL_IMAGE_WORDS(10), &last_of_bank_0, true);
    check(r.host_turn == LURGABEL_SERVED && r.step_turn == LURGABEL_SERVED && lost(&c, 0, 0), "last word of bank 0");
    r = lurgabel_round(&c, image, LURGABEL_IMAGE_WORDS(10), &first_of_bank_1, true);
    check(r.host_turn == LURGABEL_SERVED && step_waits(r) && lost(&c, 0, 1), "first word of bank 1");
}

/* In different banks both are served, also at the limit, and the counts stay. */
static void test_both_served(void) {
    lurgabel_controller c = with_lost(erasing_page, LURGABEL_LOST_LIMIT, LURGABEL_LOST_LIMIT);
    lurgabel_round_reply r;
    put_polled_word();
    image[11264] = 0;
    r = both_ask(&c, 0x100);
    check(polled_word_told(r) && step_told(r, LURGABEL_SERVED, LURGABEL_ACCEPTED, LURGABEL_MOVED, 32), "both served");
    check(lost(&c, LURGABEL_LOST_LIMIT, LURGABEL_LOST_LIMIT) && image[11264] == LURGABEL_ERASED, "the counts stay");
}

/* A step that moves no word is answered at once, and keeps the host from nothing. */
static void test_moves_no_word(lurgabel_controller before, lurgabel_answer answer, lurgabel_movement movement,
                               const char *what) {
    lurgabel_controller after = before;
    lurgabel_round_reply r = both_ask(&after, 0x100);
    check(polled_word_told(r) && step_told(r, LURGABEL_SERVED, answer, movement, 0), what);
    check(same(&before, &after), what);
}

static void test_no_contest(void) {
    lurgabel_controller empty = with_lost(programming, LURGABEL_LOST_LIMIT, 0);
    lurgabel_controller full = with_lost(reading, LURGABEL_LOST_LIMIT, 0);
    empty.program_queue.length = 0;
    full.read_queue.length = LURGABEL_QUEUE_WORDS;
    put_polled_word();
    test_moves_no_word(empty, LURGABEL_ACCEPTED, LURGABEL_STALLED, "program queue empty");
    test_moves_no_word(full, LURGABEL_ACCEPTED, LURGABEL_STALLED, "read queue full");
    test_moves_no_word(with_lost(ready, LURGABEL_LOST_LIMIT, 0), LURGABEL_UNEXPECTED, LURGABEL_NONE,
                       "nothing in progress");
}

/* Whoever asks alone is served, also at the limit, and the count stays. A host without an address asks for nothing. */
static void test_alone(void) {
    static const uint32_t address = 0x100;
    lurgabel_controller c = with_lost(programming, LURGABEL_LOST_LIMIT, 0);
    lurgabel_controller before = c;
    lurgabel_round_reply r;
    put_polled_word();
    r = lurgabel_round(&c, image, IMAGE_WORDS, NULL, false);
    check(host_unasked(r) && step_unasked(r) && same(&before, &c), "nobody asks");
    r = lurgabel_round(&c, image, IMAGE_WORDS, &address, false);
    check(polled_word_told(r) && step_unasked(r) && same(&before, &c), "the host alone");
    r = lurgabel_round(&c, image, IMAGE_WORDS, NULL, true);
    check(host_unasked(r) && step_told(r, LURGABEL_SERVED, LURGABEL_ACCEPTED, LURGABEL_MOVED, 19), "the step alone");
    check(lost(&c, LURGABEL_LOST_LIMIT, 0) && c.progress.moved == 2, "the count stays");
}

/* Any flag but 0 is on. The library does not look at the address of a host that asks for nothing. */
static void test_round_flags(void) {
    static const uint32_t on[] = {1, 2, 128, 255, 256, 0x80000000u, 0xFFFFFFFFu};
    size_t i;
    for (i = 0; i < sizeof on / sizeof on[0]; i++) {
        lurgabel_controller c = programming();
        lurgabel_rounded r = lurgabel_layout4_round(&c, image, IMAGE_WORDS, on[i], 0, on[i]);
        check_at(r.host_turn == LURGABEL_SERVED && r.step_turn == LURGABEL_WAITING, "both ask", i);
        r = lurgabel_layout4_round(&c, image, IMAGE_WORDS, 0, on[i], on[i]);
        check_at(r.host_turn == LURGABEL_UNASKED && r.step_turn == LURGABEL_SERVED && lost(&c, 1, 0), "step alone", i);
    }
}

/* Each side that asks is answered 1 where the state is invalid, and nobody else. */
static void test_invalid_round(void) {
    static const uint32_t address = 0x8000;
    lurgabel_controller before = with_lost(programming, LURGABEL_LOST_LIMIT + 1, 0);
    lurgabel_controller c = before;
    lurgabel_round_reply r = both_ask(&c, address);
    check(host_told(r, LURGABEL_SERVED, LURGABEL_INVALID, 0) &&
              step_told(r, LURGABEL_SERVED, LURGABEL_INVALID, LURGABEL_NONE, 0), "both refused");
    r = lurgabel_round(&c, image, IMAGE_WORDS, &address, false);
    check(host_told(r, LURGABEL_SERVED, LURGABEL_INVALID, 0) && step_unasked(r), "the host refused");
    r = lurgabel_round(&c, image, IMAGE_WORDS, NULL, true);
    check(host_unasked(r) && step_told(r, LURGABEL_SERVED, LURGABEL_INVALID, LURGABEL_NONE, 0), "the step refused");
    r = lurgabel_round(&c, image, IMAGE_WORDS, NULL, false);
    check(host_unasked(r) && step_unasked(r) && same(&before, &c), "nobody asks of an invalid state");
}

void test_rounds(void) {
    test_contest();
    test_limit_before_refusal();
    test_host_bank();
    test_step_bank();
    test_border();
    test_both_served();
    test_no_contest();
    test_alone();
    test_round_flags();
    test_invalid_round();
}
