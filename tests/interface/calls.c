/* Every call in every state, and what a refused one leaves. */
#include "tests.h"

lurgabel_answer call_set_inputs(lurgabel_controller *c) {
    return lurgabel_set_inputs(c, true, true);
}

lurgabel_answer call_set_region(lurgabel_controller *c) {
    return lurgabel_set_region(c, 7, region(1, 2, 1, 3));
}

lurgabel_answer call_set_default_rights(lurgabel_controller *c) {
    return lurgabel_set_default_rights(c, 3);
}

lurgabel_answer call_set_info_page(lurgabel_controller *c) {
    return lurgabel_set_info_page(c, 1, 2, 1, page_setting(1, 3));
}

lurgabel_answer call_set_bank_erase(lurgabel_controller *c) {
    return lurgabel_set_bank_erase(c, 1, true);
}

lurgabel_answer call_clear_errors(lurgabel_controller *c) {
    return lurgabel_clear_errors(c);
}

static lurgabel_answer call_initialise(lurgabel_controller *c) {
    return lurgabel_initialise(c, image, IMAGE_WORDS, NULL);
}

static lurgabel_answer call_start(lurgabel_controller *c) {
    return lurgabel_start(c, on_data(LURGABEL_READ, 0, 1));
}

static lurgabel_answer call_step(lurgabel_controller *c) {
    return lurgabel_step(c, image, IMAGE_WORDS, NULL, NULL);
}

static lurgabel_answer call_push(lurgabel_controller *c) {
    return lurgabel_push(c, 1);
}

static lurgabel_answer call_pop(lurgabel_controller *c) {
    return lurgabel_pop(c, NULL);
}

static lurgabel_answer call_run(lurgabel_controller *c) {
    return lurgabel_run(c, image, IMAGE_WORDS, on_data(LURGABEL_READ, 0, 1), buffer, 1, NULL);
}

static lurgabel_answer call_run_for(lurgabel_controller *c) {
    return lurgabel_run_for(c, image, IMAGE_WORDS, on_data(LURGABEL_READ, 0, 1), buffer, 1, NULL, 1, NULL);
}

lurgabel_answer call_host_read(lurgabel_controller *c) {
    return lurgabel_host_read(c, image, IMAGE_WORDS, 0, NULL);
}

lurgabel_answer call_view(lurgabel_controller *c) {
    lurgabel_answer answer;
    const uint32_t *page = lurgabel_view(c, image, IMAGE_WORDS, 0, &answer);
    return page == NULL || page == image ? answer : LURGABEL_INVALID;
}

/* Both sides ask; the host's bank is that of the operations in `states` below. */
static lurgabel_round_reply round_at_0(lurgabel_controller *c) {
    static const uint32_t address = 0;
    return lurgabel_round(c, image, IMAGE_WORDS, &address, true);
}

lurgabel_answer call_round_host(lurgabel_controller *c) {
    return round_at_0(c).host_answer;
}

static lurgabel_answer call_round_step(lurgabel_controller *c) {
    return round_at_0(c).step_answer;
}

static lurgabel_answer call_rma(lurgabel_controller *c) {
    return lurgabel_rma(c, image, IMAGE_WORDS);
}

/* Into a blank page, and out of one. */
static lurgabel_answer call_write_scan(lurgabel_controller *c) {
    static const uint8_t byte = 7;
    lurgabel_blank_image(image, IMAGE_WORDS);
    return lurgabel_write_scan(c, image, IMAGE_WORDS, 0, 1, &byte, 1);
}

static lurgabel_answer call_take_scan(lurgabel_controller *c) {
    lurgabel_blank_image(image, IMAGE_WORDS);
    return lurgabel_take_scan(c, image, IMAGE_WORDS, 0, 1, NULL);
}

static lurgabel_answer call_reset(lurgabel_controller *c) {
    return lurgabel_reset(c, 16);
}

static lurgabel_answer call_reset_to_9(lurgabel_controller *c) {
    return lurgabel_reset(c, 9);
}

/* A call, and its answers in the states of `states` below. */
typedef struct call {
    const char *name;
    lurgabel_answer (*perform)(lurgabel_controller *c);
    uint8_t answers[7];
} call;

static lurgabel_controller (*const states[7])(void) = {
    zeros, uninitialised, disabled, locked, ready, reading, programming,
};

static const call calls[] = {
    {"set_inputs", call_set_inputs, {1, 0, 0, 0, 0, 4, 4}},
    {"set_region", call_set_region, {1, 0, 0, 0, 0, 4, 4}},
    {"set_default_rights", call_set_default_rights, {1, 0, 0, 0, 0, 4, 4}},
    {"set_info_page", call_set_info_page, {1, 0, 0, 0, 0, 4, 4}},
    {"set_bank_erase", call_set_bank_erase, {1, 0, 0, 0, 0, 4, 4}},
    {"clear_errors", call_clear_errors, {1, 0, 0, 0, 0, 0, 0}},
    {"initialise", call_initialise, {1, 0, 2, 12, 12, 12, 12}},
    {"start", call_start, {1, 3, 2, 9, 0, 4, 4}},
    {"step", call_step, {1, 3, 2, 12, 12, 0, 0}},
    {"push", call_push, {1, 3, 2, 12, 12, 12, 0}},
    {"pop", call_pop, {1, 10, 10, 10, 10, 10, 0}},
    {"run", call_run, {1, 3, 2, 9, 0, 4, 4}},
    {"run_for", call_run_for, {1, 3, 2, 9, 0, 4, 4}},
    {"host_read", call_host_read, {1, 3, 2, 9, 0, 0, 0}},
    {"view", call_view, {1, 3, 2, 9, 0, 0, 0}},
    {"round, the host", call_round_host, {1, 3, 2, 9, 0, 0, 0}},
    {"round, the step", call_round_step, {1, 3, 2, 12, 12, 0, 0}},
    {"rma", call_rma, {1, 0, 2, 0, 0, 4, 4}},
    {"write_scan", call_write_scan, {1, 3, 2, 16, 0, 4, 4}},
    {"take_scan", call_take_scan, {1, 3, 2, 16, 19, 4, 4}},
    {"reset", call_reset, {0, 0, 0, 0, 0, 0, 0}},
    {"reset with D = 9", call_reset_to_9, {1, 1, 1, 1, 1, 1, 1}},
};

#define CALL_COUNT (sizeof calls / sizeof calls[0])

/* Every call in every state. A refusal other than a recorded one leaves the controller as it was. */
void test_answers(void) {
    size_t i, s;
    for (i = 0; i < CALL_COUNT; i++) {
        for (s = 0; s < 7; s++) {
            lurgabel_controller before = states[s]();
            lurgabel_controller after = before;
            lurgabel_answer answer = calls[i].perform(&after);
            check_at(answer == (lurgabel_answer)calls[i].answers[s], calls[i].name, s);
            if (answer != LURGABEL_ACCEPTED && answer != LURGABEL_DENIED) {
                check_at(same(&before, &after), calls[i].name, s);
            }
        }
    }
}

static bool sets_lost_turns(const call *made) {
    return made->perform == call_round_host || made->perform == call_round_step || made->perform == call_reset;
}

/* Rounds and a reset alone change the lost turns, and no other answer depends on them. */
void test_lost_turns_left(void) {
    size_t i, s;
    for (i = 0; i < CALL_COUNT; i++) {
        for (s = 0; !sets_lost_turns(&calls[i]) && s < 7; s++) {
            lurgabel_controller c = states[s]();
            c.lost_turns[0] = LURGABEL_LOST_LIMIT;
            c.lost_turns[1] = 3;
            check_at(calls[i].perform(&c) == (lurgabel_answer)calls[i].answers[s], calls[i].name, s);
            check_at(c.lost_turns[0] == LURGABEL_LOST_LIMIT && c.lost_turns[1] == 3, calls[i].name, s);
        }
    }
}

/* One field alone is other than 0: a refused call leaves it, and nothing beside it. */
static void test_handed_back_by(const call *refused) {
    size_t i, element;
    for (i = 0; i < FIELD_COUNT; i++) {
        for (element = 0; element < fields[i].elements; element++) {
            lurgabel_controller before = zeros();
            lurgabel_controller after;
            put(&before, &fields[i], element, 0xA5C3960Fu);
            after = before;
            check_at(refused->perform(&after) == LURGABEL_INVALID, fields[i].name, element);
            check_at(same(&before, &after), fields[i].name, element);
        }
    }
}

/* Every number is another one, and the phase encodes nothing. */
static lurgabel_controller broken_everywhere(uint32_t first) {
    uint32_t numbers[LURGABEL_NUMBERS];
    lurgabel_controller c;
    uint32_t i;
    for (i = 0; i < LURGABEL_NUMBERS; i++) {
        numbers[i] = first + 0x01010101u * i;
    }
    memcpy(&c, numbers, sizeof c);
    c.phase = 9;
    return c;
}

static void test_left_by(const call *refused, lurgabel_controller before) {
    lurgabel_controller after = before;
    check(refused->perform(&after) == LURGABEL_INVALID, refused->name);
    check(same(&before, &after), refused->name);
}

/* Rights, flags, kinds and lost turns that no controller has, in a state that is otherwise valid. */
static void test_large_left_by(const call *refused) {
    lurgabel_controller c = programming();
    c.regions[7].rights = 256;
    test_left_by(refused, c);
    c = littered();
    c.info_pages[25].rights = 0x80000000u;
    test_left_by(refused, c);
    c = ready();
    c.bank_erase[1] = 257;
    test_left_by(refused, c);
    c = erasing_bank();
    c.progress.operation.kind = 259;
    test_left_by(refused, c);
    c = programming();
    c.lost_turns[0] = LURGABEL_LOST_LIMIT + 1;
    test_left_by(refused, c);
    c = uninitialised();
    c.lost_turns[1] = 0xFFFFFFFFu;
    test_left_by(refused, c);
}

void test_handed_back(void) {
    size_t i;
    for (i = 0; i < CALL_COUNT; i++) {
        if (calls[i].perform != call_reset) {
            test_handed_back_by(&calls[i]);
            test_left_by(&calls[i], broken_everywhere(0));
            test_left_by(&calls[i], broken_everywhere(0x80000000u));
            test_large_left_by(&calls[i]);
        }
    }
}
