/* What stands where no rule looks: which calls keep it, and which put zeros there. */
#include "tests.h"

/* A call that changes neither the progress nor a queue leaves them as they are, litter included. */
static void test_litter_kept(void) {
    static lurgabel_answer (*const quiet[])(lurgabel_controller *) = {
        call_set_inputs,     call_set_region,   call_set_default_rights, call_set_info_page,
        call_set_bank_erase, call_clear_errors, call_host_read,          call_view,
        call_round_host,
    };
    size_t i;
    for (i = 0; i < sizeof quiet / sizeof quiet[0]; i++) {
        lurgabel_controller before = littered();
        lurgabel_controller after = before;
        lurgabel_controller expected;
        check_at(quiet[i](&after) == LURGABEL_ACCEPTED, "quiet call", i);
        expected = after;
        expected.progress = before.progress;
        expected.read_queue = before.read_queue;
        expected.program_queue = before.program_queue;
        check_at(same(&expected, &after), "litter kept", i);
    }
}

/* A push, and the step that ends the program, leave zeros behind what they changed. */
static void test_litter_cleared(void) {
    lurgabel_controller c = littered();
    lurgabel_controller expected = c;
    check(lurgabel_start(&c, on_data(LURGABEL_PROGRAM, 0, 1)) == LURGABEL_ACCEPTED, "start over litter");
    expected.progress = c.progress;
    memset(&expected.program_queue, 0, sizeof expected.program_queue);
    expected.program_queue.words[0] = 6;
    expected.program_queue.length = 1;
    check(lurgabel_push(&c, 6) == LURGABEL_ACCEPTED && same(&expected, &c), "push over litter");
    memset(&expected.progress, 0, sizeof expected.progress);
    memset(&expected.program_queue, 0, sizeof expected.program_queue);
    check(lurgabel_step(&c, image, IMAGE_WORDS, NULL, NULL) == LURGABEL_ACCEPTED && same(&expected, &c), "last step");
}

/* Zeros in the queue that an operation uses; an erase uses none. */
static lurgabel_controller queue_cleared(lurgabel_controller c, uint32_t kind) {
    if (kind == LURGABEL_READ) {
        memset(&c.read_queue, 0, sizeof c.read_queue);
    }
    if (kind == LURGABEL_PROGRAM) {
        memset(&c.program_queue, 0, sizeof c.program_queue);
    }
    return c;
}

/* A whole operation leaves the progress, and zeros in its queue. */
static void test_litter_of_whole(uint32_t kind, uint8_t rights, lurgabel_answer answer, const char *what) {
    lurgabel_controller c = littered();
    lurgabel_controller expected;
    c.default_rights = rights;
    expected = queue_cleared(c, kind);
    if (answer != LURGABEL_ACCEPTED) {
        expected.recorded = LURGABEL_RECORDED(answer);
        expected.last_address = 0x80;
    }
    check(lurgabel_run(&c, image, IMAGE_WORDS, on_data(kind, 0x80, 16), buffer, 16, NULL) == answer, what);
    check(same(&expected, &c), what);
}

static void test_litter_of_whole_operations(void) {
    test_litter_of_whole(LURGABEL_READ, LURGABEL_ALL_RIGHTS, LURGABEL_ACCEPTED, "whole read over litter");
    test_litter_of_whole(LURGABEL_READ, 0, LURGABEL_DENIED, "denied whole read over litter");
    test_litter_of_whole(LURGABEL_PROGRAM, LURGABEL_ALL_RIGHTS, LURGABEL_ACCEPTED, "whole program over litter");
    test_litter_of_whole(LURGABEL_PAGE_ERASE, LURGABEL_ALL_RIGHTS, LURGABEL_ACCEPTED, "whole erase over litter");
}

/* One that makes its steps by itself leaves zeros in the progress too. Cut before the first, it has only started. */
static void test_litter_of_run_for(uint32_t kind, const char *what) {
    const lurgabel_operation o = on_data(kind, 0x80, 16);
    lurgabel_controller c = littered();
    lurgabel_controller expected = queue_cleared(c, kind);
    memset(&expected.progress, 0, sizeof expected.progress);
    check(lurgabel_run_for(&c, image, IMAGE_WORDS, o, buffer, 16, NULL, UINT32_MAX, NULL) == LURGABEL_ACCEPTED &&
              same(&expected, &c), what);
    c = expected = littered();
    check(lurgabel_run_for(&c, image, IMAGE_WORDS, o, buffer, 16, NULL, 0, NULL) == LURGABEL_ACCEPTED &&
              lurgabel_start(&expected, o) == LURGABEL_ACCEPTED && same(&expected, &c), what);
}

/* Scans are programs and erases that make their steps by themselves. */
static void test_litter_of_scans(void) {
    lurgabel_controller c = littered();
    lurgabel_controller expected = queue_cleared(c, LURGABEL_PROGRAM);
    memset(&expected.progress, 0, sizeof expected.progress);
    lurgabel_blank_image(image, IMAGE_WORDS);
    check(write_to_queue(&c, 1) == LURGABEL_ACCEPTED && same(&expected, &c), "write of a scan over litter");
    c = littered();
    check(take_from_queue(&c, NULL) == LURGABEL_ACCEPTED && same(&expected, &c), "take of a scan over litter");
    c = expected = littered();
    check(take_from_queue(&c, NULL) == LURGABEL_NO_SCAN && same(&expected, &c), "refused take over litter");
    check(write_to_queue(&c, 0) == LURGABEL_BAD_SCAN && same(&expected, &c), "refused write over litter");
}

/* Steps and pops change one queue, or none; a program keeps what stands in `readable`. */
static void test_litter_of_steps(void) {
    lurgabel_controller c = littered();
    lurgabel_controller expected;
    uint32_t word;
    image[0] = 77;
    check(lurgabel_start(&c, on_data(LURGABEL_READ, 0, 2)) == LURGABEL_ACCEPTED, "start over litter");
    expected = c;
    memset(&expected.read_queue, 0, sizeof expected.read_queue);
    expected.read_queue.words[0] = 77;
    expected.read_queue.length = 1;
    expected.progress.moved = 1;
    check(lurgabel_step(&c, image, IMAGE_WORDS, NULL, NULL) == LURGABEL_ACCEPTED && same(&expected, &c), "read step");
    c.read_queue.words[9] = 5;
    memset(&expected.read_queue, 0, sizeof expected.read_queue);
    check(lurgabel_pop(&c, &word) == LURGABEL_ACCEPTED && word == 77 && same(&expected, &c), "pop over litter");

    c = programming();
    c.progress.readable = 0x80000000u;
    expected = c;
    expected.progress.moved = 2;
    expected.program_queue.words[0] = c.program_queue.words[1];
    expected.program_queue.words[1] = 0;
    expected.program_queue.length = 1;
    check(lurgabel_step(&c, image, IMAGE_WORDS, NULL, NULL) == LURGABEL_ACCEPTED && same(&expected, &c),
          "program step");
    c.program_queue.words[0] = 6;
    c.program_queue.length = 0;
    expected = c;
    check(lurgabel_step(&c, image, IMAGE_WORDS, NULL, NULL) == LURGABEL_ACCEPTED && same(&expected, &c),
          "stalled step");
}

/* Initialising leaves it; RMA empties both queues and leaves the progress; a reset leaves nothing. */
static void test_litter_of_phases(void) {
    lurgabel_controller c = littered();
    lurgabel_controller expected = c;
    c.phase = LURGABEL_PHASE_UNINITIALISED;
    check(lurgabel_initialise(&c, image, IMAGE_WORDS, NULL) == LURGABEL_ACCEPTED && same(&expected, &c),
          "initialise over litter");
    expected.phase = LURGABEL_PHASE_DISABLED;
    memset(&expected.read_queue, 0, sizeof expected.read_queue);
    memset(&expected.program_queue, 0, sizeof expected.program_queue);
    check(lurgabel_rma(&c, image, IMAGE_WORDS) == LURGABEL_ACCEPTED && same(&expected, &c), "RMA over litter");
    c = littered();
    expected = uninitialised();
    check(lurgabel_reset(&c, 16) == LURGABEL_ACCEPTED && same(&expected, &c), "reset over litter");
}

void test_litter(void) {
    test_litter_kept();
    test_litter_cleared();
    test_litter_of_whole_operations();
    test_litter_of_run_for(LURGABEL_READ, "read for a number of steps over litter");
    test_litter_of_run_for(LURGABEL_PROGRAM, "program for a number of steps over litter");
    test_litter_of_run_for(LURGABEL_PAGE_ERASE, "erase for a number of steps over litter");
    test_litter_of_scans();
    test_litter_of_steps();
    test_litter_of_phases();
}
