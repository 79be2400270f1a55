/* The calls with the values that they hand out, and what they leave in the image and the buffer. */
#include "tests.h"

static void test_initialise_seeds(void) {
    lurgabel_controller c = uninitialised();
    lurgabel_seeds seeds;
    uint32_t i;
    lurgabel_blank_image(image, IMAGE_WORDS);
    for (i = 0; i < LURGABEL_SEED_WORDS; i++) {
        image[4352 + i] = 1000 + i;
        image[4608 + i] = 2000 + i;
    }
    memset(&seeds, 0xFF, sizeof seeds);
    check(lurgabel_initialise(&c, image, IMAGE_WORDS, &seeds) == LURGABEL_ACCEPTED, "initialise");
    check(seeds.given == 0 && seeds.creator[0] == 0 && seeds.owner[7] == 0, "no seeds without provision");
    c = uninitialised();
    c.provision_enabled = 1;
    check(lurgabel_initialise(&c, image, IMAGE_WORDS, &seeds) == LURGABEL_ACCEPTED && seeds.given == 1, "seeds given");
    check(c.phase == LURGABEL_PHASE_READY, "ready");
    for (i = 0; i < LURGABEL_SEED_WORDS; i++) {
        check_at(seeds.creator[i] == 1000 + i, "creator seed", i);
        check_at(seeds.owner[i] == 2000 + i, "owner seed", i);
    }
    check(lurgabel_initialise(&c, image, IMAGE_WORDS, &seeds) == LURGABEL_UNEXPECTED, "initialise when ready");
    check(seeds.given == 0 && seeds.creator[0] == 0 && seeds.owner[7] == 0, "no seeds when refused");
}

/* A program by start, push and step, with the bits of the bench sheet. */
static void test_program_by_steps(void) {
    lurgabel_controller c = ready();
    lurgabel_movement movement;
    uint32_t bits;
    lurgabel_blank_image(image, IMAGE_WORDS);
    check(lurgabel_start(&c, on_data(LURGABEL_PROGRAM, 0, 1)) == LURGABEL_ACCEPTED, "start");
    check(lurgabel_step(&c, image, IMAGE_WORDS, &movement, &bits) == LURGABEL_ACCEPTED, "step without a word");
    check(movement == LURGABEL_STALLED && bits == 0 && image[0] == LURGABEL_ERASED, "stalled");
    check(lurgabel_push(&c, 0x12345678) == LURGABEL_ACCEPTED, "push");
    check(lurgabel_push(&c, 0) == LURGABEL_UNEXPECTED, "push of one word too many");
    check(lurgabel_step(&c, image, IMAGE_WORDS, &movement, &bits) == LURGABEL_ACCEPTED, "step");
    check(movement == LURGABEL_FINISHED && bits == 19 && image[0] == 0x12345678, "finished");
    check(lurgabel_step(&c, image, IMAGE_WORDS, &movement, &bits) == LURGABEL_UNEXPECTED, "step after the end");
    check(movement == LURGABEL_NONE && bits == 0, "nothing moved");
}

/* A read of 17 words stalls at 16 in the queue. */
static void test_read_by_steps(void) {
    lurgabel_controller c = ready();
    lurgabel_movement movement;
    uint32_t i, word;
    for (i = 0; i < 17; i++) {
        image[i] = 500 + i;
    }
    check(lurgabel_start(&c, on_data(LURGABEL_READ, 0, 17)) == LURGABEL_ACCEPTED, "start of a read");
    for (i = 0; i < 16; i++) {
        check_at(lurgabel_step(&c, image, IMAGE_WORDS, &movement, NULL) == LURGABEL_ACCEPTED, "read step", i);
        check_at(movement == LURGABEL_MOVED && c.read_queue.length == i + 1, "read moved", i);
    }
    check(lurgabel_step(&c, image, IMAGE_WORDS, &movement, NULL) == LURGABEL_ACCEPTED, "step with a full queue");
    check(movement == LURGABEL_STALLED, "read stalled");
    check(lurgabel_pop(&c, &word) == LURGABEL_ACCEPTED && word == 500, "pop");
    check(lurgabel_step(&c, image, IMAGE_WORDS, &movement, NULL) == LURGABEL_ACCEPTED, "last read step");
    check(movement == LURGABEL_FINISHED && c.read_queue.words[15] == 516, "read finished");
}

/* Whole operations; an erase needs no buffer. */
static void test_run(void) {
    lurgabel_controller c = ready();
    uint32_t words[4] = {0x12345678, 0xFFFF0000, 3, 4};
    uint32_t bits;
    lurgabel_blank_image(image, IMAGE_WORDS);
    check(lurgabel_run(&c, image, IMAGE_WORDS, on_data(LURGABEL_PROGRAM, 0, 2), words, 4, &bits) == LURGABEL_ACCEPTED,
          "program");
    check(bits == 35 && image[0] == 0x12345678 && image[1] == 0xFFFF0000 && image[2] == LURGABEL_ERASED, "programmed");
    words[0] = words[1] = words[2] = 7;
    check(lurgabel_run(&c, image, IMAGE_WORDS, on_data(LURGABEL_READ, 0, 3), words, 4, &bits) == LURGABEL_ACCEPTED,
          "read");
    check(bits == 0 && words[0] == 0x12345678 && words[1] == 0xFFFF0000 && words[2] == LURGABEL_ERASED && words[3] == 4,
          "the first 3 places");
    check(lurgabel_run(&c, image, IMAGE_WORDS, on_data(LURGABEL_PAGE_ERASE, 0, 0), NULL, 0, &bits) ==
              LURGABEL_ACCEPTED && bits == 35 && image[0] == LURGABEL_ERASED, "erase");
    check(lurgabel_run(&c, image, IMAGE_WORDS, on_data(LURGABEL_READ, 0, 4), words, 3, &bits) ==
              LURGABEL_SHORT_BUFFER && bits == 0, "short buffer");
    check(lurgabel_run(&c, image, IMAGE_WORDS, on_data(LURGABEL_READ, 0, 1), NULL, 0, NULL) == LURGABEL_SHORT_BUFFER,
          "no buffer");
}

/* A whole read of a denied page says so and puts ones into the buffer. */
static void test_run_denied(void) {
    lurgabel_controller c = locked();
    uint32_t words[3] = {1, 2, 3};
    image[0] = 0;
    check(lurgabel_run(&c, image, IMAGE_WORDS, on_data(LURGABEL_READ, 0, 2), words, 3, NULL) == LURGABEL_DENIED,
          "denied read");
    check(words[0] == LURGABEL_ERASED && words[1] == LURGABEL_ERASED && words[2] == 3, "ones");
    check(c.recorded == LURGABEL_RECORDED(LURGABEL_DENIED) && c.progress.running == 0, "recorded");
}

static void test_host_read(void) {
    lurgabel_controller c = programming();
    lurgabel_controller before = c;
    uint32_t word;
    image[7424] = 0xCAFE;
    check(lurgabel_host_read(&c, image, IMAGE_WORDS, 0x4000, &word) == LURGABEL_ACCEPTED && word == 0xCAFE, "bank 1");
    check(lurgabel_host_read(&c, image, IMAGE_WORDS, 2, &word) == LURGABEL_MALFORMED && word == 0, "address 2");
    check(lurgabel_host_read(&c, image, IMAGE_WORDS, 0x8000, &word) == LURGABEL_OUT_OF_RANGE && word == 0, "0x8000");
    check(lurgabel_host_read(&c, image, IMAGE_WORDS, 0, NULL) == LURGABEL_ACCEPTED, "no place for the word");
    check(same(&before, &c), "nothing recorded");
    c = before = locked();
    check(lurgabel_host_read(&c, image, IMAGE_WORDS, 0, &word) == LURGABEL_DENIED && word == 0, "denied host read");
    check(same(&before, &c), "nothing recorded of a denied host read");
}

/* A view is a part of the caller's own image. */
static void test_view(void) {
    lurgabel_controller c = ready();
    lurgabel_answer answer;
    uint32_t page;
    for (page = 0; page < 32; page++) {
        const uint32_t *own = image + page * 256 + (page < 16 ? 0 : 13 * 256);
        check_at(lurgabel_view(&c, image, IMAGE_WORDS, page, &answer) == own, "view", page);
        check_at(answer == LURGABEL_ACCEPTED, "view's answer", page);
    }
    check(lurgabel_view(&c, image, IMAGE_WORDS, 32, &answer) == NULL && answer == LURGABEL_OUT_OF_RANGE, "page 32");
    check(lurgabel_view(&c, image, IMAGE_WORDS, 32, NULL) == NULL, "no place for the answer");
    c = locked();
    check(lurgabel_view(&c, image, IMAGE_WORDS, 0, &answer) == NULL && answer == LURGABEL_DENIED, "denied view");
    check(lurgabel_layout4_view(&c, image, IMAGE_WORDS, 0).start == 0, "start of a refused view");
}

/* RMA wipes the data and the special pages, and nothing else; only a reset ends it. */
static void test_rma(void) {
    lurgabel_controller c = ready();
    memset(image, 0, sizeof image);
    c.read_queue.length = 1;
    check(lurgabel_rma(&c, image, IMAGE_WORDS) == LURGABEL_ACCEPTED && c.phase == LURGABEL_PHASE_DISABLED, "RMA");
    check(image[0] == LURGABEL_ERASED && image[4095] == LURGABEL_ERASED && image[7424] == LURGABEL_ERASED, "data");
    check(image[4352] == LURGABEL_ERASED && image[5119] == LURGABEL_ERASED, "special pages");
    check(image[4351] == 0 && image[5120] == 0 && image[7423] == 0 && image[14847] == 0, "other information pages");
    check(c.read_queue.length == 0, "queue emptied");
    check(lurgabel_rma(&c, image, IMAGE_WORDS) == LURGABEL_DISABLED, "RMA again");
    check(lurgabel_reset(&c, 16) == LURGABEL_ACCEPTED && c.phase == LURGABEL_PHASE_UNINITIALISED, "reset");
}

/* A reset clears every number, whatever stood there, also what encodes nothing; refused, it leaves every number. */
static void test_reset(void) {
    lurgabel_controller c, expected = zeros();
    memset(&c, 0xFF, sizeof c);
    expected.data_pages = 256;
    check(lurgabel_reset(&c, 256) == LURGABEL_ACCEPTED && same(&expected, &c), "reset of a broken controller");
    check(lurgabel_reset(&c, 257) == LURGABEL_INVALID && same(&expected, &c), "D = 257");
    memset(&c, 0xA5, sizeof c);
    expected = c;
    check(lurgabel_reset(&c, 9) == LURGABEL_INVALID && same(&expected, &c), "D = 9 of a broken controller");
}

void test_values(void) {
    test_initialise_seeds();
    test_program_by_steps();
    test_read_by_steps();
    test_run();
    test_run_denied();
    test_host_read();
    test_view();
    test_rma();
    test_reset();
}
