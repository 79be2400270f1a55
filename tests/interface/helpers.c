/* Lengths of the image, texts of the answers, and the header's helpers. */
#include "tests.h"

/* Every call that is lent an image looks at its length first. */
static void test_image_of(uint32_t *lent, size_t words) {
    static const uint32_t address = 0;
    static const uint8_t byte = 0;
    lurgabel_controller c = ready();
    lurgabel_answer answer;
    lurgabel_round_reply r;
    check_at(lurgabel_initialise(&c, lent, words, NULL) == LURGABEL_INVALID, "initialise", words);
    check_at(lurgabel_step(&c, lent, words, NULL, NULL) == LURGABEL_INVALID, "step", words);
    check_at(lurgabel_run(&c, lent, words, on_data(LURGABEL_READ, 0, 1), buffer, 1, NULL) == LURGABEL_INVALID, "run",
             words);
    check_at(lurgabel_run_for(&c, lent, words, on_data(LURGABEL_READ, 0, 1), buffer, 1, NULL, 1, NULL) ==
                 LURGABEL_INVALID, "run_for", words);
    check_at(lurgabel_host_read(&c, lent, words, 0, NULL) == LURGABEL_INVALID, "host_read", words);
    r = lurgabel_round(&c, lent, words, &address, true);
    check_at(r.host_answer == LURGABEL_INVALID && r.step_answer == LURGABEL_INVALID, "round", words);
    check_at(lurgabel_view(&c, lent, words, 0, &answer) == NULL && answer == LURGABEL_INVALID, "view", words);
    check_at(lurgabel_rma(&c, lent, words) == LURGABEL_INVALID, "rma", words);
    check_at(lurgabel_write_scan(&c, lent, words, 0, 1, &byte, 1) == LURGABEL_INVALID, "write_scan", words);
    check_at(lurgabel_take_scan(&c, lent, words, 0, 1, NULL) == LURGABEL_INVALID, "take_scan", words);
}

void test_image_length(void) {
    test_image_of(image, IMAGE_WORDS - 1);
    test_image_of(image, IMAGE_WORDS + 1);
    test_image_of(image, 0);
    test_image_of(NULL, 0);
}

void test_texts(void) {
    static const char *const texts[21] = {
        "accepted",
        "invalid state, data page count or image length",
        "controller is disabled until reset",
        "controller is not initialised",
        "an operation is in progress, or a queue holds words",
        "malformed operation or address",
        "buffer is shorter than the operation",
        "outside the pages",
        "program crosses a 64-byte window",
        "access denied",
        "read queue is empty",
        "program queue is full",
        "nothing in progress that takes this call",
        "no such setting, or a value out of range",
        "no such answer",
        "no such answer",
        "these pages cannot hold a scan queue",
        "scan queue is full",
        "scan's length or serial is out of range",
        "no scan is waiting",
        "no such answer",
    };
    size_t i;
    for (i = 0; i < 21; i++) {
        check_at(strcmp(lurgabel_answer_text((lurgabel_answer)i), texts[i]) == 0, "text", i);
    }
    check(strcmp(lurgabel_movement_text(LURGABEL_NONE), "nothing moved") == 0, "none");
    check(strcmp(lurgabel_movement_text(LURGABEL_MOVED), "a word moved") == 0, "moved");
    check(strcmp(lurgabel_movement_text(LURGABEL_FINISHED), "the last word moved") == 0, "finished");
    check(strcmp(lurgabel_movement_text(LURGABEL_STALLED), "waits for the caller or for its turn") == 0, "stalled");
    check(strcmp(lurgabel_turn_text(LURGABEL_UNASKED), "not asked") == 0, "unasked");
    check(strcmp(lurgabel_turn_text(LURGABEL_WAITING), "waiting") == 0, "waiting");
    check(strcmp(lurgabel_turn_text(LURGABEL_SERVED), "served") == 0, "served");
    check(strcmp(lurgabel_turn_text((lurgabel_turn)3), "no such turn") == 0, "turn 3");
}

/* Every number has the text of its decider, or none. */
void test_decider_texts(void) {
    static const char *const texts[12] = {
        "region 0",
        "region 1",
        "region 2",
        "region 3",
        "region 4",
        "region 5",
        "region 6",
        "region 7",
        "default rights",
        "information page setting",
        "seed lock",
        "bank erase permission",
    };
    size_t i;
    for (i = 0; i < 256; i++) {
        const char *text = i < 12 ? texts[i] : i == 255 ? "nobody" : "no such decider";
        check_at(strcmp(lurgabel_decider_text((lurgabel_decider)i), text) == 0, "decider", i);
    }
}

static void join(char *text, uint32_t recorded, lurgabel_answer kind, const char *name) {
    if (recorded & LURGABEL_RECORDED(kind)) {
        strcat(text, text[0] == 0 ? "" : ", ");
        strcat(text, name);
    }
}

/* Every record that there is has the names of its kinds, and no other number has a name. */
void test_recorded_texts(void) {
    uint32_t recorded;
    for (recorded = 0; recorded < 0x800; recorded++) {
        char text[80] = "";
        join(text, recorded, LURGABEL_MALFORMED, "malformed");
        join(text, recorded, LURGABEL_OUT_OF_RANGE, "outside the pages");
        join(text, recorded, LURGABEL_CROSSES_WINDOW, "crosses a window");
        join(text, recorded, LURGABEL_DENIED, "access denied");
        if (recorded & ~0x3A0u) {
            strcpy(text, "no such record");
        }
        check_at(strcmp(lurgabel_recorded_text(recorded), recorded == 0 ? "nothing" : text) == 0, "record", recorded);
    }
}

void test_blank_image(void) {
    size_t i, blank = 0;
    memset(image, 0, sizeof image);
    lurgabel_blank_image(image, IMAGE_WORDS);
    for (i = 0; i < IMAGE_WORDS; i++) {
        blank += image[i] == LURGABEL_ERASED;
    }
    check(blank == 14848, "every word is erased");
    check(image[IMAGE_WORDS] == 0, "the word behind the image is left alone");
}
