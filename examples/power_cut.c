/* The power goes after every possible step of a program: ./lurgabel run examples/power_cut.c */
#include <stdio.h>
#include <stdlib.h>

#include <lurgabel.h>

#define DATA_PAGES 16u /* in each bank */
#define IMAGE_WORDS LURGABEL_IMAGE_WORDS(DATA_PAGES)
#define WORDS 4u

static uint32_t image[IMAGE_WORDS]; /* keeps its words without power */
static lurgabel_controller c;       /* does not */

/* The mark is the last word, so that it stands only behind a whole record. */
static const uint32_t record[WORDS] = {1001, 1002, 1003, 0x600DF00D};

static void must(const char *call, lurgabel_answer answer) {
    if (answer != LURGABEL_ACCEPTED) {
        printf("%s: %s (%d)\n", call, lurgabel_answer_text(answer), (int)answer);
        exit(EXIT_FAILURE);
    }
}

/* A reset takes whatever the cut has left in the controller; every setting has to be made again. */
static void power_on(void) {
    must("reset", lurgabel_reset(&c, DATA_PAGES));
    must("rights", lurgabel_set_default_rights(&c, LURGABEL_ALL_RIGHTS));
    must("initialise", lurgabel_initialise(&c, image, IMAGE_WORDS, NULL));
}

static void program_until(uint32_t cut) {
    lurgabel_operation program = {.kind = LURGABEL_PROGRAM, .address = 0, .count = WORDS};
    uint32_t i;
    must("start", lurgabel_start(&c, program));
    for (i = 0; i < cut; i++) {
        must("push", lurgabel_push(&c, record[i]));
        must("step", lurgabel_step(&c, image, IMAGE_WORDS, NULL, NULL));
    }
}

static const char *what_is_found(void) {
    lurgabel_operation read = {.kind = LURGABEL_READ, .address = 0, .count = WORDS};
    uint32_t found[WORDS];
    must("read", lurgabel_run(&c, image, IMAGE_WORDS, read, found, WORDS, NULL));
    if (found[WORDS - 1] == record[WORDS - 1]) {
        return "a record";
    }
    return found[0] == LURGABEL_ERASED ? "nothing" : "half a record";
}

int main(void) {
    uint32_t cut;
    for (cut = 0; cut <= WORDS; cut++) {
        lurgabel_blank_image(image, IMAGE_WORDS);
        power_on();
        program_until(cut); /* the power goes: no more steps */
        power_on();
        printf("power cut after %u of %u words: %s\n", (unsigned)cut, (unsigned)WORDS, what_is_found());
    }
    return EXIT_SUCCESS;
}
