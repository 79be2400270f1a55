/* A host that polls the bank in which a page is being erased: ./lurgabel run examples/polling.c */
#include <stdio.h>
#include <stdlib.h>

#include <lurgabel.h>

#define DATA_PAGES 16u /* in each bank */
#define IMAGE_WORDS LURGABEL_IMAGE_WORDS(DATA_PAGES)

static uint32_t image[IMAGE_WORDS];
static lurgabel_controller c;

static void must(const char *call, lurgabel_answer answer) {
    if (answer != LURGABEL_ACCEPTED) {
        printf("%s: %s (%d)\n", call, lurgabel_answer_text(answer), (int)answer);
        exit(EXIT_FAILURE);
    }
}

static void print_round(unsigned round, lurgabel_round_reply r) {
    printf("  round %u: host %s, step %s; lost turns %u\n", round, lurgabel_turn_text(r.host_turn),
           lurgabel_turn_text(r.step_turn), (unsigned)c.lost_turns[0]);
}

/* The host reads the polled word and the firmware asks for a step. The answer of a side that waits is no refusal. */
static lurgabel_round_reply both_ask(uint32_t polled) {
    lurgabel_round_reply r = lurgabel_round(&c, image, IMAGE_WORDS, &polled, true);
    must("host read", r.host_answer);
    must("step", r.step_answer);
    return r;
}

static void erase_while_polled(lurgabel_operation erase, uint32_t polled, unsigned shown) {
    unsigned rounds = 0, reads = 0, steps = 0;
    lurgabel_round_reply r;
    must("start", lurgabel_start(&c, erase));
    do {
        r = both_ask(polled);
        reads += r.host_turn == LURGABEL_SERVED;
        steps += r.step_turn == LURGABEL_SERVED;
        if (++rounds <= shown) {
            print_round(rounds, r);
        }
    } while (r.movement != LURGABEL_FINISHED);
    printf("  erased after %u rounds: %u reads, %u steps\n", rounds, reads, steps);
}

int main(void) {
    lurgabel_operation erase = {.kind = LURGABEL_PAGE_ERASE, .address = LURGABEL_ADDRESS(DATA_PAGES, 0u, 5u, 0u)};

    lurgabel_blank_image(image, IMAGE_WORDS);
    must("reset", lurgabel_reset(&c, DATA_PAGES));
    must("rights", lurgabel_set_default_rights(&c, LURGABEL_ALL_RIGHTS));
    must("initialise", lurgabel_initialise(&c, image, IMAGE_WORDS, NULL));

    printf("the host polls page 2 of bank 0 while page 5 of bank 0 is erased\n");
    erase_while_polled(erase, LURGABEL_ADDRESS(DATA_PAGES, 0u, 2u, 0u), 7);
    printf("the host polls page 2 of bank 1 meanwhile: nobody waits\n");
    erase_while_polled(erase, LURGABEL_ADDRESS(DATA_PAGES, 1u, 2u, 0u), 2);
    return EXIT_SUCCESS;
}
