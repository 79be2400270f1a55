/* The same by steps, a bus word at a time, and a read that is denied: ./lurgabel run examples/steps.c */
#include <stdio.h>
#include <stdlib.h>

#include <lurgabel.h>

#define DATA_PAGES 16u /* in each bank */
#define IMAGE_WORDS LURGABEL_IMAGE_WORDS(DATA_PAGES)

static uint32_t image[IMAGE_WORDS];
static lurgabel_controller c;

static void must(const char *call, lurgabel_answer answer) {
    if (answer != LURGABEL_ACCEPTED) {
        printf("%s: %s (%d)\n", call, lurgabel_answer_text(answer), (int)answer);
        exit(EXIT_FAILURE);
    }
}

static lurgabel_movement step(void) {
    lurgabel_movement movement;
    must("step", lurgabel_step(&c, image, IMAGE_WORDS, &movement, NULL));
    return movement;
}

/* A program stalls while it has no word to store. */
static void program_words(uint32_t address, const uint32_t *words, uint32_t count) {
    lurgabel_operation operation = {.kind = LURGABEL_PROGRAM, .address = address, .count = count};
    lurgabel_movement movement;
    must("start", lurgabel_start(&c, operation));
    do {
        movement = step();
        if (movement == LURGABEL_STALLED) {
            must("push", lurgabel_push(&c, *words++));
        }
    } while (movement != LURGABEL_FINISHED);
}

/* A read stalls while 16 words wait to be popped; after the last step some of them still do. One that is denied runs as
 * well. Says how many words are the stored ones: those before the first denied word. */
static uint32_t read_words(uint32_t address, uint32_t *words, uint32_t count) {
    lurgabel_operation operation = {.kind = LURGABEL_READ, .address = address, .count = count};
    lurgabel_answer answer = lurgabel_start(&c, operation);
    lurgabel_movement movement;
    if (answer == LURGABEL_DENIED) {
        count = (c.last_address - address) / 4u;
    } else {
        must("start", answer);
    }
    do {
        movement = step();
        while (movement != LURGABEL_MOVED && c.read_queue.length > 0) {
            must("pop", lurgabel_pop(&c, words++));
        }
    } while (movement != LURGABEL_FINISHED);
    return count;
}

int main(void) {
    lurgabel_region closed = {.first_page = 1, .page_count = 1, .on = 1}; /* page 1, without any right */
    uint32_t words[3] = {7, 8, 9}, found[40], count;

    lurgabel_blank_image(image, IMAGE_WORDS);
    image[LURGABEL_IMAGE_WORD(DATA_PAGES, 0x400u)] = 0x12345678; /* the first word of page 1 */
    must("reset", lurgabel_reset(&c, DATA_PAGES));
    must("rights", lurgabel_set_default_rights(&c, LURGABEL_ALL_RIGHTS));
    must("region", lurgabel_set_region(&c, 0, closed));
    must("initialise", lurgabel_initialise(&c, image, IMAGE_WORDS, NULL));

    program_words(0x3F0, words, 3);
    count = read_words(0x3F0, found, 40); /* four words of page 0, and the rest of page 1 */
    printf("%u of 40 words: %u %u %u %X\n", (unsigned)count, (unsigned)found[0], (unsigned)found[1], (unsigned)found[2],
           (unsigned)found[3]);
    printf("denied at 0x%04X: the flash has %X there, the read %X\n", (unsigned)c.last_address,
           (unsigned)image[LURGABEL_IMAGE_WORD(DATA_PAGES, c.last_address)], (unsigned)found[count]);
    return EXIT_SUCCESS;
}
