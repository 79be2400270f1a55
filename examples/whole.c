/* Whole operations, one call each: ./lurgabel run examples/whole.c */
#include <stdio.h>
#include <stdlib.h>

#include <lurgabel.h>

#define DATA_PAGES 16u /* in each bank */
#define IMAGE_WORDS LURGABEL_IMAGE_WORDS(DATA_PAGES)

static uint32_t image[IMAGE_WORDS];
static lurgabel_controller c;

static void must(const char *call, lurgabel_answer answer) {
    if (answer != LURGABEL_ACCEPTED) {
        printf("%s: %s (%d)\n", call, lurgabel_answer_text(answer), (int)answer);
        exit(EXIT_FAILURE);
    }
}

int main(void) {
    uint32_t address = LURGABEL_ADDRESS(DATA_PAGES, 1u, 3u, 64u); /* bank 1, page 3 */
    uint32_t words[4] = {0x11111111, 0x22222222, 0x44444444, 0x88888888}, found[4], bits;
    lurgabel_operation program = {.kind = LURGABEL_PROGRAM, .address = address, .count = 4};
    lurgabel_operation read = {.kind = LURGABEL_READ, .address = address, .count = 4};
    lurgabel_operation erase = {.kind = LURGABEL_PAGE_ERASE, .address = address};

    lurgabel_blank_image(image, IMAGE_WORDS);
    must("reset", lurgabel_reset(&c, DATA_PAGES));
    must("rights", lurgabel_set_default_rights(&c, LURGABEL_ALL_RIGHTS));
    must("initialise", lurgabel_initialise(&c, image, IMAGE_WORDS, NULL));

    must("program", lurgabel_run(&c, image, IMAGE_WORDS, program, words, 4, &bits));
    printf("programmed: %u bits fell\n", (unsigned)bits);
    must("read", lurgabel_run(&c, image, IMAGE_WORDS, read, found, 4, NULL));
    printf("read: %08X .. %08X\n", (unsigned)found[0], (unsigned)found[3]);
    printf("in the image: %08X\n", (unsigned)image[LURGABEL_IMAGE_WORD(DATA_PAGES, address)]);
    must("erase", lurgabel_run(&c, image, IMAGE_WORDS, erase, NULL, 0, &bits));
    printf("erased: %u bits rose\n", (unsigned)bits);
    return EXIT_SUCCESS;
}
