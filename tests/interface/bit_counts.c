/* The bits that programs and erases change, by steps and as a whole, held to a count of this file's own. */
#include "tests.h"

#define WORD_COUNT 100u

/* Every bit alone, every bit missing, the runs of 2 to 30 low bits, and seven words more; then these again. */
static uint32_t word_at(uint32_t k) {
    static const uint32_t others[7] = {0, LURGABEL_ERASED, 0x12345678u, 0x87654321u, 0x55555555u, 0xAAAAAAAAu, 0xF0F0u};
    const uint32_t i = k % WORD_COUNT, bit = (uint32_t)1 << i % 32;
    return i < 32 ? bit : i < 64 ? ~bit : i < 93 ? 4 * bit - 1 : others[i - 93];
}

/* Place by place: the library counts a whole word at once. */
static uint32_t hamming_distance(uint32_t a, uint32_t b) {
    uint32_t place, count = 0;
    for (place = 0; place < 32; place++) {
        if ((a >> place & 1) != (b >> place & 1)) {
            count++;
        }
    }
    return count;
}

static bool step_changes(lurgabel_controller *c, uint32_t expected) {
    uint32_t bits = ~expected;
    return lurgabel_step(c, image, IMAGE_WORDS, NULL, &bits) == LURGABEL_ACCEPTED && bits == expected;
}

static bool run_changes(lurgabel_controller *c, lurgabel_operation o, uint32_t *words, uint32_t expected) {
    uint32_t bits = ~expected;
    return lurgabel_run(c, image, IMAGE_WORDS, o, words, o.count, &bits) == LURGABEL_ACCEPTED && bits == expected;
}

/* As a whole, and then by steps. */
static bool programs(lurgabel_controller *c, uint32_t stored, uint32_t given) {
    const lurgabel_operation one = on_data(LURGABEL_PROGRAM, 0, 1);
    const uint32_t left = stored & given, bits = hamming_distance(stored, left);
    bool whole;
    image[0] = stored;
    whole = run_changes(c, one, &given, bits) && image[0] == left;
    image[0] = stored;
    return whole && lurgabel_start(c, one) == LURGABEL_ACCEPTED && lurgabel_push(c, given) == LURGABEL_ACCEPTED &&
           step_changes(c, bits) && image[0] == left;
}

static void test_programs(void) {
    lurgabel_controller c = ready();
    uint32_t i, k;
    for (i = 0; i < WORD_COUNT; i++) {
        k = 0;
        while (k < WORD_COUNT && programs(&c, word_at(i), word_at(k))) {
            k++;
        }
        check_at(k == WORD_COUNT, "every word programmed onto one", i * WORD_COUNT + k);
    }
}

static void fill(uint32_t words) {
    uint32_t k;
    lurgabel_blank_image(image, IMAGE_WORDS);
    for (k = 0; k < words; k++) {
        image[k] = word_at(k);
    }
}

/* The bits that erasing so many words changes. */
static uint32_t bits_to_erase(uint32_t words) {
    uint32_t k, bits = 0;
    for (k = 0; k < words; k++) {
        bits += hamming_distance(word_at(k), LURGABEL_ERASED);
    }
    return bits;
}

static void test_erases(void) {
    const uint32_t bank_words = 16 * LURGABEL_PAGE_WORDS;
    const lurgabel_operation page = on_data(LURGABEL_PAGE_ERASE, 0, 0), bank = on_data(LURGABEL_BANK_ERASE, 0, 0);
    lurgabel_controller c = ready();
    uint32_t k = 0;
    c.bank_erase[0] = 1;
    fill(LURGABEL_PAGE_WORDS);
    check(run_changes(&c, page, NULL, bits_to_erase(LURGABEL_PAGE_WORDS)), "whole page erase");
    fill(bank_words);
    check(run_changes(&c, bank, NULL, bits_to_erase(bank_words)), "whole bank erase");
    fill(bank_words);
    check(lurgabel_start(&c, bank) == LURGABEL_ACCEPTED, "start of a bank erase");
    while (k < bank_words && step_changes(&c, hamming_distance(word_at(k), LURGABEL_ERASED))) {
        k++;
    }
    check_at(k == bank_words && c.progress.running == 0, "each step of a bank erase", k);
}

void test_bit_counts(void) {
    test_programs();
    test_erases();
}
