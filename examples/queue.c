/*
 * A hand scanner's firmware on the model. Run it with
 *
 *     ./lurgabel run examples/queue.c
 *
 * It keeps its scans in a queue in the flash, loses its battery in the middle of a write, finds the scans again and
 * sends them in order.
 */
#include <inttypes.h>
#include <stdbool.h>
#include <stdio.h>
#include <stdlib.h>
#include <string.h>

#include <lurgabel.h>

#define DATA_PAGES 16u  /* in each bank */
#define IMAGE_WORDS LURGABEL_IMAGE_WORDS(DATA_PAGES)

/* Pages 4 and 5 are ours and hold the queue. */
#define SCAN_PAGE 4u
#define OTHER_SCAN_PAGE 5u
#define OWN_PAGES 2u

static uint32_t flash[IMAGE_WORDS];     /* keeps its words without power */
static lurgabel_controller controller;  /* does not */

/* ---- small things --------------------------------------------------------------------------------------------- */

static void require(bool holds, const char *what) {
    if (!holds) {
        printf("scanner stopped: %s\n", what);
        exit(EXIT_FAILURE);
    }
}

static void require_accepted(const char *call, lurgabel_answer answer) {
    if (answer != LURGABEL_ACCEPTED) {
        printf("scanner stopped: %s: %s (%d)\n", call, lurgabel_answer_text(answer), (int)answer);
        exit(EXIT_FAILURE);
    }
}

/* ---- power ---------------------------------------------------------------------------------------------------- */

static void set_region(uint32_t number, uint32_t first_page, uint32_t page_count, uint8_t rights) {
    lurgabel_region region = {.first_page = first_page, .page_count = page_count, .on = 1, .rights = rights};
    require_accepted("set region", lurgabel_set_region(&controller, number, region));
}

/* The lowest region that holds a page decides: our pages are ours, and all the others may only be read. */
static void battery_in(void) {
    require_accepted("reset", lurgabel_reset(&controller, DATA_PAGES));
    set_region(0, SCAN_PAGE, OWN_PAGES, LURGABEL_ALL_RIGHTS);
    set_region(1, 0, LURGABEL_BANKS * DATA_PAGES, LURGABEL_CAN_READ);
    require_accepted("initialise", lurgabel_initialise(&controller, flash, IMAGE_WORDS, NULL));
}

static void battery_out(void) {
    memset(&controller, 0, sizeof controller);
}

/* ---- scans ---------------------------------------------------------------------------------------------------- */

/* Once it returns, the scan is in the flash and stays there until it is taken. */
static void keep(const char *scan) {
    require_accepted("write scan", lurgabel_write_scan(&controller, flash, IMAGE_WORDS, SCAN_PAGE, OTHER_SCAN_PAGE,
                                                       (const uint8_t *)scan, strlen(scan)));
    printf("  kept %s\n", scan);
}

/* The bench cuts the power: the form of the call that has _for makes so many of its steps and no more. */
static void keep_for(const char *scan, uint32_t steps) {
    uint32_t cut;
    require_accepted("write scan", lurgabel_write_scan_for(&controller, flash, IMAGE_WORDS, SCAN_PAGE, OTHER_SCAN_PAGE,
                                                           (const uint8_t *)scan, strlen(scan), steps, &cut));
    require(cut, "the write has ended before the cut");
    printf("  cut after %" PRIu32 " steps: %s\n", steps, scan);
}

/* Takes one scan after the other, oldest first, and says how many there were. */
static uint32_t send_all(void) {
    lurgabel_scan scan;
    lurgabel_answer answer;
    uint32_t sent = 0;
    while ((answer = lurgabel_take_scan(&controller, flash, IMAGE_WORDS, SCAN_PAGE, OTHER_SCAN_PAGE, &scan)) ==
           LURGABEL_ACCEPTED) {
        printf("  sent %" PRIu32 ": %.*s\n", scan.serial, (int)scan.length, (const char *)scan.bytes);
        sent++;
    }
    require(answer == LURGABEL_NO_SCAN, lurgabel_answer_text(answer));
    return sent;
}

int main(void) {
    lurgabel_blank_image(flash, IMAGE_WORDS);

    printf("battery in: pages 4 and 5 are ours, the others we may only read\n");
    battery_in();
    keep("meter 40117, rack 3");
    keep("meter 40118, rack 3");
    keep("meter 40131, rack 5");

    printf("the battery falls out in the middle of a write\n");
    keep_for("meter 40202, rack 9", 7);
    battery_out();

    printf("battery in: the controller forgets, the flash does not\n");
    battery_in();
    require(send_all() == 3, "scans are lost");

    printf("the scan that was cut is made again\n");
    keep("meter 40202, rack 9");
    require(send_all() == 1, "the scan is lost");
    return EXIT_SUCCESS;
}
