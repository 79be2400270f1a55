/*
 * A hand scanner's firmware on the model. Run it with
 *
 *     ./lurgabel run examples/scanner.c
 *
 * It programs its scans into a page of the flash, loses its battery, finds the scans again and sends them. Then it
 * makes the mistake that the bench is there for: it erases a page that it takes for its own, and asks who refused.
 */
#include <inttypes.h>
#include <stdbool.h>
#include <stdio.h>
#include <stdlib.h>
#include <string.h>

#include <lurgabel.h>

#define DATA_PAGES 16u  /* in each bank */
#define IMAGE_WORDS LURGABEL_IMAGE_WORDS(DATA_PAGES)

/* Pages 4 and 5 are ours. The meter list on page 6 belongs to another program. */
#define SCAN_PAGE 4u
#define OWN_PAGES 2u
#define METER_PAGE 6u

/* A program may not leave its window of 64 bytes, so each scan has a window to itself. */
#define WINDOW_WORDS 16u
#define WINDOWS (LURGABEL_PAGE_WORDS / WINDOW_WORDS)

/* A scan in the flash: its mark, the meter, the rack, and a check word over these three. */
enum { MARK, METER, RACK, CHECK, SCAN_WORDS };
#define SCAN_MARK 0x5343414Eu

static uint32_t flash[IMAGE_WORDS];     /* keeps its words without power */
static lurgabel_controller controller;  /* does not */

/* ---- small things --------------------------------------------------------------------------------------------- */

static void require(bool holds, const char *what) {
    if (!holds) {
        printf("scanner stopped: %s\n", what);
        exit(EXIT_FAILURE);
    }
}

static void require_accepted(const char *call, lurgabel_answer answer) {
    if (answer != LURGABEL_ACCEPTED) {
        printf("scanner stopped: %s: %s (%d)\n", call, lurgabel_answer_text(answer), (int)answer);
        exit(EXIT_FAILURE);
    }
}

static uint32_t address_of(uint32_t page, uint32_t word) {
    return LURGABEL_ADDRESS(DATA_PAGES, 0, page, word * (uint32_t)sizeof(uint32_t));
}

static lurgabel_operation on_window(uint8_t kind, uint32_t window) {
    return (lurgabel_operation){
        .kind = kind,
        .partition = LURGABEL_DATA,
        .address = address_of(SCAN_PAGE, window * WINDOW_WORDS),
        .count = SCAN_WORDS,
    };
}

static lurgabel_operation erase_of(uint32_t page) {
    return (lurgabel_operation){
        .kind = LURGABEL_PAGE_ERASE,
        .partition = LURGABEL_DATA,
        .address = address_of(page, 0),
    };
}

/* ---- power ---------------------------------------------------------------------------------------------------- */

static void set_region(uint32_t number, uint32_t first_page, uint32_t page_count, uint8_t rights) {
    lurgabel_region region = {.first_page = first_page, .page_count = page_count, .on = 1, .rights = rights};
    require_accepted("set region", lurgabel_set_region(&controller, number, region));
}

/* The lowest region that holds a page decides: our pages are ours, and all the others may only be read. */
static void battery_in(void) {
    require_accepted("reset", lurgabel_reset(&controller, DATA_PAGES));
    set_region(0, SCAN_PAGE, OWN_PAGES, LURGABEL_ALL_RIGHTS);
    set_region(1, 0, LURGABEL_BANKS * DATA_PAGES, LURGABEL_CAN_READ);
    require_accepted("initialise", lurgabel_initialise(&controller, flash, IMAGE_WORDS, NULL));
}

static void battery_out(void) {
    memset(&controller, 0, sizeof controller);
}

/* ---- scans ---------------------------------------------------------------------------------------------------- */

static void make_scan(uint32_t scan[SCAN_WORDS], uint32_t meter, uint32_t rack) {
    scan[MARK] = SCAN_MARK;
    scan[METER] = meter;
    scan[RACK] = rack;
    scan[CHECK] = SCAN_MARK ^ meter ^ rack;
}

static bool is_whole(const uint32_t scan[SCAN_WORDS]) {
    return scan[MARK] == SCAN_MARK && scan[CHECK] == (scan[MARK] ^ scan[METER] ^ scan[RACK]);
}

static void print_scan(uint32_t window, const uint32_t scan[SCAN_WORDS]) {
    printf("  window %" PRIu32 ": meter %" PRIu32 ", rack %" PRIu32, window, scan[METER], scan[RACK]);
}

/* The first window whose mark is still erased. A view looks straight into the flash. */
static uint32_t first_free_window(void) {
    lurgabel_answer answer;
    const uint32_t *page = lurgabel_view(&controller, flash, IMAGE_WORDS, SCAN_PAGE, &answer);
    uint32_t window = 0;
    require_accepted("view", answer);
    while (window < WINDOWS && page[window * WINDOW_WORDS + MARK] != LURGABEL_ERASED) {
        window++;
    }
    return window;
}

static uint32_t window_for_new_scan(void) {
    uint32_t window = first_free_window();
    require(window < WINDOWS, "the page is full");
    return window;
}

/* Appends a scan by a whole operation: one call, and the scan is in the flash. */
static void append(uint32_t meter, uint32_t rack) {
    uint32_t window = window_for_new_scan();
    uint32_t scan[SCAN_WORDS], bits;
    make_scan(scan, meter, rack);
    require_accepted("program", lurgabel_run(&controller, flash, IMAGE_WORDS, on_window(LURGABEL_PROGRAM, window), scan,
                                             SCAN_WORDS, &bits));
    print_scan(window, scan);
    printf(": %" PRIu32 " bits fell\n", bits);
}

/* Appends a scan word by word. Between two steps the bench may do what it likes: read as host, or cut the power. */
static void append_by_steps(uint32_t meter, uint32_t rack) {
    uint32_t window = window_for_new_scan();
    uint32_t scan[SCAN_WORDS], bits, fallen = 0, word = 0;
    lurgabel_movement movement;
    make_scan(scan, meter, rack);
    require_accepted("start", lurgabel_start(&controller, on_window(LURGABEL_PROGRAM, window)));
    do {
        require_accepted("push", lurgabel_push(&controller, scan[word++]));
        require_accepted("step", lurgabel_step(&controller, flash, IMAGE_WORDS, &movement, &bits));
        fallen += bits;
    } while (movement != LURGABEL_FINISHED);
    print_scan(window, scan);
    printf(": %" PRIu32 " bits fell, in %" PRIu32 " steps\n", fallen, word);
}

/* Reads every scan of the page back, each into a buffer of its own size, and says how many there are. */
static uint32_t find_scans(void) {
    uint32_t free_window = first_free_window();
    uint32_t window;
    for (window = 0; window < free_window; window++) {
        uint32_t scan[SCAN_WORDS];
        require_accepted("read", lurgabel_run(&controller, flash, IMAGE_WORDS, on_window(LURGABEL_READ, window), scan,
                                              SCAN_WORDS, NULL));
        require(is_whole(scan), "a scan is damaged");
        print_scan(window, scan);
        printf("\n");
    }
    return free_window;
}

/* ---- pages ---------------------------------------------------------------------------------------------------- */

static void erase_own_page(void) {
    uint32_t bits;
    require_accepted("erase", lurgabel_run(&controller, flash, IMAGE_WORDS, erase_of(SCAN_PAGE), NULL, 0, &bits));
    require(first_free_window() == 0, "the page is not blank");
    printf("  %" PRIu32 " bits rose, window 0 is free again\n", bits);
}

/* What the other program keeps: the bench puts it into the flash by hand. */
static void fill_meter_page(void) {
    uint32_t word;
    for (word = 0; word < LURGABEL_PAGE_WORDS; word++) {
        flash[METER_PAGE * LURGABEL_PAGE_WORDS + word] = 40000 + word;
    }
}

static uint32_t meters_listed(void) {
    const uint32_t *page = lurgabel_view(&controller, flash, IMAGE_WORDS, METER_PAGE, NULL);
    uint32_t word = 0;
    require(page != NULL, "the meter list cannot be read");
    while (word < LURGABEL_PAGE_WORDS && page[word] == 40000 + word) {
        word++;
    }
    return word;
}

/* The form of a call that ends in _by also says who decided. */
static void erase_foreign_page(void) {
    lurgabel_operation erase = erase_of(METER_PAGE);
    lurgabel_decider by;
    lurgabel_answer answer = lurgabel_run_by(&controller, flash, IMAGE_WORDS, erase, NULL, 0, NULL, &by);
    require(answer == LURGABEL_DENIED, "the erase of a foreign page was not refused");
    printf("  refused by %s: %s (%d)\n", lurgabel_decider_text(by), lurgabel_answer_text(answer), (int)answer);
}

static void print_error_record(void) {
    require(controller.recorded == LURGABEL_RECORDED(LURGABEL_DENIED), "another error is recorded");
    printf("  recorded: %s, last address 0x%04" PRIX32 "\n", lurgabel_recorded_text(controller.recorded),
           controller.last_address);
}

int main(void) {
    lurgabel_blank_image(flash, IMAGE_WORDS);
    fill_meter_page();

    printf("battery in: pages 4 and 5 are ours, the others we may only read\n");
    battery_in();
    append(40117, 3);
    append(40118, 3);
    append(40131, 5);
    append_by_steps(40202, 9);

    printf("battery out, battery in: the controller forgets, the flash does not\n");
    battery_out();
    battery_in();
    require(find_scans() == 4, "scans are lost");

    printf("the scans are sent: erase page 4\n");
    erase_own_page();

    printf("a slip: erase page 6, the meter list\n");
    erase_foreign_page();
    print_error_record();
    printf("  page 6 still lists %" PRIu32 " meters\n", meters_listed());
    return EXIT_SUCCESS;
}
