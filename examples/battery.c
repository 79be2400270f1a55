/*
 * A day of a hand scanner whose battery may fall out at any time. Run it with
 *
 *     ./lurgabel run examples/battery.c
 *
 * Each call of the day is first tried with the power cut after none of its steps, after one, and so on to its last. The
 * battery goes back in, and all that waits is taken: it has to be the list before the call or the one after it. If it
 * is the one before, the scanner makes the call again, and the power is cut a second time, again after each of its
 * steps. Then the call is made in peace and the day goes on.
 */
#include <stdbool.h>
#include <stdio.h>
#include <stdlib.h>
#include <string.h>

#include <lurgabel.h>

#define DATA_PAGES 16u /* in each bank */
#define IMAGE_WORDS LURGABEL_IMAGE_WORDS(DATA_PAGES)

/* The pages of the queue. */
#define LOWER 4u
#define HIGHER 5u

/* The flash of the day, and what the first and the second cut leave of it. */
enum { DAY, CUT_ONCE, CUT_TWICE, FLASHES };
static uint32_t flash[FLASHES][IMAGE_WORDS];
static lurgabel_controller controller;

/* ---- small things --------------------------------------------------------------------------------------------- */

static void require(bool holds, const char *what) {
    if (!holds) {
        printf("battery stopped: %s\n", what);
        exit(EXIT_FAILURE);
    }
}

static void require_accepted(const char *call, lurgabel_answer answer) {
    if (answer != LURGABEL_ACCEPTED) {
        printf("battery stopped: %s: %s (%d)\n", call, lurgabel_answer_text(answer), (int)answer);
        exit(EXIT_FAILURE);
    }
}

/* ---- power ---------------------------------------------------------------------------------------------------- */

static void set_region(uint32_t number, uint32_t first_page, uint32_t page_count, uint32_t rights) {
    lurgabel_region region = {.first_page = first_page, .page_count = page_count, .on = 1, .rights = rights};
    require_accepted("set region", lurgabel_set_region(&controller, number, region));
}

/* Nothing of the controller outlives the battery, so anything may stand in it. */
static void battery_in(const uint32_t *image) {
    memset(&controller, 0xA5, sizeof controller);
    require_accepted("reset", lurgabel_reset(&controller, DATA_PAGES));
    set_region(0, LOWER, 2, LURGABEL_ALL_RIGHTS);
    set_region(1, 0, LURGABEL_BANKS * DATA_PAGES, LURGABEL_CAN_READ);
    require_accepted("initialise", lurgabel_initialise(&controller, image, IMAGE_WORDS, NULL));
}

/* ---- calls ---------------------------------------------------------------------------------------------------- */

/* A scan of so many bytes is written; with none, one is taken. */
typedef struct call {
    size_t length;
    uint8_t bytes[LURGABEL_SCAN_BYTES];
} call;

/* No two scans of the day are the same. */
static call nth_scan(unsigned n) {
    call scan = {.length = 1 + n * 7 % LURGABEL_SCAN_BYTES};
    size_t i;
    for (i = 0; i < scan.length; i++) {
        scan.bytes[i] = (uint8_t)(n + 37 * i);
    }
    return scan;
}

static lurgabel_answer make(const call *made, uint32_t *image, lurgabel_scan *taken, uint32_t steps, uint32_t *cut) {
    battery_in(image);
    if (made->length == 0) {
        return lurgabel_take_scan_for(&controller, image, IMAGE_WORDS, LOWER, HIGHER, taken, steps, cut);
    }
    return lurgabel_write_scan_for(&controller, image, IMAGE_WORDS, LOWER, HIGHER, made->bytes, made->length, steps,
                                   cut);
}

/* ---- lists ---------------------------------------------------------------------------------------------------- */

typedef struct list {
    uint32_t count;
    lurgabel_scan scans[2 * LURGABEL_SCAN_SLOTS];
} list;

static bool same_scans(const lurgabel_scan *a, const lurgabel_scan *b, uint32_t count) {
    return memcmp(a, b, count * sizeof *a) == 0;
}

static bool same(const list *a, const list *b) {
    return a->count == b->count && same_scans(a->scans, b->scans, a->count);
}

/* What waits in a flash, in order: what takes hand out of a copy. */
static list waiting_in(const uint32_t *image) {
    static uint32_t copy[IMAGE_WORDS];
    list found = {0};
    lurgabel_scan scan;
    lurgabel_answer answer;
    memcpy(copy, image, sizeof copy);
    battery_in(copy);
    while ((answer = lurgabel_take_scan(&controller, copy, IMAGE_WORDS, LOWER, HIGHER, &scan)) == LURGABEL_ACCEPTED) {
        require(found.count < 2 * LURGABEL_SCAN_SLOTS, "more scans than slots");
        found.scans[found.count++] = scan;
    }
    require(answer == LURGABEL_NO_SCAN, lurgabel_answer_text(answer));
    return found;
}

static bool is_of(const lurgabel_scan *scan, const call *made) {
    return scan->length == made->length && memcmp(scan->bytes, made->bytes, made->length) == 0;
}

/* Whether a list is the one after the call: with the scan at its end, or without its first, which was handed out. */
static bool follows(const list *after, const list *before, const call *made, const lurgabel_scan *taken) {
    if (made->length == 0) {
        return before->count == after->count + 1 && same_scans(before->scans, taken, 1) &&
               same_scans(before->scans + 1, after->scans, after->count);
    }
    return after->count == before->count + 1 && same_scans(before->scans, after->scans, before->count) &&
           is_of(&after->scans[before->count], made);
}

/* What a call answers, and the lists before it and after it. */
typedef struct course {
    lurgabel_answer answer;
    list before, after;
} course;

static course course_of(const call *made, const uint32_t *image) {
    static uint32_t copy[IMAGE_WORDS];
    lurgabel_scan taken;
    uint32_t cut;
    course whole = {.before = waiting_in(image)};
    memcpy(copy, image, sizeof copy);
    whole.answer = make(made, copy, &taken, UINT32_MAX, &cut);
    whole.after = waiting_in(copy);
    require(!cut, "a call that has all its steps is cut");
    if (whole.answer == LURGABEL_ACCEPTED) {
        require(follows(&whole.after, &whole.before, made, &taken), "a call leaves a wrong list");
    } else {
        require(memcmp(copy, image, sizeof copy) == 0, "a refused call changes the flash");
    }
    return whole;
}

/* ---- cuts ----------------------------------------------------------------------------------------------------- */

typedef struct tally {
    unsigned cuts, before, after; /* all, and those that found the list before the call and the one after it */
} tally;

static void require_after(const list *found, const course *whole, int from, uint32_t steps) {
    if (!same(found, &whole->after)) {
        printf("battery stopped: the %s cut, after %u steps, left neither the list before nor the one after the call\n",
               from == DAY ? "first" : "second", (unsigned)steps);
        exit(EXIT_FAILURE);
    }
}

/* Cuts a call that begins on one of the flashes after each of its steps. */
static void cut_everywhere(const call *made, int from, tally *t) {
    course whole = course_of(made, flash[from]);
    uint32_t *left = flash[from + 1];
    uint32_t steps, cut = 1;
    for (steps = 0; cut; steps++) {
        list found;
        memcpy(left, flash[from], sizeof flash[from]);
        require(make(made, left, NULL, steps, &cut) == whole.answer, "a call that is cut has another answer");
        found = waiting_in(left);
        t->cuts++;
        if (same(&found, &whole.before)) {
            t->before++;
            if (cut && from == DAY) {
                cut_everywhere(made, CUT_ONCE, t);
            }
        } else {
            require_after(&found, &whole, from, steps);
            t->after++;
        }
    }
}

/* ---- the day -------------------------------------------------------------------------------------------------- */

/* Only an erase raises bits. */
static bool was_erased(uint32_t page, const uint32_t *before, const uint32_t *after) {
    uint32_t word = page * LURGABEL_PAGE_WORDS;
    uint32_t end = word + LURGABEL_PAGE_WORDS;
    while (word < end && (after[word] & ~before[word]) == 0) {
        word++;
    }
    return word < end;
}

static void print_call(unsigned number, const call *made, const tally *t) {
    if (made->length == 0) {
        printf("%3u take            ", number);
    } else {
        printf("%3u scan of %2u bytes", number, (unsigned)made->length);
    }
    printf(": cuts %4u, before %4u, after %3u", t->cuts, t->before, t->after);
}

/* Tries the cuts, then makes the call. */
static void live(unsigned number, const call *made, tally *sum) {
    tally t = {0};
    lurgabel_answer answer;
    cut_everywhere(made, DAY, &t);
    print_call(number, made, &t);
    memcpy(flash[CUT_ONCE], flash[DAY], sizeof flash[DAY]);
    answer = make(made, flash[DAY], NULL, UINT32_MAX, NULL);
    if (answer != LURGABEL_ACCEPTED) {
        printf("; refused: %s (%d)", lurgabel_answer_text(answer), (int)answer);
    }
    if (was_erased(LOWER, flash[CUT_ONCE], flash[DAY])) {
        printf("; erased page %u", LOWER);
    }
    if (was_erased(HIGHER, flash[CUT_ONCE], flash[DAY])) {
        printf("; erased page %u", HIGHER);
    }
    printf("\n");
    sum->cuts += t.cuts;
    sum->before += t.before;
    sum->after += t.after;
}

/* Near a station the scanner sends what waits, then it scans. One take finds nothing, and one scan finds no room. */
static const struct {
    unsigned takes, scans;
} day[] = {{1, 12}, {5, 21}, {11, 16}, {16, 1}, {17, 0}};

int main(void) {
    const call take = {0};
    tally sum = {0};
    unsigned calls = 0, k;
    size_t i;
    printf("every call, cut after each of its steps, and once more: how many cuts found the list before, and after\n");
    lurgabel_blank_image(flash[DAY], IMAGE_WORDS);
    for (i = 0; i < sizeof day / sizeof day[0]; i++) {
        for (k = 0; k < day[i].takes + day[i].scans; k++) {
            call scan = nth_scan(++calls);
            live(calls, k < day[i].takes ? &take : &scan, &sum);
        }
    }
    printf("%u calls, %u cuts: %u found the list before the call, %u the one after it, none another one\n", calls,
           sum.cuts, sum.before, sum.after);
    return EXIT_SUCCESS;
}
