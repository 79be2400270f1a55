/* The power is cut in a write or a take: what the image keeps, where the controller stands, and which scans wait. */
#include "tests.h"

#define MAX_SCANS (2u * LURGABEL_SCAN_SLOTS)

typedef struct list {
    uint32_t count;
    lurgabel_scan scans[MAX_SCANS];
} list;

/* The battery goes in again, and everything is taken out of a copy. */
static list waiting(void) {
    static uint32_t copy[IMAGE_WORDS];
    lurgabel_controller c;
    list found;
    memset(&c, 0xA5, sizeof c);
    memset(&found, 0, sizeof found);
    memcpy(copy, image, sizeof copy);
    check(lurgabel_reset(&c, 16) == LURGABEL_ACCEPTED &&
              lurgabel_set_default_rights(&c, LURGABEL_ALL_RIGHTS) == LURGABEL_ACCEPTED &&
              lurgabel_initialise(&c, copy, IMAGE_WORDS, NULL) == LURGABEL_ACCEPTED, "power on");
    while (found.count < MAX_SCANS && lurgabel_take_scan(&c, copy, IMAGE_WORDS, LOW, HIGH,
                                                         &found.scans[found.count]) == LURGABEL_ACCEPTED) {
        found.count++;
    }
    return found;
}

static bool same_lists(const list *a, const list *b) {
    return a->count == b->count && memcmp(a->scans, b->scans, a->count * sizeof a->scans[0]) == 0;
}

/* ---- one cut --------------------------------------------------------------------------------------------------- */

/* An operation that a call makes, and where its words lie in the image. */
typedef struct job {
    lurgabel_operation operation;
    uint32_t words;
    uint32_t *at;
} job;

/* A call: its jobs in order, and the image before it. */
typedef struct call {
    const char *name;
    bool take;
    uint32_t job_count;
    job jobs[3];
    uint32_t before[IMAGE_WORDS];
} call;

static call made;

static void begin_call(const char *name, bool take) {
    made.name = name;
    made.take = take;
    made.job_count = 0;
    memcpy(made.before, image, sizeof made.before);
}

static void add_job(uint32_t kind, uint32_t page, uint32_t number, uint32_t word, uint32_t count, uint32_t words) {
    job *j = &made.jobs[made.job_count++];
    uint32_t offset = 4 * (number * SLOT_WORDS + word);
    j->operation = on_data(kind, LURGABEL_ADDRESS(16u, 0u, page, offset), count);
    j->words = words;
    j->at = slot(page, number) + word;
}

static void add_write_jobs(uint32_t page, uint32_t number) {
    add_job(LURGABEL_PROGRAM, page, number, 2, 14, 14);
    add_job(LURGABEL_PROGRAM, page, number, 0, 1, 1);
}

/* The call from the image before it, for so many steps; zeros stand for the scan of a write. */
static bool make(lurgabel_controller *c, uint32_t steps, uint32_t *cut, lurgabel_scan *scan) {
    memset(scan, 0, sizeof *scan);
    memcpy(image, made.before, sizeof made.before);
    return (made.take ? lurgabel_take_scan_for(c, image, IMAGE_WORDS, LOW, HIGH, scan, steps, cut)
                      : lurgabel_write_scan_for(c, image, IMAGE_WORDS, LOW, HIGH, sample, 48, steps, cut)) ==
           LURGABEL_ACCEPTED;
}

/* The words that so many steps have changed are those of the whole call, and the others those before it. */
static void check_image(const uint32_t *after, uint32_t steps) {
    static uint32_t expected[IMAGE_WORDS];
    uint32_t i, k, step = 0;
    memcpy(expected, made.before, sizeof expected);
    for (i = 0; i < made.job_count; i++) {
        const job *j = &made.jobs[i];
        for (k = 0; k < j->words && step < steps; k++, step++) {
            size_t place = (size_t)(j->at - image) + k;
            expected[place] = j->operation.kind == LURGABEL_PAGE_ERASE ? LURGABEL_ERASED : after[place];
        }
    }
    check_at(memcmp(expected, image, sizeof expected) == 0, made.name, steps);
}

/* The operation of the next step is in progress, with the words that it has moved, and nothing is queued. */
static void check_progress(const lurgabel_controller *c, uint32_t steps) {
    lurgabel_controller expected = ready();
    uint32_t i = 0, moved = steps;
    while (moved >= made.jobs[i].words) {
        moved -= made.jobs[i++].words;
    }
    expected.progress.operation = made.jobs[i].operation;
    expected.progress.moved = moved;
    expected.progress.running = 1;
    check_at(same(&expected, c), made.name, steps);
}

/* Every scan call waits for a reset. */
static void check_busy(lurgabel_controller c, uint32_t steps) {
    check_at(write_to_queue(&c, 1) == LURGABEL_BUSY && take_from_queue(&c, NULL) == LURGABEL_BUSY, made.name, steps);
}

/* ---- every cut ------------------------------------------------------------------------------------------------- */

static void test_cut(uint32_t steps, const uint32_t *after, const list *before) {
    static const lurgabel_scan none = {0, 0, {0}};
    lurgabel_controller c = ready();
    lurgabel_scan scan;
    uint32_t cut = 77;
    list found;
    check_at(make(&c, steps, &cut, &scan) && cut == 1, made.name, steps);
    check_at(memcmp(&scan, &none, sizeof scan) == 0, made.name, steps);
    check_image(after, steps);
    check_progress(&c, steps);
    check_busy(c, steps);
    found = waiting();
    check_at(same_lists(&found, before), made.name, steps);
}

/* With its own number of steps, and with more. */
static void test_done(uint32_t steps, const uint32_t *after, const list *expected) {
    const lurgabel_controller free_again = ready();
    lurgabel_controller c = ready();
    lurgabel_scan scan;
    uint32_t cut = 77;
    list found;
    check_at(make(&c, steps, &cut, &scan) && cut == 0, made.name, steps);
    check_at(memcmp(image, after, sizeof made.before) == 0 && same(&free_again, &c), made.name, steps);
    found = waiting();
    check_at(same_lists(&found, expected), made.name, steps);
}

/* Before its last step a call leaves the list before it, and after that the one after it. */
static void test_every_cut(void) {
    static uint32_t after[IMAGE_WORDS];
    lurgabel_controller c = ready();
    lurgabel_scan scan;
    uint32_t i, total = 0, steps, cut;
    list before, expected;
    before = waiting();
    check(make(&c, UINT32_MAX, &cut, &scan), made.name);
    memcpy(after, image, sizeof after);
    expected = waiting();
    check(expected.count == (made.take ? before.count - 1 : before.count + 1), made.name);
    check(memcmp(expected.scans, before.scans + made.take, (expected.count - !made.take) * sizeof scan) == 0,
          made.name);
    for (i = 0; i < made.job_count; i++) {
        total += made.jobs[i].words;
    }
    for (steps = 0; steps < total; steps++) {
        test_cut(steps, after, &before);
    }
    test_done(total, after, &expected);
    test_done(total + 1, after, &expected);
}

static void test_takes(void) {
    lurgabel_blank_image(image, IMAGE_WORDS);
    put_page(LOW, WAITING, 1);
    begin_call("cut in a take", true);
    add_job(LURGABEL_PROGRAM, LOW, 0, 1, 1, 1);
    test_every_cut();
    put_page(LOW, TAKEN, 1);
    put_scan(slot(HIGH, 15), WAITING, 7, sample, 48);
    begin_call("cut in the take of the last scan", true);
    add_job(LURGABEL_PROGRAM, HIGH, 15, 1, 1, 1);
    test_every_cut();
}

static void test_writes(void) {
    lurgabel_blank_image(image, IMAGE_WORDS);
    begin_call("cut in the first write", false);
    add_write_jobs(LOW, 0);
    test_every_cut();
    put_page(LOW, WAITING, 1);
    put_page(HIGH, WAITING, 17);
    lurgabel_blank_image(slot(HIGH, 15), SLOT_WORDS);
    begin_call("cut in the write to the last slot", false);
    add_write_jobs(HIGH, 15);
    test_every_cut();
}

static void test_write_with_erase(uint32_t page, const char *name) {
    begin_call(name, false);
    add_job(LURGABEL_PAGE_ERASE, page, 0, 0, 0, LURGABEL_PAGE_WORDS);
    add_write_jobs(page, 0);
    test_every_cut();
}

static void test_writes_with_erase(void) {
    lurgabel_blank_image(image, IMAGE_WORDS);
    put_page(LOW, TAKEN, 1);
    put_page(HIGH, WAITING, 17);
    test_write_with_erase(LOW, "cut in a write that erases the lower page");
    put_page(LOW, WAITING, 33);
    put_page(HIGH, TAKEN, 17);
    test_write_with_erase(HIGH, "cut in a write that erases the higher page");
}

/* ---- what a cut may cost --------------------------------------------------------------------------------------- */

/* The slot of a cut write is dead: the next scan goes to the one behind it, with the same serial. */
static void test_dead_slot(void) {
    lurgabel_controller c = ready();
    lurgabel_scan scan;
    uint32_t cut;
    lurgabel_blank_image(image, IMAGE_WORDS);
    check(lurgabel_write_scan_for(&c, image, IMAGE_WORDS, LOW, HIGH, sample, 48, 1, &cut) == LURGABEL_ACCEPTED &&
              cut == 1, "cut after one step");
    c = ready();
    check(write_to_queue(&c, 48) == LURGABEL_ACCEPTED && slot(LOW, 1)[0] == 0, "the slot behind a dead one");
    check(take_from_queue(&c, &scan) == LURGABEL_ACCEPTED && scan.serial == 1, "its serial");
}

/* The page with the highest serials is gone, and the scan that should have followed them is not sealed. */
static void test_serial_again(void) {
    lurgabel_controller c = ready();
    lurgabel_scan scan;
    uint32_t cut;
    lurgabel_blank_image(image, IMAGE_WORDS);
    put_page(LOW, TAKEN, 100);
    put_page(HIGH, TAKEN, 1);
    check(lurgabel_write_scan_for(&c, image, IMAGE_WORDS, LOW, HIGH, sample, 48, 256, &cut) == LURGABEL_ACCEPTED &&
              cut == 1, "cut after the erase");
    c = ready();
    check(write_to_queue(&c, 48) == LURGABEL_ACCEPTED && take_from_queue(&c, &scan) == LURGABEL_ACCEPTED &&
              scan.serial == 17, "a serial that may have been given before");
}

void test_scan_cuts(void) {
    test_takes();
    test_writes();
    test_writes_with_erase();
    test_dead_slot();
    test_serial_again();
}
