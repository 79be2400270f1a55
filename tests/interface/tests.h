/*
 * Tests of include/lurgabel.h, the boundary that no proof reaches, for C99 and C++11: where every field lies, that each
 * of them arrives by itself, that the model understands it, and every call with its answer.
 *
 * This header has what the files share: the count of the checks, the fields, controllers and operations to begin with.
 */
#ifndef LURGABEL_TESTS_H
#define LURGABEL_TESTS_H

#include "lurgabel.h"

#include <string.h>

/* ---- the groups of checks ------------------------------------------------------------------------------------- */

void test_fields_are_all_listed(void);
void test_fields_by_number(void);
void test_handed_back(void);
void test_answers(void);
void test_lost_turns_left(void);
void test_valid_states(void);
void test_broken_alone(void);
void test_large_numbers(void);
void test_settings(void);
void test_understood(void);
void test_litter(void);
void test_operation_fields(void);
void test_values(void);
void test_bit_counts(void);
void test_rounds(void);
void test_deciders(void);
void test_denied_reads(void);
void test_first_denied_page(void);
void test_reports(void);
void test_run_for(void);
void test_scans(void);
void test_slots(void);
void test_scan_cuts(void);
void test_image_length(void);
void test_texts(void);
void test_decider_texts(void);
void test_recorded_texts(void);
void test_places(void);
void test_blank_image(void);

/* ---- counting ------------------------------------------------------------------------------------------------- */

void check_at(bool holds, const char *what, size_t element);
void check(bool holds, const char *what);

/* ---- fields --------------------------------------------------------------------------------------------------- */

/* A field, or a field of each element of an array, by its number in the controller; a value for it that no controller
 * has (refused) or that no rule looks at while a program is in progress (not refused); and whether the rules hold it in
 * a byte, so that every number over 255 is refused then. */
typedef struct field {
    const char *name;
    size_t number, elements, stride;
    uint32_t value;
    bool refused, byte;
} field;

#define FIELD_COUNT 27u
extern const field fields[FIELD_COUNT];

void put(lurgabel_controller *c, const field *f, size_t element, uint32_t value);

/* Number for number, all of them. */
bool same(const lurgabel_controller *a, const lurgabel_controller *b);

/* ---- controllers ---------------------------------------------------------------------------------------------- */

lurgabel_controller zeros(void);
lurgabel_controller uninitialised(void);  /* what a reset with D = 16 gives */
lurgabel_controller disabled(void);
lurgabel_controller locked(void);  /* ready, and no page may be touched */
lurgabel_controller ready(void);   /* with every right to the data pages */
lurgabel_controller open_everywhere(void);  /* ready, and every page may be touched, the seed pages too */
lurgabel_controller in_progress(uint32_t kind, uint32_t address, uint32_t count);
/* Four words at 0x40: one moved, two queued. Words of an earlier read and a recorded error are there as well. */
lurgabel_controller programming(void);
lurgabel_controller reading(void);
lurgabel_controller reading_denied(void);  /* a read of a denied page: ones alone */
lurgabel_controller reading_cut(void);     /* two words of page 0, and two of page 1, which is denied */
lurgabel_controller erasing_page(void);
lurgabel_controller erasing_bank(void);
/* Ready, with litter wherever no rule looks: no operation runs, and the queues are empty. */
lurgabel_controller littered(void);

/* ---- operations and settings ---------------------------------------------------------------------------------- */

lurgabel_operation operation(uint32_t kind, uint32_t partition, uint32_t info_type, uint32_t address, uint32_t count);
lurgabel_operation on_data(uint32_t kind, uint32_t address, uint32_t count);
lurgabel_region region(uint32_t first_page, uint32_t page_count, uint32_t on, uint32_t rights);
lurgabel_page_setting page_setting(uint32_t on, uint32_t rights);

/* An information page, in the order of info_pages. */
typedef struct info_page {
    uint32_t bank;
    uint8_t info_type;
    uint32_t page;
} info_page;

info_page info_page_at(uint32_t index);
uint32_t address_of(info_page p);

/* ---- the image ------------------------------------------------------------------------------------------------ */

#define IMAGE_WORDS LURGABEL_IMAGE_WORDS(16)

extern uint32_t image[IMAGE_WORDS + 1];
extern uint32_t buffer[LURGABEL_MAX_COUNT];

/* ---- deciders ------------------------------------------------------------------------------------------------- */

/* What no call reports, so that it shows whether *by was written. */
#define UNWRITTEN ((lurgabel_decider)77)

/* Denied by the one who is expected; accepted if that is nobody. */
bool told(lurgabel_answer answer, lurgabel_decider by, lurgabel_decider expected);

/* ---- the scan queue ------------------------------------------------------------------------------------------- */

#define SLOT_WORDS 16u
#define PAYLOAD_BYTES 56u
#define WAITING LURGABEL_ERASED
#define TAKEN 0u

/* The pages of most tests. */
#define LOW 5u
#define HIGH 9u

extern const uint8_t sample[LURGABEL_SCAN_BYTES + 1];

uint32_t *slot(uint32_t page, uint32_t number);  /* in the image */
/* These bytes from word 2 of a slot on, lowest byte of a word first, and ones behind them. */
void put_bytes(uint32_t *at, const uint8_t *bytes, size_t count);
/* A sealed slot. */
void put_scan(uint32_t *at, uint32_t mark, uint32_t serial, const uint8_t *bytes, size_t length);
/* A page of sealed slots, with scans of one byte and serials that rise. */
void put_page(uint32_t page, uint32_t mark, uint32_t first_serial);

lurgabel_answer write_to_queue(lurgabel_controller *c, size_t length);
lurgabel_answer take_from_queue(lurgabel_controller *c, lurgabel_scan *scan);

/* ---- every call, with inputs that a ready controller takes ---------------------------------------------------- */

lurgabel_answer call_set_inputs(lurgabel_controller *c);
lurgabel_answer call_set_region(lurgabel_controller *c);
lurgabel_answer call_set_default_rights(lurgabel_controller *c);
lurgabel_answer call_set_info_page(lurgabel_controller *c);
lurgabel_answer call_set_bank_erase(lurgabel_controller *c);
lurgabel_answer call_clear_errors(lurgabel_controller *c);
lurgabel_answer call_host_read(lurgabel_controller *c);
lurgabel_answer call_view(lurgabel_controller *c);
lurgabel_answer call_round_host(lurgabel_controller *c);

#endif
