/* Prints a line for each group of checks and ends with 'N passed, 0 failed'. */
#include "tests.h"

#include <stdio.h>

static unsigned passed, failed;

void check_at(bool holds, const char *what, size_t element) {
    if (holds) {
        passed++;
    } else {
        failed++;
        printf("FAILED: %s [%u]\n", what, (unsigned)element);
    }
}

void check(bool holds, const char *what) {
    check_at(holds, what, 0);
}

static void run_group(const char *name, void (*group)(void)) {
    unsigned before = passed;
    group();
    printf("%s: %u passed\n", name, passed - before);
}

int main(void) {
    run_group("fields listed", test_fields_are_all_listed);
    run_group("fields by number", test_fields_by_number);
    run_group("numbers left by a refused call", test_handed_back);
    run_group("fields broken alone", test_broken_alone);
    run_group("large numbers in small fields", test_large_numbers);
    run_group("states valid and invalid", test_valid_states);
    run_group("settings", test_settings);
    run_group("fields understood", test_understood);
    run_group("litter kept and cleared", test_litter);
    run_group("operations refused", test_operation_fields);
    run_group("answers of every call in every state", test_answers);
    run_group("lost turns left by every call", test_lost_turns_left);
    run_group("values of every call", test_values);
    run_group("bit counts", test_bit_counts);
    run_group("rounds", test_rounds);
    run_group("deciders of every page", test_deciders);
    run_group("denied reads", test_denied_reads);
    run_group("first denied page of every read", test_first_denied_page);
    run_group("deciders reported", test_reports);
    run_group("operations for a number of steps", test_run_for);
    run_group("scans", test_scans);
    run_group("slots of the scan queue", test_slots);
    run_group("cuts in the scan queue", test_scan_cuts);
    run_group("image length", test_image_length);
    run_group("texts", test_texts);
    run_group("texts of the deciders", test_decider_texts);
    run_group("texts of the record", test_recorded_texts);
    run_group("places in the image", test_places);
    run_group("blank image", test_blank_image);
    printf("%u passed, %u failed\n", passed, failed);
    return failed != 0;
}
