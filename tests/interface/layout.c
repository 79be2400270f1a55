/* At compile time: the number of every field, the functions of the library, and the constants. */
#include "tests.h"

#define HOLDS(name, condition) typedef char name[(condition) ? 1 : -1]
#define SIZE_OF(type, member) sizeof(((type *)0)->member)
#define SIZE(type, numbers) HOLDS(type##_size, sizeof(type) == 4 * (numbers))
#define FIELD(type, member, number, numbers) \
    HOLDS(type##_##member, offsetof(type, member) == 4 * (number) && SIZE_OF(type, member) == 4 * (numbers))

SIZE(lurgabel_operation, 5);
FIELD(lurgabel_operation, address, 0, 1);
FIELD(lurgabel_operation, count, 1, 1);
FIELD(lurgabel_operation, kind, 2, 1);
FIELD(lurgabel_operation, partition, 3, 1);
FIELD(lurgabel_operation, info_type, 4, 1);

SIZE(lurgabel_region, 4);
FIELD(lurgabel_region, first_page, 0, 1);
FIELD(lurgabel_region, page_count, 1, 1);
FIELD(lurgabel_region, on, 2, 1);
FIELD(lurgabel_region, rights, 3, 1);

SIZE(lurgabel_page_setting, 2);
FIELD(lurgabel_page_setting, on, 0, 1);
FIELD(lurgabel_page_setting, rights, 1, 1);

SIZE(lurgabel_queue, 17);
FIELD(lurgabel_queue, words, 0, 16);
FIELD(lurgabel_queue, length, 16, 1);

SIZE(lurgabel_progress, 8);
FIELD(lurgabel_progress, operation, 0, 5);
FIELD(lurgabel_progress, moved, 5, 1);
FIELD(lurgabel_progress, readable, 6, 1);
FIELD(lurgabel_progress, running, 7, 1);

SIZE(lurgabel_controller, 137);
FIELD(lurgabel_controller, data_pages, 0, 1);
FIELD(lurgabel_controller, phase, 1, 1);
FIELD(lurgabel_controller, provision_enabled, 2, 1);
FIELD(lurgabel_controller, seeds_locked, 3, 1);
FIELD(lurgabel_controller, default_rights, 4, 1);
FIELD(lurgabel_controller, regions, 5, 32);
FIELD(lurgabel_controller, info_pages, 37, 52);
FIELD(lurgabel_controller, bank_erase, 89, 2);
FIELD(lurgabel_controller, progress, 91, 8);
FIELD(lurgabel_controller, read_queue, 99, 17);
FIELD(lurgabel_controller, program_queue, 116, 17);
FIELD(lurgabel_controller, recorded, 133, 1);
FIELD(lurgabel_controller, last_address, 134, 1);
FIELD(lurgabel_controller, lost_turns, 135, 2);
HOLDS(controller_numbers, LURGABEL_NUMBERS == 137);

SIZE(lurgabel_seeds, 17);
FIELD(lurgabel_seeds, creator, 0, 8);
FIELD(lurgabel_seeds, owner, 8, 8);
FIELD(lurgabel_seeds, given, 16, 1);

SIZE(lurgabel_scan, 14);
FIELD(lurgabel_scan, serial, 0, 1);
FIELD(lurgabel_scan, length, 1, 1);
FIELD(lurgabel_scan, bytes, 2, 12);

SIZE(lurgabel_initialised, 18);
FIELD(lurgabel_initialised, answer, 0, 1);
FIELD(lurgabel_initialised, seeds, 1, 17);

SIZE(lurgabel_started, 2);
FIELD(lurgabel_started, answer, 0, 1);
FIELD(lurgabel_started, decider, 1, 1);

SIZE(lurgabel_stepped, 3);
FIELD(lurgabel_stepped, answer, 0, 1);
FIELD(lurgabel_stepped, movement, 1, 1);
FIELD(lurgabel_stepped, bits, 2, 1);

SIZE(lurgabel_fetched, 2);
FIELD(lurgabel_fetched, answer, 0, 1);
FIELD(lurgabel_fetched, word, 1, 1);

SIZE(lurgabel_completed, 3);
FIELD(lurgabel_completed, answer, 0, 1);
FIELD(lurgabel_completed, decider, 1, 1);
FIELD(lurgabel_completed, bits, 2, 1);

SIZE(lurgabel_driven, 5);
FIELD(lurgabel_driven, answer, 0, 1);
FIELD(lurgabel_driven, decider, 1, 1);
FIELD(lurgabel_driven, bits, 2, 1);
FIELD(lurgabel_driven, left, 3, 1);
FIELD(lurgabel_driven, cut, 4, 1);

SIZE(lurgabel_host_fetched, 3);
FIELD(lurgabel_host_fetched, answer, 0, 1);
FIELD(lurgabel_host_fetched, decider, 1, 1);
FIELD(lurgabel_host_fetched, word, 2, 1);

SIZE(lurgabel_viewed, 3);
FIELD(lurgabel_viewed, answer, 0, 1);
FIELD(lurgabel_viewed, decider, 1, 1);
FIELD(lurgabel_viewed, start, 2, 1);

SIZE(lurgabel_rounded, 8);
FIELD(lurgabel_rounded, host_turn, 0, 1);
FIELD(lurgabel_rounded, host_answer, 1, 1);
FIELD(lurgabel_rounded, host_decider, 2, 1);
FIELD(lurgabel_rounded, word, 3, 1);
FIELD(lurgabel_rounded, step_turn, 4, 1);
FIELD(lurgabel_rounded, step_answer, 5, 1);
FIELD(lurgabel_rounded, movement, 6, 1);
FIELD(lurgabel_rounded, bits, 7, 1);

SIZE(lurgabel_scan_written, 2);
FIELD(lurgabel_scan_written, answer, 0, 1);
FIELD(lurgabel_scan_written, cut, 1, 1);

SIZE(lurgabel_scan_taken, 16);
FIELD(lurgabel_scan_taken, answer, 0, 1);
FIELD(lurgabel_scan_taken, cut, 1, 1);
FIELD(lurgabel_scan_taken, scan, 2, 14);

/* Whoever changes a size, a place or a function in this file raises the layout. */
HOLDS(layout, LURGABEL_LAYOUT == 4 && LURGABEL_NUMBERS == 137);

#define FUNCTION(result, name, arguments) \
    extern result(*const name##_of_layout_4) arguments; \
    result(*const name##_of_layout_4) arguments = lurgabel_layout4_##name

FUNCTION(uint32_t, reset, (lurgabel_controller *, uint32_t));
FUNCTION(uint32_t, set_inputs, (lurgabel_controller *, uint32_t, uint32_t));
FUNCTION(uint32_t, set_region, (lurgabel_controller *, uint32_t, lurgabel_region));
FUNCTION(uint32_t, set_default_rights, (lurgabel_controller *, uint32_t));
FUNCTION(uint32_t, set_info_page, (lurgabel_controller *, uint32_t, uint32_t, uint32_t, lurgabel_page_setting));
FUNCTION(uint32_t, set_bank_erase, (lurgabel_controller *, uint32_t, uint32_t));
FUNCTION(uint32_t, clear_errors, (lurgabel_controller *));
FUNCTION(lurgabel_initialised, initialise, (lurgabel_controller *, const uint32_t *, size_t));
FUNCTION(lurgabel_started, start, (lurgabel_controller *, lurgabel_operation));
FUNCTION(lurgabel_stepped, step, (lurgabel_controller *, uint32_t *, size_t));
FUNCTION(uint32_t, push, (lurgabel_controller *, uint32_t));
FUNCTION(lurgabel_fetched, pop, (lurgabel_controller *));
FUNCTION(lurgabel_completed, run,
         (lurgabel_controller *, uint32_t *, size_t, lurgabel_operation, uint32_t *, size_t));
FUNCTION(lurgabel_driven, run_for,
         (lurgabel_controller *, uint32_t *, size_t, lurgabel_operation, uint32_t *, size_t, uint32_t));
FUNCTION(lurgabel_host_fetched, host_read, (const lurgabel_controller *, const uint32_t *, size_t, uint32_t));
FUNCTION(lurgabel_rounded, round, (lurgabel_controller *, uint32_t *, size_t, uint32_t, uint32_t, uint32_t));
FUNCTION(lurgabel_viewed, view, (const lurgabel_controller *, const uint32_t *, size_t, uint32_t));
FUNCTION(uint32_t, rma, (lurgabel_controller *, uint32_t *, size_t));
FUNCTION(lurgabel_scan_written, write_scan_for,
         (lurgabel_controller *, uint32_t *, size_t, uint32_t, uint32_t, const uint8_t *, size_t, uint32_t));
FUNCTION(lurgabel_scan_taken, take_scan_for,
         (lurgabel_controller *, uint32_t *, size_t, uint32_t, uint32_t, uint32_t));

/* The calls that have several forms: firmware that does not ask who decided names none of it, and firmware that cuts no
 * power counts no steps. */
#define CALL(result, name, arguments) \
    extern result(*const name##_of_firmware) arguments; \
    result(*const name##_of_firmware) arguments = lurgabel_##name

CALL(lurgabel_answer, start, (lurgabel_controller *, lurgabel_operation));
CALL(lurgabel_answer, start_by, (lurgabel_controller *, lurgabel_operation, lurgabel_decider *));
CALL(lurgabel_answer, run,
     (lurgabel_controller *, uint32_t *, size_t, lurgabel_operation, uint32_t *, size_t, uint32_t *));
CALL(lurgabel_answer, run_by,
     (lurgabel_controller *, uint32_t *, size_t, lurgabel_operation, uint32_t *, size_t, uint32_t *,
      lurgabel_decider *));
CALL(lurgabel_answer, run_for,
     (lurgabel_controller *, uint32_t *, size_t, lurgabel_operation, uint32_t *, size_t, uint32_t *, uint32_t,
      uint32_t *));
CALL(lurgabel_answer, run_for_by,
     (lurgabel_controller *, uint32_t *, size_t, lurgabel_operation, uint32_t *, size_t, uint32_t *,
      lurgabel_decider *, uint32_t, uint32_t *));
CALL(lurgabel_answer, write_scan,
     (lurgabel_controller *, uint32_t *, size_t, uint32_t, uint32_t, const uint8_t *, size_t));
CALL(lurgabel_answer, write_scan_for,
     (lurgabel_controller *, uint32_t *, size_t, uint32_t, uint32_t, const uint8_t *, size_t, uint32_t, uint32_t *));
CALL(lurgabel_answer, take_scan, (lurgabel_controller *, uint32_t *, size_t, uint32_t, uint32_t, lurgabel_scan *));
CALL(lurgabel_answer, take_scan_for,
     (lurgabel_controller *, uint32_t *, size_t, uint32_t, uint32_t, lurgabel_scan *, uint32_t, uint32_t *));
CALL(lurgabel_answer, host_read, (lurgabel_controller *, const uint32_t *, size_t, uint32_t, uint32_t *));
CALL(lurgabel_answer, host_read_by,
     (lurgabel_controller *, const uint32_t *, size_t, uint32_t, uint32_t *, lurgabel_decider *));
CALL(const uint32_t *, view,
     (const lurgabel_controller *, const uint32_t *, size_t, uint32_t, lurgabel_answer *));
CALL(const uint32_t *, view_by,
     (const lurgabel_controller *, const uint32_t *, size_t, uint32_t, lurgabel_answer *, lurgabel_decider *));

/* The numbers are those of documents 01 and 02, typed again. */
HOLDS(banks, LURGABEL_BANKS == 2);
HOLDS(page_words, LURGABEL_PAGE_WORDS == 256);
HOLDS(page_bytes, LURGABEL_PAGE_BYTES == 1024);
HOLDS(info_pages, LURGABEL_INFO_PAGES == 13);
HOLDS(info_index_type_0, LURGABEL_INFO_INDEX(0u, 0u, 9u) == 9 && LURGABEL_INFO_INDEX(1u, 0u, 0u) == 13);
HOLDS(info_index_type_1, LURGABEL_INFO_INDEX(0u, 1u, 0u) == 10 && LURGABEL_INFO_INDEX(1u, 1u, 0u) == 23);
HOLDS(info_index_type_2, LURGABEL_INFO_INDEX(0u, 2u, 0u) == 11 && LURGABEL_INFO_INDEX(1u, 2u, 1u) == 25);
HOLDS(address, LURGABEL_ADDRESS(16u, 1u, 0u, 0u) == 0x4000 && LURGABEL_ADDRESS(16u, 0u, 9u, 0x3FCu) == 0x27FC);
HOLDS(image_word, LURGABEL_IMAGE_WORD(16u, 0x4000u) == 7424 && LURGABEL_IMAGE_WORD(16u, 0x3FFCu) == 4095);
HOLDS(image_info_word, LURGABEL_IMAGE_INFO_WORD(16u, 0u, 0x400u) == 4352 &&
                           LURGABEL_IMAGE_INFO_WORD(16u, 2u, 0x47FCu) == 14847);
HOLDS(arguments_with_operators, LURGABEL_IMAGE_WORDS(8 | 16) == 18944 &&
                                    LURGABEL_ADDRESS(8u | 16u, 0u | 1u, 2u | 4u, 1u | 3u) == 30723 &&
                                    LURGABEL_INFO_INDEX(0u | 1u, 0u | 2u, 0u | 1u) == 25 &&
                                    LURGABEL_IMAGE_WORD(8u | 16u, 0x6000u | 4u) == 9473 &&
                                    LURGABEL_IMAGE_INFO_WORD(8u | 16u, 0u | 2u, 0x6000u | 4u) == 18433);
HOLDS(regions, LURGABEL_REGIONS == 8);
HOLDS(queue_words, LURGABEL_QUEUE_WORDS == 16);
HOLDS(seed_words, LURGABEL_SEED_WORDS == 8);
HOLDS(min_data_pages, LURGABEL_MIN_DATA_PAGES == 10);
HOLDS(max_data_pages, LURGABEL_MAX_DATA_PAGES == 256);
HOLDS(max_count, LURGABEL_MAX_COUNT == 1024);
HOLDS(scan_slots, LURGABEL_SCAN_SLOTS == 16);
HOLDS(scan_bytes, LURGABEL_SCAN_BYTES == 48);
HOLDS(lost_limit, LURGABEL_LOST_LIMIT == 5);
HOLDS(erased, LURGABEL_ERASED == 4294967295u);
HOLDS(image_words_10, LURGABEL_IMAGE_WORDS(10) == 11776);
HOLDS(image_words_16, LURGABEL_IMAGE_WORDS(16) == 14848);
HOLDS(image_words_256, LURGABEL_IMAGE_WORDS(256) == 137728);
HOLDS(special_pages,
      LURGABEL_CREATOR_SEED_PAGE == 1 && LURGABEL_OWNER_SEED_PAGE == 2 && LURGABEL_ISOLATED_PAGE == 3);
HOLDS(kinds, LURGABEL_READ == 0 && LURGABEL_PROGRAM == 1 && LURGABEL_PAGE_ERASE == 2 && LURGABEL_BANK_ERASE == 3);
HOLDS(partitions, LURGABEL_DATA == 0 && LURGABEL_INFORMATION == 1);
HOLDS(rights, LURGABEL_CAN_READ == 1 && LURGABEL_CAN_PROGRAM == 2 && LURGABEL_CAN_ERASE == 4);
HOLDS(all_rights, LURGABEL_ALL_RIGHTS == 7);
HOLDS(phases,
      LURGABEL_PHASE_UNINITIALISED == 0 && LURGABEL_PHASE_READY == 1 && LURGABEL_PHASE_DISABLED == 2);
HOLDS(answers_0_to_4, LURGABEL_ACCEPTED == 0 && LURGABEL_INVALID == 1 && LURGABEL_DISABLED == 2 &&
                          LURGABEL_UNINITIALISED == 3 && LURGABEL_BUSY == 4);
HOLDS(answers_5_to_9, LURGABEL_MALFORMED == 5 && LURGABEL_SHORT_BUFFER == 6 && LURGABEL_OUT_OF_RANGE == 7 &&
                          LURGABEL_CROSSES_WINDOW == 8 && LURGABEL_DENIED == 9);
HOLDS(answers_10_to_13, LURGABEL_QUEUE_EMPTY == 10 && LURGABEL_QUEUE_FULL == 11 && LURGABEL_UNEXPECTED == 12 &&
                            LURGABEL_BAD_SETTING == 13);
HOLDS(answers_16_to_19, LURGABEL_BAD_PAGES == 16 && LURGABEL_SCANS_FULL == 17 && LURGABEL_BAD_SCAN == 18 &&
                            LURGABEL_NO_SCAN == 19);
HOLDS(regions_0_to_3, LURGABEL_BY_REGION_0 == 0 && LURGABEL_BY_REGION_1 == 1 && LURGABEL_BY_REGION_2 == 2 &&
                          LURGABEL_BY_REGION_3 == 3);
HOLDS(regions_4_to_7, LURGABEL_BY_REGION_4 == 4 && LURGABEL_BY_REGION_5 == 5 && LURGABEL_BY_REGION_6 == 6 &&
                          LURGABEL_BY_REGION_7 == 7);
HOLDS(other_deciders, LURGABEL_BY_DEFAULT == 8 && LURGABEL_BY_PAGE_SETTING == 9 && LURGABEL_BY_SEED_LOCK == 10 &&
                          LURGABEL_BY_BANK_PERMISSION == 11 && LURGABEL_NO_DECIDER == 255);
HOLDS(movements, LURGABEL_NONE == 0 && LURGABEL_MOVED == 1 && LURGABEL_FINISHED == 2 && LURGABEL_STALLED == 3);
HOLDS(turns, LURGABEL_UNASKED == 0 && LURGABEL_WAITING == 1 && LURGABEL_SERVED == 2);
HOLDS(recorded_bits, LURGABEL_RECORDED(LURGABEL_MALFORMED) == 0x20 && LURGABEL_RECORDED(LURGABEL_DENIED) == 0x200);
