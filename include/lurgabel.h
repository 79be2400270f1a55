/*
 * Lurgabel: a machine-proved model of the OpenTitan flash protocol controller and its flash.
 *
 * A bench holds two things: a lurgabel_controller, which is plain data, and the image of the flash, an array of
 * LURGABEL_IMAGE_WORDS(D) bus words. Both are lent to a call and changed where they lie. Every call takes any
 * controller, also a broken one, and any image length, and answers; it never traps. A refusal gives its number
 * (lurgabel_answer) and, where rights deny, who decided (lurgabel_decider), otherwise a word of 0, a bit count of 0, no
 * seeds and no scan. It leaves every number of the controller as it was, unless the table at lurgabel_answer says
 * 'recorded', or a refused host read uses its turn (lurgabel_round).
 *
 * The calls are proved against the definitions in crates/model/specs, those of the scan queue also in
 * crates/scan_queue/specs and crates/scans/specs, for every input. What is not proved is the boundary itself (this
 * header); its tests are in tests/ and reference/.
 *
 * C99, and C++ from C++11 on. Link with the static library that './lurgabel library' names.
 */
#ifndef LURGABEL_H
#define LURGABEL_H

#include <stdbool.h>
#include <stddef.h>
#include <stdint.h>

#ifdef __cplusplus
extern "C" {
#endif

/* Raised whenever lurgabel_controller or a function of the library changes. The library's names carry it, so that a
 * library that does not fit this header does not link: the linker misses 'lurgabel_layout4_reset' and the others. */
#define LURGABEL_LAYOUT 4

/* Before each call below. An answer that nobody looks at is a refusal that nobody sees, so the compiler warns of it.
 * Where an answer does not matter, lurgabel_drop(lurgabel_pop(&c, NULL)) says so; gcc does not take (void) for it. */
#if (defined(__cplusplus) && __cplusplus >= 201703L) || (defined(__STDC_VERSION__) && __STDC_VERSION__ >= 202311L)
#define LURGABEL_CALL [[nodiscard]] static inline
#elif defined(__GNUC__)
#define LURGABEL_CALL __attribute__((warn_unused_result)) static inline
#else
#define LURGABEL_CALL static inline
#endif

/* A cast that no C++ compiler warns of. */
#ifdef __cplusplus
#define LURGABEL_AS(type, value) static_cast<type>(value)
#else
#define LURGABEL_AS(type, value) ((type)(value))
#endif

/* ---- geometry ------------------------------------------------------------------------------------------------- */

#define LURGABEL_BANKS 2u
#define LURGABEL_PAGE_WORDS 256u      /* bus words of 32 bits in a page */
#define LURGABEL_PAGE_BYTES 1024u
#define LURGABEL_INFO_PAGES 13u       /* information pages in a bank: 10 of type 0, 1 of type 1, 2 of type 2 */
#define LURGABEL_REGIONS 8u
#define LURGABEL_QUEUE_WORDS 16u
#define LURGABEL_SEED_WORDS 8u
#define LURGABEL_MIN_DATA_PAGES 10u
#define LURGABEL_MAX_DATA_PAGES 256u
#define LURGABEL_MAX_COUNT 1024u      /* largest count of a read or a program */
#define LURGABEL_SCAN_SLOTS 16u       /* scans that a page of the scan queue has room for */
#define LURGABEL_SCAN_BYTES 48u       /* largest length of a scan */
#define LURGABEL_ERASED 0xFFFFFFFFu   /* an erased bus word */

/* In the macros below D is the number of data pages in each bank. Each works in a constant expression; an argument may
 * be evaluated more than once, and is best unsigned. They check nothing. */

/* The length of an image: bank 0's data pages, its information pages of type 0, 1 and 2, then bank 1 alike.
 * uint32_t image[LURGABEL_IMAGE_WORDS(16)]; */
#define LURGABEL_IMAGE_WORDS(D) (2u * ((D) + LURGABEL_INFO_PAGES) * LURGABEL_PAGE_WORDS)

/* The byte address of an offset in a page of a bank. A data page is 0 to D - 1 there, an information page is counted in
 * its type. The last word of bank 0: LURGABEL_ADDRESS(16, 0u, 15u, 1020u) is 0x3FFC. */
#define LURGABEL_ADDRESS(D, bank, page, offset) (((bank) * (D) + (page)) * LURGABEL_PAGE_BYTES + (offset))

/* The place of an information page in info_pages: LURGABEL_INFO_INDEX(1u, 2u, 0u) is 24. */
#define LURGABEL_INFO_INDEX(bank, type, page) ((bank) * LURGABEL_INFO_PAGES + LURGABEL_TYPE_START(type) + (page))
#define LURGABEL_TYPE_START(type) ((type) ? (type) + 9u : 0u) /* the first page of a type among a bank's 13 */

/* The image is not in the order of addresses: bank 0's information pages lie between the data pages of the two banks.
 * These give the place in the image of the word at a byte address below 2D x 1,024, of the data pages and of the
 * information pages of a type.
 * The first word of bank 1: image[LURGABEL_IMAGE_WORD(16, 0x4000u)] is image[7424].
 * The creator's seed: image[LURGABEL_IMAGE_INFO_WORD(16, 0u, 0x400u)] is image[4352]. */
#define LURGABEL_IMAGE_WORD(D, address) \
    ((address) / 4u + (address) / ((D) * LURGABEL_PAGE_BYTES) * (LURGABEL_INFO_PAGES * LURGABEL_PAGE_WORDS))
#define LURGABEL_IMAGE_INFO_WORD(D, type, address) \
    (LURGABEL_IMAGE_WORD(D, address) + ((D) + LURGABEL_TYPE_START(type)) * LURGABEL_PAGE_WORDS)

/* Special information pages, all of bank 0, type 0. */
#define LURGABEL_CREATOR_SEED_PAGE 1u
#define LURGABEL_OWNER_SEED_PAGE 2u
#define LURGABEL_ISOLATED_PAGE 3u

/* ---- what is asked -------------------------------------------------------------------------------------------- */

/* Kinds of operation; all other numbers are none. */
#define LURGABEL_READ 0u
#define LURGABEL_PROGRAM 1u
#define LURGABEL_PAGE_ERASE 2u
#define LURGABEL_BANK_ERASE 3u

/* Partitions. */
#define LURGABEL_DATA 0u
#define LURGABEL_INFORMATION 1u

/* Rights, added up. */
#define LURGABEL_CAN_READ 1u
#define LURGABEL_CAN_PROGRAM 2u
#define LURGABEL_CAN_ERASE 4u
#define LURGABEL_ALL_RIGHTS 7u

/* As an argument, a kind, partition or info_type over 255 counts as 255. */
typedef struct lurgabel_operation {
    uint32_t address;    /* byte address: bank x D x 1,024 + page x 1,024 + offset, for information pages too */
    uint32_t count;      /* n bus words of a read or program, 1 to 1,024; an erase ignores it */
    uint32_t kind;       /* LURGABEL_READ .. */
    uint32_t partition;  /* LURGABEL_DATA or LURGABEL_INFORMATION */
    uint32_t info_type;  /* 0 to 2; data operations and bank erases ignore it */
} lurgabel_operation;

/* ---- what is answered ----------------------------------------------------------------------------------------- */

typedef enum lurgabel_answer {
    LURGABEL_ACCEPTED = 0,
    LURGABEL_INVALID = 1,         /* D, the length of the image or the controller's state is wrong: all unchanged */
    LURGABEL_DISABLED = 2,        /* disabled by RMA until reset: all unchanged */
    LURGABEL_UNINITIALISED = 3,   /* not initialised yet: all unchanged */
    LURGABEL_BUSY = 4,            /* an operation is in progress; for a whole one and a scan, also a word in a queue:
                                     all unchanged */
    LURGABEL_MALFORMED = 5,       /* no such kind, partition or type, address unaligned, count out of range: recorded */
    LURGABEL_SHORT_BUFFER = 6,    /* the buffer of a whole read or program is shorter than its count: all unchanged */
    LURGABEL_OUT_OF_RANGE = 7,    /* the address or the span leaves its pages: recorded */
    LURGABEL_CROSSES_WINDOW = 8,  /* a program's bytes lie in different 64-byte windows: recorded */
    LURGABEL_DENIED = 9,          /* the rights do not allow it, see lurgabel_decider: recorded; a read still starts,
                                     and delivers its words before the first denied page, then ones */
    LURGABEL_QUEUE_EMPTY = 10,    /* pop with no word in the read queue: all unchanged */
    LURGABEL_QUEUE_FULL = 11,     /* push with 16 words in the program queue: all unchanged */
    LURGABEL_UNEXPECTED = 12,     /* step with nothing in progress; push with no program, or all its words pushed;
                                     initialise when ready: all unchanged */
    LURGABEL_BAD_SETTING = 13,    /* no such region, type, page or bank, rights over 7, a region past 2D: unchanged */
    LURGABEL_BAD_PAGES = 16,      /* the pages of a scan queue are one and the same, or one of them is past 2D - 1 or
                                     lacks one of the three rights: all unchanged */
    LURGABEL_SCANS_FULL = 17,     /* write with no slot unused and a scan waiting in both pages: all unchanged */
    LURGABEL_BAD_SCAN = 18,       /* write of 0 bytes or over LURGABEL_SCAN_BYTES, or with no serial left: unchanged */
    LURGABEL_NO_SCAN = 19         /* take with no scan waiting: all unchanged */
} lurgabel_answer;

/* 'Recorded': the refusal's bit joins lurgabel_controller.recorded, the operation's address becomes last_address, and
 * nothing else changes, save that a denied read starts, or runs if it is a whole one. Host reads, views and the scan
 * queue record nothing.
 *
 * A denied read is true up to its first denied page: the first one, in the order of its words, that lacks the read
 * right. The words before that page are the stored ones; those of that page and all after them are ones, also where a
 * later page may be read. These ones are no sign of erased flash. The last_address of a denied read is that of its
 * first denied word: the start of the first denied page, or the operation's own address if it begins in that page. */

static inline const char *lurgabel_answer_text(lurgabel_answer answer) {
    switch (answer) {
    case LURGABEL_ACCEPTED: return "accepted";
    case LURGABEL_INVALID: return "invalid state, data page count or image length";
    case LURGABEL_DISABLED: return "controller is disabled until reset";
    case LURGABEL_UNINITIALISED: return "controller is not initialised";
    case LURGABEL_BUSY: return "an operation is in progress, or a queue holds words";
    case LURGABEL_MALFORMED: return "malformed operation or address";
    case LURGABEL_SHORT_BUFFER: return "buffer is shorter than the operation";
    case LURGABEL_OUT_OF_RANGE: return "outside the pages";
    case LURGABEL_CROSSES_WINDOW: return "program crosses a 64-byte window";
    case LURGABEL_DENIED: return "access denied";
    case LURGABEL_QUEUE_EMPTY: return "read queue is empty";
    case LURGABEL_QUEUE_FULL: return "program queue is full";
    case LURGABEL_UNEXPECTED: return "nothing in progress that takes this call";
    case LURGABEL_BAD_SETTING: return "no such setting, or a value out of range";
    case LURGABEL_BAD_PAGES: return "these pages cannot hold a scan queue";
    case LURGABEL_SCANS_FULL: return "scan queue is full";
    case LURGABEL_BAD_SCAN: return "scan's length or serial is out of range";
    case LURGABEL_NO_SCAN: return "no scan is waiting";
    default: return "no such answer";
    }
}

/* Who decided, where an answer is LURGABEL_DENIED, and so which setting to look at. What may be done with a page is one
 * setting's decision alone, and that setting is the page's decider:
 *
 * - of a data page, the lowest-numbered region that is on and holds it; if there is none, the default rights;
 * - of an information page, its own setting, be it on or off;
 * - of a seed page that is closed, the seed lock in place of the setting, whatever that says, also where it would allow
 *   the access. The creator's page is closed unless provision is enabled and the seeds are not locked, the owner's page
 *   unless provision is enabled.
 *
 * A read may cover several pages: it names the decider of its first denied page. A bank erase looks at no page: it
 * names its bank's permission.
 *
 * A decider is reported and not recorded: it comes with the answer, from the calls whose names end in _by and in the
 * reply of a round, and no number of the controller tells of it later. With every answer but LURGABEL_DENIED it is
 * LURGABEL_NO_DECIDER. */
typedef enum lurgabel_decider {
    LURGABEL_BY_REGION_0 = 0,          /* regions[0]; a decider below LURGABEL_REGIONS is a region's number */
    LURGABEL_BY_REGION_1 = 1,
    LURGABEL_BY_REGION_2 = 2,
    LURGABEL_BY_REGION_3 = 3,
    LURGABEL_BY_REGION_4 = 4,
    LURGABEL_BY_REGION_5 = 5,
    LURGABEL_BY_REGION_6 = 6,
    LURGABEL_BY_REGION_7 = 7,
    LURGABEL_BY_DEFAULT = 8,           /* default_rights */
    LURGABEL_BY_PAGE_SETTING = 9,      /* the information page's entry in info_pages */
    LURGABEL_BY_SEED_LOCK = 10,        /* provision_enabled and seeds_locked */
    LURGABEL_BY_BANK_PERMISSION = 11,  /* the bank's entry in bank_erase */
    LURGABEL_NO_DECIDER = 255          /* nothing was denied */
} lurgabel_decider;

static inline const char *lurgabel_decider_text(lurgabel_decider decider) {
    switch (decider) {
    case LURGABEL_BY_REGION_0: return "region 0";
    case LURGABEL_BY_REGION_1: return "region 1";
    case LURGABEL_BY_REGION_2: return "region 2";
    case LURGABEL_BY_REGION_3: return "region 3";
    case LURGABEL_BY_REGION_4: return "region 4";
    case LURGABEL_BY_REGION_5: return "region 5";
    case LURGABEL_BY_REGION_6: return "region 6";
    case LURGABEL_BY_REGION_7: return "region 7";
    case LURGABEL_BY_DEFAULT: return "default rights";
    case LURGABEL_BY_PAGE_SETTING: return "information page setting";
    case LURGABEL_BY_SEED_LOCK: return "seed lock";
    case LURGABEL_BY_BANK_PERMISSION: return "bank erase permission";
    case LURGABEL_NO_DECIDER: return "nobody";
    default: return "no such decider";
    }
}

/* What a step did. */
typedef enum lurgabel_movement {
    LURGABEL_NONE = 0,      /* nothing: it was refused */
    LURGABEL_MOVED = 1,     /* a word moved */
    LURGABEL_FINISHED = 2,  /* the last word moved */
    LURGABEL_STALLED = 3    /* nothing yet: a read waits for room in its queue, a program for a word, and in a round any
                               step for its turn */
} lurgabel_movement;

static inline const char *lurgabel_movement_text(lurgabel_movement movement) {
    switch (movement) {
    case LURGABEL_NONE: return "nothing moved";
    case LURGABEL_MOVED: return "a word moved";
    case LURGABEL_FINISHED: return "the last word moved";
    case LURGABEL_STALLED: return "waits for the caller or for its turn";
    default: return "no such movement";
    }
}

/* What a round gave the host or the step. */
typedef enum lurgabel_turn {
    LURGABEL_UNASKED = 0,  /* it asked for nothing */
    LURGABEL_WAITING = 1,  /* the other one went first: nothing was done for it, ask again in the next round */
    LURGABEL_SERVED = 2    /* it was answered, maybe with a refusal */
} lurgabel_turn;

static inline const char *lurgabel_turn_text(lurgabel_turn turn) {
    switch (turn) {
    case LURGABEL_UNASKED: return "not asked";
    case LURGABEL_WAITING: return "waiting";
    case LURGABEL_SERVED: return "served";
    default: return "no such turn";
    }
}

/* Look at a turn before its answer: LURGABEL_ACCEPTED says nothing of a side that was not served. */
typedef struct lurgabel_round_reply {
    lurgabel_turn host_turn;
    lurgabel_answer host_answer;    /* of a served host read, else LURGABEL_ACCEPTED */
    lurgabel_decider host_decider;  /* of a served and denied host read, else LURGABEL_NO_DECIDER */
    uint32_t word;                  /* of a served and accepted host read, else 0 */
    lurgabel_turn step_turn;
    lurgabel_answer step_answer;    /* of a served step, else LURGABEL_ACCEPTED */
    lurgabel_movement movement;     /* of a served step; LURGABEL_STALLED if it waits, LURGABEL_NONE if it is unasked */
    uint32_t bits;                  /* of a served step, else 0 */
} lurgabel_round_reply;

/* ---- the controller's state ----------------------------------------------------------------------------------- */

/* Every field is a uint32_t, so that the state is an array of LURGABEL_NUMBERS numbers without padding. */

/* A memory protection region over data pages 0 to 2D - 1, both banks together. The lowest-numbered region that is on
 * and holds a page decides alone; if there is none, default_rights does. */
typedef struct lurgabel_region {
    uint32_t first_page;
    uint32_t page_count;  /* first_page + page_count is at most 2D, also where the region is off */
    uint32_t on;          /* 0 or 1 */
    uint32_t rights;      /* 0 to 7 */
} lurgabel_region;

/* The setting of one information page; switched off, it denies everything. */
typedef struct lurgabel_page_setting {
    uint32_t on;      /* 0 or 1 */
    uint32_t rights;  /* 0 to 7 */
} lurgabel_page_setting;

/* The words that a queue holds are the first `length` of `words`, oldest first. No rule looks at the places after
 * them. A call that changes the queue leaves zeros there, as does a whole read or program in the queue that it uses,
 * and RMA leaves zeros in both queues. */
typedef struct lurgabel_queue {
    uint32_t words[16];
    uint32_t length;  /* 0 to 16 */
} lurgabel_queue;

/* The operation in progress. While `running` is 0 no rule looks at the other fields, and none looks at `readable` of a
 * program or an erase; a start sets them anew, the last step sets them to 0, also in lurgabel_run_for and in the calls
 * of the scan queue, and lurgabel_run leaves them.
 * `readable` of a read in progress is what the settings and inputs make it: its count, or, if it is denied, the words
 * before its first denied page. */
typedef struct lurgabel_progress {
    lurgabel_operation operation;  /* as it was started; its kind is 0 to 3 */
    uint32_t moved;                /* words moved so far: fewer than the operation has */
    uint32_t readable;             /* of a read: how many of its words are the stored ones; those after them are ones */
    uint32_t running;              /* 0 or 1 */
} lurgabel_progress;

/* Phases. */
#define LURGABEL_PHASE_UNINITIALISED 0u
#define LURGABEL_PHASE_READY 1u
#define LURGABEL_PHASE_DISABLED 2u

/* The bit of a recorded kind in `recorded`: of LURGABEL_MALFORMED, _OUT_OF_RANGE, _CROSSES_WINDOW or _DENIED. */
#define LURGABEL_RECORDED(answer) (1u << (answer))

/* The kinds in `recorded` by name, all of them in one text, for a log:
 * printf("recorded: %s; last address 0x%08lX\n", lurgabel_recorded_text(c.recorded), (unsigned long)c.last_address); */
static inline const char *lurgabel_recorded_text(uint32_t recorded) {
    switch (recorded) {
    case 0x000: return "nothing";
    case 0x020: return "malformed";
    case 0x080: return "outside the pages";
    case 0x0A0: return "malformed, outside the pages";
    case 0x100: return "crosses a window";
    case 0x120: return "malformed, crosses a window";
    case 0x180: return "outside the pages, crosses a window";
    case 0x1A0: return "malformed, outside the pages, crosses a window";
    case 0x200: return "access denied";
    case 0x220: return "malformed, access denied";
    case 0x280: return "outside the pages, access denied";
    case 0x2A0: return "malformed, outside the pages, access denied";
    case 0x300: return "crosses a window, access denied";
    case 0x320: return "malformed, crosses a window, access denied";
    case 0x380: return "outside the pages, crosses a window, access denied";
    case 0x3A0: return "malformed, outside the pages, crosses a window, access denied";
    default: return "no such record";
    }
}

/* How many turns the steps in a bank lose to the host before one of them is served instead. */
#define LURGABEL_LOST_LIMIT 5u

/* The whole state, as plain data that a bench may read, copy, compare and write. Whatever stands in it, every call
 * answers; what encodes no state of the controller (a flag of 7, a phase of 9, rights of 256, another bit in
 * `recorded`, a running operation of kind 4 or more or with an info_type of 256) is refused with LURGABEL_INVALID, as
 * is a state that the controller cannot be in. Only lurgabel_reset takes any state. */
typedef struct lurgabel_controller {
    uint32_t data_pages;                  /* D, the data pages in each bank: 10 to 256 */
    uint32_t phase;                       /* LURGABEL_PHASE_.. */
    uint32_t provision_enabled;           /* life-cycle input: 0 or 1 */
    uint32_t seeds_locked;                /* life-cycle input: 0 or 1 */
    uint32_t default_rights;              /* of data pages that no region decides: 0 to 7 */
    lurgabel_region regions[8];
    lurgabel_page_setting info_pages[26]; /* at LURGABEL_INFO_INDEX(bank, type, page) */
    uint32_t bank_erase[2];               /* whether a bank may be erased: 0 or 1 */
    lurgabel_progress progress;           /* only when ready */
    lurgabel_queue read_queue;            /* empty unless ready */
    lurgabel_queue program_queue;         /* words pushed and not yet moved; empty unless a program is in progress */
    uint32_t recorded;                    /* LURGABEL_RECORDED(..) of the recorded kinds, added up */
    uint32_t last_address;                /* of the last recorded error (lurgabel_answer); 0 if no kind is recorded */
    uint32_t lost_turns[2];               /* of each bank, turns that its steps lost: 0 to LURGABEL_LOST_LIMIT */
} lurgabel_controller;

#define LURGABEL_NUMBERS 137u

/* The library goes by the number of each field: a place that is another here does not compile. */
#define LURGABEL_AT(name, field, number) \
    typedef char lurgabel_at_##name[offsetof(lurgabel_controller, field) == 4u * (number) ? 1 : -1]
LURGABEL_AT(data_pages, data_pages, 0);
LURGABEL_AT(phase, phase, 1);
LURGABEL_AT(provision_enabled, provision_enabled, 2);
LURGABEL_AT(seeds_locked, seeds_locked, 3);
LURGABEL_AT(default_rights, default_rights, 4);
LURGABEL_AT(regions, regions, 5);
LURGABEL_AT(info_pages, info_pages, 37);
LURGABEL_AT(bank_erase, bank_erase, 89);
LURGABEL_AT(progress, progress, 91);
LURGABEL_AT(moved, progress.moved, 96);
LURGABEL_AT(read_queue, read_queue, 99);
LURGABEL_AT(program_queue, program_queue, 116);
LURGABEL_AT(recorded, recorded, 133);
LURGABEL_AT(last_address, last_address, 134);
LURGABEL_AT(lost_turns, lost_turns, 135);
#undef LURGABEL_AT
typedef char lurgabel_size[sizeof(lurgabel_controller) == 4u * LURGABEL_NUMBERS ? 1 : -1];

/* What initialising hands out: the first 8 bus words of the creator and of the owner seed page, or zeros. */
typedef struct lurgabel_seeds {
    uint32_t creator[8];
    uint32_t owner[8];
    uint32_t given;  /* 1 if provision is enabled and the call was accepted, else 0 */
} lurgabel_seeds;

/* What a take hands out: the oldest scan that waits, or zeros. */
typedef struct lurgabel_scan {
    uint32_t serial;    /* below 2^28; the queue's own number for it */
    uint32_t length;    /* 1 to LURGABEL_SCAN_BYTES */
    uint8_t bytes[48];  /* the first `length` are the scan's, the others 0 */
} lurgabel_scan;

/* ---- the library's own functions ------------------------------------------------------------------------------ */

/* What they hand back beside what they leave in the lent memory. The calls below are easier to use. */

typedef struct lurgabel_initialised {
    uint32_t answer;
    lurgabel_seeds seeds;
} lurgabel_initialised;

typedef struct lurgabel_started {
    uint32_t answer;
    uint32_t decider;
} lurgabel_started;

typedef struct lurgabel_stepped {
    uint32_t answer;
    uint32_t movement;
    uint32_t bits;
} lurgabel_stepped;

typedef struct lurgabel_fetched {
    uint32_t answer;
    uint32_t word;
} lurgabel_fetched;

typedef struct lurgabel_completed {
    uint32_t answer;
    uint32_t decider;
    uint32_t bits;
} lurgabel_completed;

typedef struct lurgabel_driven {
    uint32_t answer;
    uint32_t decider;
    uint32_t bits;
    uint32_t left;  /* steps that were given and not made */
    uint32_t cut;   /* 1 if it would have made more, else 0 */
} lurgabel_driven;

typedef struct lurgabel_host_fetched {
    uint32_t answer;
    uint32_t decider;
    uint32_t word;
} lurgabel_host_fetched;

typedef struct lurgabel_viewed {
    uint32_t answer;
    uint32_t decider;
    uint32_t start;  /* the bus word of the image at which the view starts; 0 if it is refused */
} lurgabel_viewed;

/* lurgabel_round_reply in numbers. */
typedef struct lurgabel_rounded {
    uint32_t host_turn;
    uint32_t host_answer;
    uint32_t host_decider;
    uint32_t word;
    uint32_t step_turn;
    uint32_t step_answer;
    uint32_t movement;
    uint32_t bits;
} lurgabel_rounded;

typedef struct lurgabel_scan_written {
    uint32_t answer;
    uint32_t cut;
} lurgabel_scan_written;

typedef struct lurgabel_scan_taken {
    uint32_t answer;
    uint32_t cut;
    lurgabel_scan scan;
} lurgabel_scan_taken;

/* A flag is off at 0 and on otherwise; rights or an info_type over 255 count as 255. */
uint32_t lurgabel_layout4_reset(lurgabel_controller *c, uint32_t data_pages);
uint32_t lurgabel_layout4_set_inputs(lurgabel_controller *c, uint32_t provision_enabled, uint32_t seeds_locked);
uint32_t lurgabel_layout4_set_region(lurgabel_controller *c, uint32_t number, lurgabel_region region);
uint32_t lurgabel_layout4_set_default_rights(lurgabel_controller *c, uint32_t rights);
uint32_t lurgabel_layout4_set_info_page(lurgabel_controller *c, uint32_t bank, uint32_t info_type, uint32_t page,
                                        lurgabel_page_setting setting);
uint32_t lurgabel_layout4_set_bank_erase(lurgabel_controller *c, uint32_t bank, uint32_t on);
uint32_t lurgabel_layout4_clear_errors(lurgabel_controller *c);
lurgabel_initialised lurgabel_layout4_initialise(lurgabel_controller *c, const uint32_t *image, size_t image_words);
lurgabel_started lurgabel_layout4_start(lurgabel_controller *c, lurgabel_operation operation);
lurgabel_stepped lurgabel_layout4_step(lurgabel_controller *c, uint32_t *image, size_t image_words);
uint32_t lurgabel_layout4_push(lurgabel_controller *c, uint32_t word);
lurgabel_fetched lurgabel_layout4_pop(lurgabel_controller *c);
lurgabel_completed lurgabel_layout4_run(lurgabel_controller *c, uint32_t *image, size_t image_words,
                                        lurgabel_operation operation, uint32_t *buffer, size_t buffer_words);
lurgabel_driven lurgabel_layout4_run_for(lurgabel_controller *c, uint32_t *image, size_t image_words,
                                         lurgabel_operation operation, uint32_t *buffer, size_t buffer_words,
                                         uint32_t steps);
lurgabel_host_fetched lurgabel_layout4_host_read(const lurgabel_controller *c, const uint32_t *image,
                                                 size_t image_words, uint32_t address);
lurgabel_rounded lurgabel_layout4_round(lurgabel_controller *c, uint32_t *image, size_t image_words,
                                        uint32_t host_asks, uint32_t host_address, uint32_t step_asks);
lurgabel_viewed lurgabel_layout4_view(const lurgabel_controller *c, const uint32_t *image, size_t image_words,
                                      uint32_t page);
uint32_t lurgabel_layout4_rma(lurgabel_controller *c, uint32_t *image, size_t image_words);
lurgabel_scan_written lurgabel_layout4_write_scan_for(lurgabel_controller *c, uint32_t *image, size_t image_words,
                                                      uint32_t page, uint32_t other_page, const uint8_t *bytes,
                                                      size_t length, uint32_t steps);
lurgabel_scan_taken lurgabel_layout4_take_scan_for(lurgabel_controller *c, uint32_t *image, size_t image_words,
                                                   uint32_t page, uint32_t other_page, uint32_t steps);

/* ---- the calls ------------------------------------------------------------------------------------------------ */

/* Each changes *c as its rule says and returns the answer. A pointer that a value goes to may be NULL. The controller,
 * an image, a buffer and a scan's bytes are lent for the time of the call, and none of them may overlap another. An
 * image and a buffer have as many words as their length says, and a scan as many bytes; with a length of 0 they may be
 * NULL. A length that is not the memory's, as any other length with NULL, is the caller's error and undefined, as
 * everywhere in C: no answer tells of it.
 *
 * A call that rights can deny has a second form, whose name ends in _by and which also says who decided. *by is written
 * in every case: it is LURGABEL_NO_DECIDER unless the answer is LURGABEL_DENIED.
 *
 * A call that makes steps by itself has a form whose name has _for and which makes at most `steps` of them, as if the
 * power were cut after the last. *cut is written in every case: it is 1 if the call would have made more, else 0. */

/* Resets any controller, whatever stands in it (a new variable is best set to zeros), to D data pages in each bank:
 * every setting and input off or 0. It touches no image. Checks D alone. */
LURGABEL_CALL lurgabel_answer lurgabel_reset(lurgabel_controller *c, uint32_t data_pages) {
    return LURGABEL_AS(lurgabel_answer, lurgabel_layout4_reset(c, data_pages));
}

/* Inputs and settings: refused while an operation is in progress, allowed when disabled. */
LURGABEL_CALL lurgabel_answer lurgabel_set_inputs(lurgabel_controller *c, bool provision_enabled, bool seeds_locked) {
    return LURGABEL_AS(lurgabel_answer, lurgabel_layout4_set_inputs(c, provision_enabled, seeds_locked));
}

/* Region 0 to 7. Any `on` but 0 switches it on. */
LURGABEL_CALL lurgabel_answer lurgabel_set_region(lurgabel_controller *c, uint32_t number, lurgabel_region region) {
    return LURGABEL_AS(lurgabel_answer, lurgabel_layout4_set_region(c, number, region));
}

LURGABEL_CALL lurgabel_answer lurgabel_set_default_rights(lurgabel_controller *c, uint32_t rights) {
    return LURGABEL_AS(lurgabel_answer, lurgabel_layout4_set_default_rights(c, rights));
}

/* An information page, by its bank, its type and its number in the type. Any `on` but 0 switches it on. */
LURGABEL_CALL lurgabel_answer lurgabel_set_info_page(lurgabel_controller *c, uint32_t bank, uint32_t info_type,
                                                     uint32_t page, lurgabel_page_setting setting) {
    return LURGABEL_AS(lurgabel_answer, lurgabel_layout4_set_info_page(c, bank, info_type, page, setting));
}

LURGABEL_CALL lurgabel_answer lurgabel_set_bank_erase(lurgabel_controller *c, uint32_t bank, bool on) {
    return LURGABEL_AS(lurgabel_answer, lurgabel_layout4_set_bank_erase(c, bank, on));
}

/* Clears the recorded kinds and the last address. */
LURGABEL_CALL lurgabel_answer lurgabel_clear_errors(lurgabel_controller *c) {
    return LURGABEL_AS(lurgabel_answer, lurgabel_layout4_clear_errors(c));
}

/* Makes a controller that was reset ready. With provision enabled the seeds are handed out. */
LURGABEL_CALL lurgabel_answer lurgabel_initialise(lurgabel_controller *c, const uint32_t *image, size_t image_words,
                                                  lurgabel_seeds *seeds) {
    lurgabel_initialised r = lurgabel_layout4_initialise(c, image, image_words);
    if (seeds != NULL) {
        *seeds = r.seeds;
    }
    return LURGABEL_AS(lurgabel_answer, r.answer);
}

/* Starts an operation, which steps then carry out. A denied read starts too: it is recorded and its decider reported
 * here, and its steps, which are accepted, record and report nothing. */
LURGABEL_CALL lurgabel_answer lurgabel_start_by(lurgabel_controller *c, lurgabel_operation operation,
                                                lurgabel_decider *by) {
    lurgabel_started r = lurgabel_layout4_start(c, operation);
    if (by != NULL) {
        *by = LURGABEL_AS(lurgabel_decider, r.decider);
    }
    return LURGABEL_AS(lurgabel_answer, r.answer);
}

LURGABEL_CALL lurgabel_answer lurgabel_start(lurgabel_controller *c, lurgabel_operation operation) {
    return lurgabel_start_by(c, operation, NULL);
}

/* Moves one word of the operation in progress; `bits` is how many bits it changed in the flash. A read moves the stored
 * word into its queue, or ones from its first denied page on. */
LURGABEL_CALL lurgabel_answer lurgabel_step(lurgabel_controller *c, uint32_t *image, size_t image_words,
                                            lurgabel_movement *movement, uint32_t *bits) {
    lurgabel_stepped r = lurgabel_layout4_step(c, image, image_words);
    if (movement != NULL) {
        *movement = LURGABEL_AS(lurgabel_movement, r.movement);
    }
    if (bits != NULL) {
        *bits = r.bits;
    }
    return LURGABEL_AS(lurgabel_answer, r.answer);
}

/* Gives a program in progress its next word. */
LURGABEL_CALL lurgabel_answer lurgabel_push(lurgabel_controller *c, uint32_t word) {
    return LURGABEL_AS(lurgabel_answer, lurgabel_layout4_push(c, word));
}

/* Takes the oldest word that a read has delivered. */
LURGABEL_CALL lurgabel_answer lurgabel_pop(lurgabel_controller *c, uint32_t *word) {
    lurgabel_fetched r = lurgabel_layout4_pop(c);
    if (word != NULL) {
        *word = r.word;
    }
    return LURGABEL_AS(lurgabel_answer, r.answer);
}

/* Runs a whole operation: start, steps, pushes and pops until it is finished and drained. A program takes its words
 * from the first `count` places of the buffer, a read puts its words there; an erase leaves the buffer alone. A denied
 * read answers LURGABEL_DENIED and puts its words there too: the stored ones before its first denied page, then ones.
 * `bits` is the sum over the steps. */
LURGABEL_CALL lurgabel_answer lurgabel_run_by(lurgabel_controller *c, uint32_t *image, size_t image_words,
                                              lurgabel_operation operation, uint32_t *buffer, size_t buffer_words,
                                              uint32_t *bits, lurgabel_decider *by) {
    lurgabel_completed r = lurgabel_layout4_run(c, image, image_words, operation, buffer, buffer_words);
    if (bits != NULL) {
        *bits = r.bits;
    }
    if (by != NULL) {
        *by = LURGABEL_AS(lurgabel_decider, r.decider);
    }
    return LURGABEL_AS(lurgabel_answer, r.answer);
}

LURGABEL_CALL lurgabel_answer lurgabel_run(lurgabel_controller *c, uint32_t *image, size_t image_words,
                                           lurgabel_operation operation, uint32_t *buffer, size_t buffer_words,
                                           uint32_t *bits) {
    return lurgabel_run_by(c, image, image_words, operation, buffer, buffer_words, bits, NULL);
}

/* Runs a whole operation for at most `steps` steps. With a step for each of its words, as with UINT32_MAX, it does what
 * lurgabel_run_by does, and its last step sets the fields of `progress` to 0. With fewer the operation stays in
 * progress, as a start, so many steps and their pushes and pops leave it: the answer is that of the start, `bits` the
 * sum over the steps made, and a read has put the words moved so far into the buffer. The checks are those of
 * lurgabel_run_by, and what they refuse is not cut. */
LURGABEL_CALL lurgabel_answer lurgabel_run_for_by(lurgabel_controller *c, uint32_t *image, size_t image_words,
                                                  lurgabel_operation operation, uint32_t *buffer, size_t buffer_words,
                                                  uint32_t *bits, lurgabel_decider *by, uint32_t steps,
                                                  uint32_t *cut) {
    lurgabel_driven r = lurgabel_layout4_run_for(c, image, image_words, operation, buffer, buffer_words, steps);
    if (bits != NULL) {
        *bits = r.bits;
    }
    if (by != NULL) {
        *by = LURGABEL_AS(lurgabel_decider, r.decider);
    }
    if (cut != NULL) {
        *cut = r.cut;
    }
    return LURGABEL_AS(lurgabel_answer, r.answer);
}

LURGABEL_CALL lurgabel_answer lurgabel_run_for(lurgabel_controller *c, uint32_t *image, size_t image_words,
                                               lurgabel_operation operation, uint32_t *buffer, size_t buffer_words,
                                               uint32_t *bits, uint32_t steps, uint32_t *cut) {
    return lurgabel_run_for_by(c, image, image_words, operation, buffer, buffer_words, bits, NULL, steps, cut);
}

/* Reads one data word past the queues, also during an operation. It leaves *c as it is today; later models may note
 * there what was read. */
LURGABEL_CALL lurgabel_answer lurgabel_host_read_by(lurgabel_controller *c, const uint32_t *image, size_t image_words,
                                                    uint32_t address, uint32_t *word, lurgabel_decider *by) {
    lurgabel_host_fetched r = lurgabel_layout4_host_read(c, image, image_words, address);
    if (word != NULL) {
        *word = r.word;
    }
    if (by != NULL) {
        *by = LURGABEL_AS(lurgabel_decider, r.decider);
    }
    return LURGABEL_AS(lurgabel_answer, r.answer);
}

LURGABEL_CALL lurgabel_answer lurgabel_host_read(lurgabel_controller *c, const uint32_t *image, size_t image_words,
                                                 uint32_t address, uint32_t *word) {
    return lurgabel_host_read_by(c, image, image_words, address, word, NULL);
}

/* A round: the host asks for a read, the firmware for a step, or both at the same time, as on the chip. The host reads
 * at *host_address; with NULL it asks for nothing. Whoever is served gets what lurgabel_host_read_by or lurgabel_step
 * would answer.
 *
 * Where the host's address and the step's next word lie in the same bank, one of them has to wait. The host goes first,
 * and the bank's lost_turns rises by one, also if the read is refused. Once that count is LURGABEL_LOST_LIMIT, the step
 * goes instead, and the count returns to 0: the sixth such round serves the step at the latest. Whoever is not served
 * is LURGABEL_WAITING, and the movement of a waiting step is LURGABEL_STALLED. An address below D x 1,024 counts as
 * bank 0, any other one as bank 1.
 *
 * In every other round whoever asks is served, the host first, and the counts stay: one of them asks alone, the banks
 * differ, or the step moves no word, since it is refused or waits for its queue. A step that waits for its queue is
 * therefore LURGABEL_SERVED, and its movement LURGABEL_STALLED.
 *
 * lurgabel_step and lurgabel_host_read take no turns: called by themselves they are served whatever the counts are, and
 * leave them. */
LURGABEL_CALL lurgabel_round_reply lurgabel_round(lurgabel_controller *c, uint32_t *image, size_t image_words,
                                                  const uint32_t *host_address, bool step) {
    bool host = host_address != NULL;
    lurgabel_rounded r = lurgabel_layout4_round(c, image, image_words, host, host ? *host_address : 0u, step);
    lurgabel_round_reply reply;
    reply.host_turn = LURGABEL_AS(lurgabel_turn, r.host_turn);
    reply.host_answer = LURGABEL_AS(lurgabel_answer, r.host_answer);
    reply.host_decider = LURGABEL_AS(lurgabel_decider, r.host_decider);
    reply.word = r.word;
    reply.step_turn = LURGABEL_AS(lurgabel_turn, r.step_turn);
    reply.step_answer = LURGABEL_AS(lurgabel_answer, r.step_answer);
    reply.movement = LURGABEL_AS(lurgabel_movement, r.movement);
    reply.bits = r.bits;
    return reply;
}

/* The 256 words of a data page (0 to 2D - 1) inside the caller's own image, or NULL if the view is refused. */
LURGABEL_CALL const uint32_t *lurgabel_view_by(const lurgabel_controller *c, const uint32_t *image, size_t image_words,
                                               uint32_t page, lurgabel_answer *answer, lurgabel_decider *by) {
    lurgabel_viewed r = lurgabel_layout4_view(c, image, image_words, page);
    if (answer != NULL) {
        *answer = LURGABEL_AS(lurgabel_answer, r.answer);
    }
    if (by != NULL) {
        *by = LURGABEL_AS(lurgabel_decider, r.decider);
    }
    return r.answer == LURGABEL_ACCEPTED ? image + r.start : NULL;
}

LURGABEL_CALL const uint32_t *lurgabel_view(const lurgabel_controller *c, const uint32_t *image, size_t image_words,
                                            uint32_t page, lurgabel_answer *answer) {
    return lurgabel_view_by(c, image, image_words, page, answer, NULL);
}

/* Enters RMA: wipes every data page and the special pages, empties the queues and disables the controller. */
LURGABEL_CALL lurgabel_answer lurgabel_rma(lurgabel_controller *c, uint32_t *image, size_t image_words) {
    return LURGABEL_AS(lurgabel_answer, lurgabel_layout4_rma(c, image, image_words));
}

/* ---- the scan queue ------------------------------------------------------------------------------------------- */

/* Two whole data pages, 0 to 2D - 1, keep scans over a lost battery. The caller names them in each call, in either
 * order, and both must allow reads, programs and erases. The scans that wait are a list, oldest first: a write puts one
 * at its end, a take hands out its first. Blank pages have an empty list.
 *
 * Cut the power between any two steps of a write or a take: after a reset, the same settings and lurgabel_initialise
 * the list is the one before the call or the one after it, in order.
 *
 * Not promised:
 *
 * - that a taken scan arrives: it is handed out when the take returns, and a cut after its step and before that loses
 *   it for the caller. The list is then the one after the call;
 * - that a serial comes once: serials rise, but a write that erases the page with the highest one and is cut before its
 *   own seal can make that serial, or a lower one, come again;
 * - that room is kept: a write that is cut can leave a dead slot, which holds no scan until its page is erased.
 *
 * A page has LURGABEL_SCAN_SLOTS slots of 16 words. Word 0 is the seal, word 1 the mark of a taken scan. The bytes of
 * words 2 to 15, lowest of a word first, are the serial and the length, both in groups of seven bits as the numbers of
 * a bench sheet, the scan, and ones to the end. A slot is unused if all its words are ones. It is sealed if its seal is
 * 0 and words 2 to 15 are well formed: its scan waits if the mark is ones, is taken if it is 0, and otherwise neither.
 * Every other slot is dead.
 *
 * Both calls check what a whole operation checks up to LURGABEL_BUSY, then the pages. They look at the slots in the
 * lent image, without reads, and a refusal changes and records nothing. A call that is cut leaves an operation in
 * progress, so that the next one is LURGABEL_BUSY: reset the controller, as after a lost battery. */

/* Writes a scan of 1 to LURGABEL_SCAN_BYTES bytes to the unused slot of lowest place, in 15 steps: words 2 to 15, then
 * the seal. Its serial is one above the highest sealed one, or 1. If no slot is unused, a page in which no scan waits
 * is erased first, the lower one if there are two, in 256 steps more; if there is none, the queue is full.
 *
 * LURGABEL_BAD_SCAN comes before LURGABEL_SCANS_FULL and before any erase. Of a length that is right it means that the
 * serial 2^28 - 1 is sealed, and then it is for good: only an erase of that slot's page by other means ends it. */
LURGABEL_CALL lurgabel_answer lurgabel_write_scan_for(lurgabel_controller *c, uint32_t *image, size_t image_words,
                                                      uint32_t page, uint32_t other_page, const uint8_t *bytes,
                                                      size_t length, uint32_t steps, uint32_t *cut) {
    lurgabel_scan_written r =
        lurgabel_layout4_write_scan_for(c, image, image_words, page, other_page, bytes, length, steps);
    if (cut != NULL) {
        *cut = r.cut;
    }
    return LURGABEL_AS(lurgabel_answer, r.answer);
}

LURGABEL_CALL lurgabel_answer lurgabel_write_scan(lurgabel_controller *c, uint32_t *image, size_t image_words,
                                                  uint32_t page, uint32_t other_page, const uint8_t *bytes,
                                                  size_t length) {
    return lurgabel_write_scan_for(c, image, image_words, page, other_page, bytes, length, UINT32_MAX, NULL);
}

/* Takes the scan with the lowest serial, of equal ones that in the lowest place, and marks it in one step. *scan is
 * written in every case: it is zeros if the call is refused, and if it is cut before its step. */
LURGABEL_CALL lurgabel_answer lurgabel_take_scan_for(lurgabel_controller *c, uint32_t *image, size_t image_words,
                                                     uint32_t page, uint32_t other_page, lurgabel_scan *scan,
                                                     uint32_t steps, uint32_t *cut) {
    lurgabel_scan_taken r = lurgabel_layout4_take_scan_for(c, image, image_words, page, other_page, steps);
    if (scan != NULL) {
        *scan = r.scan;
    }
    if (cut != NULL) {
        *cut = r.cut;
    }
    return LURGABEL_AS(lurgabel_answer, r.answer);
}

LURGABEL_CALL lurgabel_answer lurgabel_take_scan(lurgabel_controller *c, uint32_t *image, size_t image_words,
                                                 uint32_t page, uint32_t other_page, lurgabel_scan *scan) {
    return lurgabel_take_scan_for(c, image, image_words, page, other_page, scan, UINT32_MAX, NULL);
}

/* ---- helpers -------------------------------------------------------------------------------------------------- */

/* Says that an answer does not matter, and the compiler does not warn. */
static inline void lurgabel_drop(lurgabel_answer answer) {
    (void)answer;
}

/* Fills an image with erased words, as a blank flash has them. */
static inline void lurgabel_blank_image(uint32_t *image, size_t image_words) {
    size_t i;
    for (i = 0; i < image_words; i++) {
        image[i] = LURGABEL_ERASED;
    }
}

#undef LURGABEL_AS
#undef LURGABEL_CALL

#ifdef __cplusplus
}
#endif

#endif /* LURGABEL_H */
