/* Controllers, operations, settings and the image, to begin with. */
#include "tests.h"

uint32_t image[IMAGE_WORDS + 1];
uint32_t buffer[LURGABEL_MAX_COUNT];

lurgabel_controller zeros(void) {
    lurgabel_controller c;
    memset(&c, 0, sizeof c);
    return c;
}

lurgabel_controller uninitialised(void) {
    lurgabel_controller c = zeros();
    c.data_pages = 16;
    return c;
}

lurgabel_controller disabled(void) {
    lurgabel_controller c = uninitialised();
    c.phase = LURGABEL_PHASE_DISABLED;
    return c;
}

lurgabel_controller locked(void) {
    lurgabel_controller c = uninitialised();
    c.phase = LURGABEL_PHASE_READY;
    return c;
}

lurgabel_controller ready(void) {
    lurgabel_controller c = locked();
    c.default_rights = LURGABEL_ALL_RIGHTS;
    return c;
}

lurgabel_controller open_everywhere(void) {
    lurgabel_controller c = ready();
    uint32_t index;
    c.provision_enabled = 1;
    for (index = 0; index < 26; index++) {
        c.info_pages[index] = page_setting(1, LURGABEL_ALL_RIGHTS);
    }
    return c;
}

lurgabel_operation operation(uint32_t kind, uint32_t partition, uint32_t info_type, uint32_t address, uint32_t count) {
    lurgabel_operation o;
    memset(&o, 0, sizeof o);
    o.kind = kind;
    o.partition = partition;
    o.info_type = info_type;
    o.address = address;
    o.count = count;
    return o;
}

lurgabel_operation on_data(uint32_t kind, uint32_t address, uint32_t count) {
    return operation(kind, LURGABEL_DATA, 0, address, count);
}

lurgabel_controller in_progress(uint32_t kind, uint32_t address, uint32_t count) {
    lurgabel_controller c = ready();
    c.progress.operation = on_data(kind, address, count);
    c.progress.running = 1;
    return c;
}

lurgabel_controller programming(void) {
    lurgabel_controller c = in_progress(LURGABEL_PROGRAM, 0x40, 4);
    c.progress.moved = 1;
    c.program_queue.words[0] = 0x12345678;
    c.program_queue.words[1] = 0xFFFF0000;
    c.program_queue.length = 2;
    c.read_queue.length = 3;
    c.recorded = LURGABEL_RECORDED(LURGABEL_DENIED);
    c.last_address = 0x1234;
    return c;
}

lurgabel_controller reading(void) {
    lurgabel_controller c = in_progress(LURGABEL_READ, 0x40, 4);
    c.progress.readable = 4;
    return c;
}

lurgabel_controller reading_denied(void) {
    lurgabel_controller c = reading();
    c.default_rights = 0;
    c.progress.readable = 0;
    return c;
}

lurgabel_controller reading_cut(void) {
    lurgabel_controller c = in_progress(LURGABEL_READ, 0x3F8, 4);
    c.regions[0] = region(1, 1, 1, LURGABEL_CAN_PROGRAM);
    c.progress.readable = 2;
    return c;
}

lurgabel_controller erasing_page(void) {
    return in_progress(LURGABEL_PAGE_ERASE, 0x7FFC, 0);
}

lurgabel_controller erasing_bank(void) {
    lurgabel_controller c = in_progress(LURGABEL_BANK_ERASE, 0x4000, 0);
    c.bank_erase[1] = 1;
    return c;
}

lurgabel_controller littered(void) {
    lurgabel_controller c = ready();
    memset(&c.progress, 0xA5, sizeof c.progress);
    memset(&c.read_queue, 0xA6, sizeof c.read_queue);
    memset(&c.program_queue, 0xA7, sizeof c.program_queue);
    c.progress.running = 0;
    c.read_queue.length = 0;
    c.program_queue.length = 0;
    return c;
}

lurgabel_region region(uint32_t first_page, uint32_t page_count, uint32_t on, uint32_t rights) {
    lurgabel_region r;
    memset(&r, 0, sizeof r);
    r.first_page = first_page;
    r.page_count = page_count;
    r.on = on;
    r.rights = rights;
    return r;
}

lurgabel_page_setting page_setting(uint32_t on, uint32_t rights) {
    lurgabel_page_setting s;
    s.on = on;
    s.rights = rights;
    return s;
}

info_page info_page_at(uint32_t index) {
    info_page p;
    uint32_t in_bank = index % 13;
    p.bank = index / 13;
    p.info_type = in_bank < 10 ? 0 : in_bank < 11 ? 1 : 2;
    p.page = in_bank < 10 ? in_bank : in_bank < 11 ? 0 : in_bank - 11;
    return p;
}

uint32_t address_of(info_page p) {
    return p.bank * 16 * 1024 + p.page * 1024;
}
