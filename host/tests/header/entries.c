/* The functions that read an entry of a listing: on drawn bytes against document 01's places, and on saved files. */
#include <string.h>

#include "expect.h"

static uint8_t image[VARNUCHT_IMAGE_BYTES], body[70000], listing[VARNUCHT_LISTING_BYTES], sectors[VARNUCHT_SAVE_LIST_BYTES];

/* `slot` is the entry's 256 slot bytes: its byte k is the paper's byte k. */
static void check_fields_of(const uint8_t *entry, unsigned long at) {
    const uint8_t *slot = entry + 2;
    unsigned kind = slot[0] % 64u;
    uint32_t length = slot[239] * 16384u + (slot[240] + 256u * slot[241]) % 16384u;
    expect(varnucht_entry_slot(entry) == entry[0] + 256u * entry[1], "slot number", at);
    expect(varnucht_entry_hidden(entry) == (slot[0] >= 128), "hidden", at);
    expect(varnucht_entry_protected(entry) == (slot[0] % 128 >= 64), "protected", at);
    expect(varnucht_entry_kind(entry) == kind, "kind", at);
    expect(varnucht_entry_carried(entry) == (kind > 15 && kind < 21), "carried", at);
    expect(varnucht_entry_spectrum(entry) == (kind > 0 && kind < 5), "of the Spectrum", at);
    expect(varnucht_entry_directory(entry) == (kind == 21), "a directory", at);
    expect(varnucht_entry_code(entry) == (kind == 21 ? slot[250] : 0), "a directory's code", at);
    expect(varnucht_entry_parent(entry) == slot[254], "the code of the directory around", at);
    expect(varnucht_entry_name(entry) == slot + 1, "name", at);
    expect(varnucht_entry_sectors(entry) == 256u * slot[11] + slot[12], "sector count", at);
    expect(varnucht_entry_length(entry) == (kind > 15 && kind < 21 ? length : 0), "length", at);
    expect(varnucht_entry_page(entry) == slot[236] % 32u, "start page", at);
    expect(varnucht_entry_offset(entry) == slot[237] + 256u * slot[238], "offset", at);
    expect(varnucht_entry_info(entry) == slot + 221, "kind information", at);
    expect(varnucht_entry_exec(entry) == slot + 242, "execution bytes", at);
}

static void check_drawn_entries(void) {
    static uint8_t entries[3 * VARNUCHT_ENTRY_BYTES];
    for (unsigned long i = 0; i < 2000; i++) {
        for (size_t k = 0; k < sizeof entries; k++) {
            entries[k] = (uint8_t)(drawn() >> 32);
        }
        const uint8_t *entry = varnucht_entry(entries, i % 3);
        expect(entry == entries + 258 * (i % 3), "an entry's place", i);
        check_fields_of(entry, i);
    }
}

/* The length of a name: without the spaces at the end, never 0, and other bytes stay. */
static void check_name_lengths(void) {
    static const char *const names[] = {"TUNES     ", "A         ", "          ", "ABCDEFGHIJ",
                                        " B        ", "C D       ", "E\0"};
    static const size_t lengths[] = {5, 1, 1, 10, 2, 3, 2};
    for (size_t i = 0; i < sizeof lengths / sizeof lengths[0]; i++) {
        uint8_t entry[VARNUCHT_ENTRY_BYTES];
        memset(entry, 32, sizeof entry);
        memcpy(entry + 3, names[i], i == 6 ? 2 : 10);
        expect(varnucht_entry_name_len(entry) == lengths[i], "the length of a name", i);
    }
}

struct save_request {
    uint32_t kind, page, offset;
    size_t body_len;
    uint8_t name[10], exec[3], info[11];
    size_t name_len;
};

static struct save_request draw_request(unsigned i) {
    struct save_request w;
    w.kind = (uint32_t)(16 + drawn() % 5);
    w.page = (uint32_t)(drawn() % 32);
    w.offset = (uint32_t)(32768 + drawn() % 16384);
    w.body_len = drawn() % (i % 8 == 0 ? sizeof body : 2000);
    w.name_len = 3 + drawn() % 8;
    memset(w.name, 'x', sizeof w.name);
    w.name[0] = 'T';
    w.name[1] = (uint8_t)('0' + i / 10);
    w.name[2] = (uint8_t)('0' + i % 10);
    for (size_t k = 0; k < 3; k++) {
        w.exec[k] = (uint8_t)(drawn() >> 32);
    }
    for (size_t k = 0; k < 11; k++) {
        w.info[k] = (uint8_t)(drawn() >> 32);
    }
    return w;
}

static void save_requested(const struct save_request *w, unsigned long at) {
    uint64_t answer = varnucht_save(image, sizeof image, w->kind, w->name, w->name_len, w->page, w->offset, w->exec, 3,
                                    w->info, 11, body, w->body_len, sectors, sizeof sectors);
    expect(varnucht_refusal(answer) == VARNUCHT_ACCEPTED, "a save is accepted", at);
    if (at % 3 == 0) {
        answer = varnucht_hide(image, sizeof image, w->name, w->name_len, sectors, sizeof sectors);
        expect(varnucht_refusal(answer) == VARNUCHT_ACCEPTED, "hide is accepted", at);
    }
    if (at % 5 == 0) {
        answer = varnucht_protect(image, sizeof image, w->name, w->name_len, sectors, sizeof sectors);
        expect(varnucht_refusal(answer) == VARNUCHT_ACCEPTED, "protect is accepted", at);
    }
}

/* What the entry says is what was saved; and the name of the entry finds the file. */
static void check_saved(const uint8_t *entry, const struct save_request *w, unsigned long at) {
    uint64_t answer = varnucht_start(image, sizeof image, varnucht_entry_name(entry), 10);
    expect(varnucht_entry_slot(entry) == at + 1, "slot number of a saved file", at);
    expect(varnucht_entry_hidden(entry) == (at % 3 == 0), "hidden of a saved file", at);
    expect(varnucht_entry_protected(entry) == (at % 5 == 0), "protected of a saved file", at);
    expect(varnucht_entry_kind(entry) == w->kind, "kind of a saved file", at);
    expect(varnucht_entry_carried(entry), "a saved file is carried", at);
    expect(varnucht_entry_name_len(entry) == w->name_len, "length of a saved name", at);
    expect(memcmp(varnucht_entry_name(entry), w->name, w->name_len) == 0, "a saved name", at);
    expect(varnucht_entry_sectors(entry) == (9 + w->body_len + 509) / 510, "sectors of a saved file", at);
    expect(varnucht_entry_length(entry) == w->body_len, "length of a saved file", at);
    expect(varnucht_entry_page(entry) == w->page, "page of a saved file", at);
    expect(varnucht_entry_offset(entry) == w->offset, "offset of a saved file", at);
    expect(memcmp(varnucht_entry_info(entry), w->info, 11) == 0, "kind information of a saved file", at);
    expect(memcmp(varnucht_entry_exec(entry), w->exec, 3) == 0, "execution bytes of a saved file", at);
    expect(varnucht_refusal(answer) == VARNUCHT_ACCEPTED, "the start of a saved file", at);
    expect(varnucht_value(answer) == w->page * 16384 + w->offset - 16384, "the address of a saved file", at);
}

static void check_saved_files(void) {
    static struct save_request requests[40];
    for (unsigned i = 0; i < 40; i++) {
        requests[i] = draw_request(i);
        save_requested(&requests[i], i);
    }
    uint64_t answer = varnucht_list(image, sizeof image, listing, sizeof listing);
    expect(varnucht_refusal(answer) == VARNUCHT_ACCEPTED && varnucht_value(answer) == 40, "forty files are listed", 0);
    unsigned used = 0;
    for (unsigned i = 0; i < 40; i++) {
        const uint8_t *entry = varnucht_entry(listing, i);
        check_saved(entry, &requests[i], i);
        used += varnucht_entry_sectors(entry);
    }
    expect(varnucht_free(answer) == VARNUCHT_DATA_SECTORS - used, "free sectors are those that no file takes", used);
}

void check_entries(void) {
    check_drawn_entries();
    check_name_lengths();
    check_saved_files();
}
