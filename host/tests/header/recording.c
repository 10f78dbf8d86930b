/* Save while recording: pieces make the disk that one save makes, each size that always suffices does, and what is refused
 * changes nothing. */
#include <string.h>

#include "expect.h"

static uint8_t image[VARNUCHT_IMAGE_BYTES], before[VARNUCHT_IMAGE_BYTES], saved[VARNUCHT_IMAGE_BYTES];
static uint8_t body[VARNUCHT_BODY_BYTES + 1], record[VARNUCHT_RECORD_BYTES + 1], kept[VARNUCHT_RECORD_BYTES + 1];
static uint8_t list[VARNUCHT_SAVE_LIST_BYTES];
static const uint8_t name[] = {'T', 'U', 'N', 'E'}, exec[] = {1, 2, 3}, info[] = {4, 5};

static uint64_t open_record(size_t record_len) {
    return varnucht_record_open(image, sizeof image, VARNUCHT_KIND_CODE, name, sizeof name, 1, 32768, exec, sizeof exec,
                                info, sizeof info, record, record_len);
}

/* With neither execution bytes nor information. */
static uint64_t open_plain(const uint8_t *as, size_t as_len, uint8_t *to, size_t to_len) {
    return varnucht_record_open(image, sizeof image, VARNUCHT_KIND_CODE, as, as_len, 1, 32768, NULL, 0, NULL, 0, to, to_len);
}

static uint64_t add(size_t from, size_t len, size_t list_len) {
    return varnucht_record_add(image, sizeof image, body + from, len, record, sizeof record, list, list_len);
}

static uint64_t close_record(size_t list_len) {
    return varnucht_record_close(image, sizeof image, record, sizeof record, list, list_len);
}

/* Remembers what is lent; whether it is still so. */
static void remember(void) {
    memcpy(before, image, sizeof image);
    memcpy(kept, record, sizeof record);
    memset(list, 0x5c, sizeof list);
}

static int unchanged(void) {
    return memcmp(image, before, sizeof image) == 0 && memcmp(record, kept, sizeof record) == 0 && list[0] == 0x5c;
}

static void make_body(void) {
    for (size_t i = 0; i < sizeof body; i++) {
        body[i] = (uint8_t)drawn();
    }
}

static void begin(void) {
    memset(image, 0, sizeof image);
    record[VARNUCHT_RECORD_BYTES] = 0x5c;
    expect(open_record(VARNUCHT_RECORD_BYTES - 1) == VARNUCHT_BUFFER_TOO_SHORT, "a record too short", 0);
    expect(open_record(sizeof record) == 0, "a recording is opened", 0);
    expect(record[VARNUCHT_RECORD_BYTES] == 0x5c, "the rest stays", 0);
}

/* A body in pieces of one length, beside one save of it. */
static void check_pieces_of(size_t len, size_t piece) {
    memset(saved, 0, sizeof saved);
    uint64_t answer = varnucht_save(saved, sizeof saved, VARNUCHT_KIND_CODE, name, sizeof name, 1, 32768, exec, sizeof exec,
                                    info, sizeof info, body, len, list, sizeof list);
    unsigned sectors = varnucht_value(answer);
    expect(varnucht_refusal(answer) == 0, "the body is saved", len);
    begin();
    unsigned named = 0;
    for (size_t at = 0; at < len; at += piece) {
        answer = add(at, len - at < piece ? len - at : piece, VARNUCHT_PIECE_LIST_BYTES);
        expect(varnucht_refusal(answer) == 0 && varnucht_slot(answer) == 0 && varnucht_free(answer) == 0, "a piece", at);
        expect(varnucht_value(answer) <= piece / 510 + 1, "how many sectors of a piece", at);
        named += varnucht_value(answer);
        expect(varnucht_value(varnucht_list(image, sizeof image, NULL, 0)) == 0, "nothing is seen of it", at);
    }
    answer = close_record(VARNUCHT_CLOSE_LIST_BYTES);
    expect(varnucht_refusal(answer) == 0, "the close", len);
    expect(named + varnucht_value(answer) == sectors, "each sector once", len);
    expect(memcmp(image, saved, sizeof image) == 0, "one save of the joined pieces", len);
}

/* The refusals of each call, in their order. */
static void check_refusals(void) {
    begin();
    expect(add(0, 1600, VARNUCHT_PIECE_LIST_BYTES) == (uint64_t)2 << 24, "two sectors", 0);
    remember();
    uint64_t answer =
        varnucht_record_add(image, sizeof image, body, 1, record, VARNUCHT_RECORD_BYTES - 1, list, sizeof list);
    expect(answer == VARNUCHT_BUFFER_TOO_SHORT, "a record too short to add to", 0);
    answer = varnucht_record_close(image, sizeof image, record, VARNUCHT_RECORD_BYTES - 1, list, sizeof list);
    expect(answer == VARNUCHT_BUFFER_TOO_SHORT, "a record too short to close", 0);
    expect(add(0, VARNUCHT_BODY_BYTES, 0) == VARNUCHT_TOO_FEW_SECTORS, "too long a piece", 0);
    expect(add(0, 1000, 3) == VARNUCHT_BUFFER_TOO_SHORT, "a list too short for a piece", 0);
    expect(close_record(5) == VARNUCHT_BUFFER_TOO_SHORT, "a list too short for a close", 0);
    /* Sector 81 is the recording's second. */
    image[81 * 512 + 511] ^= 1;
    memcpy(before, image, sizeof image);
    expect(add(0, VARNUCHT_BODY_BYTES, 0) == VARNUCHT_RECORDING_MOVED, "a link is gone at a piece", 0);
    expect(close_record(0) == VARNUCHT_RECORDING_MOVED, "a link is gone at the close", 0);
    expect(unchanged(), "nothing lent has changed", 0);
    image[81 * 512 + 511] ^= 1;
    expect(varnucht_value(close_record(6)) == 3, "with the link back it closes", 0);
    expect(memcmp(record, kept, sizeof record) == 0, "the record stays", 0);
    expect(close_record(sizeof list) == VARNUCHT_RECORDING_MOVED, "its sectors are taken now", 0);
    expect(open_record(sizeof record) == VARNUCHT_NAME_TAKEN + 256, "the name is taken", 0);
}

/* NULL as an empty slice in every place. */
static void check_nothing(void) {
    begin();
    uint64_t answer = varnucht_record_add(image, sizeof image, NULL, 0, record, sizeof record, NULL, 0);
    expect(answer == 0, "an empty piece", 0);
    answer = varnucht_record_add(image, sizeof image, NULL, 0, NULL, 0, NULL, 0);
    expect(answer == VARNUCHT_BUFFER_TOO_SHORT, "no record to add to", 0);
    answer = varnucht_record_close(image, sizeof image, NULL, 0, list, sizeof list);
    expect(answer == VARNUCHT_BUFFER_TOO_SHORT, "no record to close", 0);
    answer = varnucht_record_close(image, sizeof image, record, sizeof record, NULL, 0);
    expect(answer == VARNUCHT_BUFFER_TOO_SHORT, "no list", 0);
    expect(open_plain(NULL, 0, record, sizeof record) == VARNUCHT_NAME_NOT_USABLE, "no name", 0);
    expect(open_plain(name, sizeof name, NULL, 0) == VARNUCHT_BUFFER_TOO_SHORT, "no record to open", 0);
    expect(open_plain(name, sizeof name, record, sizeof record) == 0, "no execution bytes and no information", 0);
    expect(varnucht_value(close_record(4)) == 2, "an empty file", 0);
    expect(varnucht_read(image, sizeof image, name, sizeof name, NULL, 0) == 0, "an empty body", 0);
}

void check_recordings(void) {
    static const size_t lengths[] = {0, 501, 502, 1011, 1012};
    make_body();
    for (size_t i = 0; i < sizeof lengths / sizeof lengths[0]; i++) {
        check_pieces_of(lengths[i], 511);
        check_pieces_of(lengths[i], VARNUCHT_BODY_BYTES);
    }
    check_pieces_of(1012, 1);
    check_pieces_of(VARNUCHT_BODY_BYTES, 4096);
    check_pieces_of(VARNUCHT_BODY_BYTES, VARNUCHT_BODY_BYTES);
    check_refusals();
    check_nothing();
}
