/* The functions over a reader: the pieces joined are one read, however the asking is cut; refusals leave a reader as it was;
 * and any numbers get an answer. */
#include <string.h>

#include "expect.h"

static uint8_t image[VARNUCHT_IMAGE_BYTES], body[VARNUCHT_BODY_BYTES], whole[VARNUCHT_BODY_BYTES];
static uint8_t out[VARNUCHT_BODY_BYTES + 1], list[VARNUCHT_SAVE_LIST_BYTES];
static const uint8_t tunes[] = {'T', 'U', 'N', 'E', 'S'}, hymns[] = {'H', 'Y', 'M', 'N', 'S'};

/* A disk with one file of that length alone. */
static void make_disk(size_t len) {
    memset(image, 0, sizeof image);
    uint64_t answer = varnucht_save(image, sizeof image, VARNUCHT_KIND_CODE, tunes, 5, 1, 32768, NULL, 0, NULL, 0, body, len,
                                    list, sizeof list);
    expect(varnucht_refusal(answer) == 0, "a file to read", (unsigned long)len);
    answer = varnucht_read(image, sizeof image, tunes, 5, whole, sizeof whole);
    expect(varnucht_value(answer) == len, "one read", (unsigned long)len);
}

/* The room for the next piece: always the same, or drawn where that is 0. */
static size_t room_of(size_t same) { return same != 0 ? same : drawn() >> 32 & 1 ? drawn() % 1100 : drawn() % 3; }

/* Asks until nothing is left and once more. Every piece is full but the last, its bytes are those of the one read, and the
 * byte behind it stays. */
static void check_cut(size_t len, size_t same) {
    struct varnucht_reader reader = {0, 0, 0};
    size_t at = 0, left = len, came;
    unsigned long wrong = 0;
    uint64_t answer = varnucht_reader_open(&reader, image, sizeof image, tunes, 5);
    expect(varnucht_refusal(answer) == 0 && varnucht_value(answer) == len, "opened", (unsigned long)len);
    expect(reader.sector == 80 && reader.offset == 9 && reader.left == len, "a new reader", (unsigned long)len);
    do {
        size_t room = room_of(same);
        left = reader.left;
        out[room] = 170;
        came = varnucht_reader_next(&reader, image, sizeof image, out, room);
        wrong += came != (left < room ? left : room) || reader.left != left - came;
        wrong += memcmp(out, whole + at, came) != 0 || out[room] != 170;
        at += came;
    } while (left > 0 && wrong == 0);
    expect(wrong == 0 && at == len && came == 0, "pieces joined", (unsigned long)same);
    expect(reader.offset == (9 + len) % 510, "where it ends", (unsigned long)len);
    expect((reader.sector == 1600) == (reader.offset == 0), "nothing follows a full last sector", (unsigned long)len);
}

static void check_cuts(void) {
    static const size_t lengths[] = {0, 1, 9, 501, 502, 1011, 1012, 20000, VARNUCHT_BODY_BYTES};
    static const size_t rooms[] = {1, 9, 509, 510, 511, 512, 4096, VARNUCHT_BODY_BYTES, 0};
    for (size_t i = 0; i < sizeof lengths / sizeof lengths[0]; i++) {
        make_disk(lengths[i]);
        for (size_t k = 0; k < sizeof rooms / sizeof rooms[0]; k++) {
            check_cut(lengths[i], rooms[k]);
        }
    }
}

/* A refused opening says what varnucht_read says, and the reader stays. */
static void check_refusals(void) {
    struct varnucht_reader reader = {1, 2, 3};
    expect(varnucht_reader_open(&reader, image, sizeof image - 1, tunes, 5) == VARNUCHT_NOT_AN_IMAGE, "no image", 0);
    expect(varnucht_reader_open(&reader, NULL, 0, NULL, 0) == VARNUCHT_NOT_AN_IMAGE, "nothing lent", 0);
    expect(varnucht_reader_open(&reader, image, sizeof image, NULL, 0) == VARNUCHT_NAME_NOT_USABLE, "no name", 0);
    expect(varnucht_reader_open(&reader, image, sizeof image, hymns, 5) == VARNUCHT_NAME_NOT_FOUND, "no such file", 0);
    uint8_t status = image[0];
    image[0] = 5;
    uint64_t answer = varnucht_reader_open(&reader, image, sizeof image, tunes, 5);
    expect(answer == VARNUCHT_WRONG_KIND + 256 * 1, "a kind that cannot be read", 0);
    image[0] = 63;
    expect(varnucht_reader_open(&reader, image, sizeof image, tunes, 5) == VARNUCHT_KIND_UNKNOWN + 256 * 1, "a refused disk", 0);
    image[0] = status;
    expect(reader.sector == 1 && reader.offset == 2 && reader.left == 3, "a refusal leaves the reader", 0);
}

/* Where no room is lent, as NULL or as no bytes, nothing comes and the reader stays; and of no image nothing comes. */
static void check_nothing(void) {
    struct varnucht_reader reader;
    expect(varnucht_refusal(varnucht_reader_open(&reader, image, sizeof image, tunes, 5)) == 0, "opened", 0);
    struct varnucht_reader before = reader;
    expect(varnucht_reader_next(&reader, image, sizeof image, NULL, 0) == 0, "no room as NULL", 0);
    expect(varnucht_reader_next(&reader, image, sizeof image, out, 0) == 0, "no room", 0);
    expect(memcmp(&reader, &before, sizeof reader) == 0, "the reader stays", 0);
    memset(out, 170, 16);
    expect(varnucht_reader_next(&reader, NULL, 0, out, 16) == 0, "no image", 0);
    expect(reader.sector == 1600 && reader.offset == 0 && reader.left == before.left, "it leads nowhere", 0);
    expect(varnucht_reader_next(&reader, image, sizeof image, out, 16) == 0, "from nowhere", 0);
    for (unsigned long k = 0; k < 16; k++) {
        expect(out[k] == 170, "what isn't filled stays", k);
    }
}

/* A reader of any three numbers: an answer with parts that fit, and nothing behind `out` is touched. */
static void check_rubbish(void) {
    for (unsigned long i = 0; i < 20000; i++) {
        struct varnucht_reader reader = {(uint32_t)(drawn() >> 32), (uint32_t)(drawn() >> 32), (uint32_t)(drawn() >> 32)};
        reader.sector %= i % 4 != 0 ? 1700 : 0xffffffff;
        reader.offset %= i % 3 != 0 ? 520 : 0xffffffff;
        reader.left %= i % 5 != 0 ? 5000 : 0xffffffff;
        uint32_t left = reader.left;
        size_t room = drawn() % 3000;
        out[room] = 170;
        size_t came = varnucht_reader_next(&reader, image, i % 7 != 0 ? sizeof image : drawn() % sizeof image, out, room);
        expect(came <= room && came <= left && reader.left == left - came, "how many came", i);
        expect(reader.sector <= 1600 && reader.offset < 510 && out[room] == 170, "where it stands", i);
    }
}

void check_pieces(void) {
    for (size_t i = 0; i < sizeof body; i++) {
        body[i] = (uint8_t)(drawn() >> 32);
    }
    check_cuts();
    check_refusals();
    check_nothing();
    check_rubbish();
}
