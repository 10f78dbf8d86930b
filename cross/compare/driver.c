/* Runs every call of varnucht.h on drawn disks, whole and damaged, and says what came: a line for each disk, with a hash over
 * every answer and every lent buffer at return, the bytes around it and those that were not filled too; and then how often each
 * call gave each number. Built for two machines it must say the same twice. Where a call never gave a number that it can give,
 * or gave one that it cannot, it ends with status 1.
 *
 *   driver IMAGE ROUNDS    the comparison; IMAGE is one of the disks that it begins with
 *   driver words           the words of all numbers, 0 to 255
 *
 * A new call gets a function that draws its arguments and a row of `calls` below, and nothing else. In node this very program
 * runs over varnucht.wasm: compare.mjs hands each of its calls to the module in js/. */
#include <stdio.h>
#include <stdlib.h>
#include <string.h>

#include "varnucht.h"

/* What every call on a disk can give before its own numbers; 0 ends a list. */
#define DISK 1, 2, 4, 5, 6, 7, 8, 9, 10, 11, 24, 25

enum { IMAGE = VARNUCHT_IMAGE_BYTES, MARGIN = 64, MOST_NAMES = 40, ROOM = 800000 };

/* A buffer stands between margins, which no call may touch. */
#define BUFFER(name, bytes) \
    static uint8_t name##_all[MARGIN + (bytes) + MARGIN]; \
    static uint8_t *const name = name##_all + MARGIN
BUFFER(image, IMAGE + 8);
BUFFER(out, ROOM);
BUFFER(body, ROOM);
BUFFER(list, 4096);
BUFFER(slots, VARNUCHT_TREE_BYTES);
BUFFER(names, 10 * MOST_NAMES + 10);
BUFFER(answers, MOST_NAMES);
BUFFER(report, VARNUCHT_REPORT_BYTES + 8);
BUFFER(other, VARNUCHT_REPORT_BYTES + 8);
BUFFER(record, VARNUCHT_RECORD_BYTES + 8);
BUFFER(listing, VARNUCHT_LISTING_BYTES);
static uint8_t sample[IMAGE];

static size_t image_len;                    /* of the disk as it is lent */
static uint32_t files;                      /* in `listing`: those that were there before the disk was damaged */
static uint8_t hint[VARNUCHT_NAME_BYTES];   /* the name of a file that something was done to */
static uint64_t state, hash;
static unsigned now, total;                 /* which call is made; how many were */
static uint32_t tally[64][256];

static uint32_t draw(uint32_t n) {
    state ^= state << 13;
    state ^= state >> 7;
    state ^= state << 17;
    return (uint32_t)(state >> 32) % n;
}
static int one_in(uint32_t n) { return draw(n) == 0; }
static void flip(uint8_t *at) { *at ^= (uint8_t)(1u << draw(8)); }

static void mix(uint64_t w) {
    hash ^= w;
    hash = (hash << 31 | hash >> 33) * UINT64_C(0x9e3779b97f4a7c15);
}

/* Four numbers at a time, so that a slow machine keeps up. */
static void mix_bytes(const uint8_t *p, size_t len) {
    uint64_t lane[4] = {1, 2, 3, 4}, w[4];
    for (; len >= 32; p += 32, len -= 32) {
        memcpy(w, p, 32);
        for (int i = 0; i < 4; i++) {
            lane[i] ^= w[i];
            lane[i] = (lane[i] << 31 | lane[i] >> 33) * UINT64_C(0x9e3779b97f4a7c15);
        }
    }
    for (int i = 0; i < 4; i++) {
        mix(lane[i]);
    }
    for (; len > 0; p++, len--) {
        mix(*p);
    }
}
#define MIX(name) mix_bytes(name##_all, sizeof name##_all)
#define PAINT(name) memset(name##_all, (int)(0x30 + draw(64)), sizeof name##_all)

static uint64_t told(uint64_t answer) {
    mix(answer);
    tally[now][varnucht_refusal(answer)]++;
    total++;
    return answer;
}
static void changed(uint64_t answer) {
    told(answer);
    MIX(image);
    MIX(list);
}

/* Names: of a file that is there, of one that something was done to, or any. */
static uint32_t any_name(uint8_t *to) {
    uint32_t len = one_in(12) ? draw(13) : 1 + draw(2);
    for (uint32_t i = 0; i < len; i++) {
        to[i] = (uint8_t)(one_in(40) ? draw(256) : (one_in(5) ? 'a' : 'A') + draw(6));
    }
    return len;
}
static uint32_t ask_name(uint8_t *to) {
    if (one_in(12)) { /* not usable */
        memset(to, 0, 12);
        return one_in(2) ? 1 + draw(10) : one_in(2) ? 0 : 11 + draw(2);
    }
    if (files == 0 || one_in(6)) {
        return any_name(to);
    }
    memcpy(to, one_in(3) ? hint : varnucht_entry_name(varnucht_entry(listing, draw(files))), VARNUCHT_NAME_BYTES);
    for (int i = 0; i < VARNUCHT_NAME_BYTES && one_in(2); i++) {
        to[i] = (uint8_t)(to[i] >= 'A' && to[i] <= 'Z' ? to[i] + 32 : to[i]);
    }
    return VARNUCHT_NAME_BYTES;
}
/* A list: mostly long enough, or too short for most. */
static size_t list_room(void) { return one_in(6) ? draw(4) : 4096; }
/* A number at an edge: just `at`, or beside it. */
static uint32_t edge(uint32_t at) { return at - 1 + draw(3); }
/* A length of a body, now and then one that just fills its sectors. */
static uint32_t body_size(uint32_t most) { return one_in(3) ? edge(510 * (1 + draw(most / 510)) - 9) : draw(most); }

static void draw_body(uint32_t size) {
    uint32_t seed = draw(256);
    for (uint32_t i = 0; i < size; i++) {
        body[i] = (uint8_t)(seed + i * 7 + (i >> 8));
    }
}
static uint64_t put(const uint8_t *name, size_t name_len, uint32_t kind, size_t size) {
    static const uint8_t some[] = {1, 2, 3, 4, 5, 6, 7, 8, 9, 10, 11, 12, 13};
    size_t execs = draw(5);
    size_t infos = draw(14);
    return varnucht_save(image, IMAGE, kind, name, name_len, 1 + draw(30), 32768, some, execs, some, infos, body, size, list, 4096);
}

/* Slot s, from 0, and the first sector of its file. */
static uint8_t *slot_at(uint32_t s) {
    uint32_t past = s >= 80 ? s + 2 : s;
    return image + past / 20 * 10240 + past % 20 * 256;
}
static uint8_t *sector_at(uint8_t track, uint8_t sector) {
    return image + ((track % 128 * 2 + track / 128) % 160 * 10 + (sector - 1) % 10) * 512;
}
static uint8_t *first_of(const uint8_t *slot) { return sector_at(slot[13], slot[14]); }

static void list_again(void) {
    uint64_t answer = varnucht_list(image, IMAGE, listing, VARNUCHT_LISTING_BYTES);
    mix(answer);
    files = varnucht_value(answer);
}
/* The slot of a file that is listed and has sectors; its name becomes the hint. NULL where there is none. */
static uint8_t *some_file(void) {
    for (int tries = 0; files > 0 && tries < 20; tries++) {
        uint8_t *slot = slot_at(varnucht_entry_slot(varnucht_entry(listing, draw(files))) - 1);
        if ((slot[0] & 63) != 21) {
            memcpy(hint, slot + 1, VARNUCHT_NAME_BYTES);
            return slot;
        }
    }
    return NULL;
}

/* What a disk is made of, beyond files that were saved. Each leaves a disk that is accepted. */
static void make_spectrum(uint8_t *slot) {
    uint32_t room = (slot[11] * 256u + slot[12]) * 510 - 9, length = draw(room > 65535 ? 65536 : room + 1);
    uint8_t *header = first_of(slot);
    slot[0] = (uint8_t)((slot[0] & 0xc0) + 1 + draw(4));
    header[1] = (uint8_t)length;
    header[2] = (uint8_t)(length >> 8);
}
static void make_other(uint8_t *slot) { slot[0] = (uint8_t)(one_in(2) ? 5 + draw(8) : 22 + draw(2)); }
static void make_waste(uint8_t *slot) { /* of a carried kind with more than a sector: a length of 3 bytes */
    uint8_t *header = first_of(slot);
    if ((slot[0] & 63) >= 16 && (slot[0] & 63) <= 20 && slot[12] > 1) {
        slot[239] = header[7] = 0;
        slot[240] = header[1] = 3;
        slot[241] = header[2] = 0;
    }
}
static void make_start(uint8_t *slot) { slot[238] = (uint8_t)draw(128); }
static void make_directory(uint8_t *slot, uint32_t code) {
    slot[0] = 21;
    memset(slot + 11, 0, 210 - 11);
    slot[250] = (uint8_t)code;
}
/* Directories 1 to 3 where there are files enough, other files in them, and now and then codes that do not fit together. */
static void make_directories(void) {
    uint8_t *of[3];
    for (uint32_t code = 1; code <= 3; code++) {
        of[code - 1] = some_file();
        if (of[code - 1] == NULL) {
            return;
        }
        make_directory(of[code - 1], code);
    }
    for (uint32_t i = 0; i < files; i++) {
        slot_at(varnucht_entry_slot(varnucht_entry(listing, i)) - 1)[254] = (uint8_t)(one_in(2) ? 0 : 1 + draw(3));
    }
    of[0][254] = 0;
    of[1][254] = (uint8_t)draw(2);
    of[2][254] = (uint8_t)draw(3);
    switch (draw(8)) {
    case 0: of[2][250] = (uint8_t)draw(3); break;           /* code 0, or another's */
    case 1: of[1][254] = (uint8_t)(4 + draw(200)); break;   /* in one that is not there */
    case 2: of[0][254] = 1 + (uint8_t)draw(3); break;       /* inside itself, perhaps */
    default: break;
    }
}
/* As many files as there are slots. */
static void make_crowd(void) {
    uint8_t name[2];
    draw_body(600);
    for (uint32_t i = 0; i < 130; i++) {
        name[0] = (uint8_t)(33 + i / 12);
        name[1] = (uint8_t)(48 + i % 12);
        put(name, 2, 19, draw(600));
    }
}
/* A file in two holes of one sector, on a disk that has no other two sectors together. */
static void make_tight(void) {
    uint8_t name[1];
    for (uint8_t i = 0; i < 8; i++) {
        name[0] = (uint8_t)('0' + i);
        put(name, 1, 19, 1);
    }
    uint32_t left = varnucht_free(varnucht_list(image, IMAGE, listing, VARNUCHT_LISTING_BYTES));
    name[0] = '9';
    put(name, 1, 19, left > 0 ? left * 510 - 9 : 0);
    for (uint8_t i = 1; i < 6; i += 2) {
        name[0] = (uint8_t)('0' + i);
        varnucht_erase(image, IMAGE, name, 1, list, 4096);
    }
    name[0] = 'S';
    put(name, 1, 19, 600);
    memset(hint, 32, sizeof hint);
    hint[0] = 'S';
}

static void make_disk(void) {
    if (one_in(8)) {
        memcpy(image, sample, IMAGE);
    } else {
        memset(image, 0, IMAGE);
        image[255] = (uint8_t)(one_in(3) ? draw(36) : 0);
    }
    memcpy(image + 210, "\xcd" "AGAZINE 7", 10);
    list_again();
    for (uint32_t n = one_in(12) ? 0 : draw(24); n > 0; n--) {
        uint8_t name[16];
        uint32_t len = any_name(name);
        uint32_t size = one_in(10) ? draw(300000) : body_size(6000);
        draw_body(size);
        mix(put(name, len, 16 + draw(5), size));
        list_again();
        len = ask_name(name);
        uint32_t act = draw(8);
        mix(act == 0 ? varnucht_erase(image, IMAGE, name, len, list, 4096)
            : act == 1 ? varnucht_protect(image, IMAGE, name, len, list, 4096)
            : act == 2 ? varnucht_hide(image, IMAGE, name, len, list, 4096) : 0);
    }
    uint32_t how = draw(12);
    if (how == 0) {
        make_crowd();
    } else if (how == 1) {
        make_tight();
    }
    list_again();
    uint8_t kept[VARNUCHT_NAME_BYTES];
    memcpy(kept, hint, sizeof kept);
    for (uint32_t n = draw(6); n > 0; n--) {
        uint8_t *slot = some_file();
        uint32_t which = draw(4);
        if (slot != NULL && how != 1) {
            (which == 0 ? make_spectrum : which == 1 ? make_other : which == 2 ? make_waste : make_start)(slot);
        }
    }
    if (one_in(3) && how != 1) {
        make_directories();
    }
    if (how == 1) {
        memcpy(hint, kept, sizeof kept);
    }
    list_again();
}

/* Damage that the check is to find: one for each of its numbers, and one without a plan. */
static void damage(uint32_t which) {
    uint8_t *slot = some_file(), *from = some_file();
    if (which == 1) {
        image_len = one_in(2) ? draw(IMAGE) : IMAGE - 2 + draw(5);
        return;
    }
    if (which == 24) {
        image[255] = (uint8_t)(36 + draw(219));
        return;
    }
    if (slot == NULL) {
        return;
    }
    uint8_t *header = first_of(slot);
    switch (which) {
    case 2: slot[0] = (uint8_t)(0x40 + (one_in(2) ? 13 + draw(3) : 24 + draw(40))); break;
    case 4: slot[11] = (uint8_t)(one_in(2) ? 0 : 7 + draw(249)); slot[12] = 0; break;
    case 5: flip(slot + 15 + draw(195)); break;
    case 6: slot[13] = (uint8_t)draw(256); slot[14] = (uint8_t)draw(12); break;
    case 7: slot[0] = 19; slot[239] = (uint8_t)(49 + draw(200)); break;
    case 8: memcpy(slot + 11, from + 11, 199); break;
    case 9: memcpy(slot + 1, from + 1, 10); break;
    case 10: header[510 + draw(2)] = (uint8_t)draw(256); break;
    case 11: header[one_in(3) ? 0 : one_in(2) ? 1 : 7] ^= (uint8_t)(1 + draw(255)); break;
    case 25: slot[0] = (uint8_t)(1 + draw(4)); header[1] = header[2] = 255; break;
    default:
        for (uint32_t n = 1 + draw(40); n > 0; n--) {
            flip(one_in(2) ? slot + draw(256) : image + draw(IMAGE));
        }
    }
}

/* ---- The calls. Each function draws the arguments of one. */

static void do_check(void) { told(varnucht_check(image, image_len)); }
static void do_check_release(void) { told(varnucht_check_release(image, image_len)); }
static void do_list(void) {
    size_t room = one_in(4) ? draw(3000) : VARNUCHT_LISTING_BYTES;
    PAINT(out);
    uint64_t answer = told(varnucht_list(image, image_len, out, room));
    MIX(out);
    told(varnucht_list(image, image_len, out, edge(VARNUCHT_ENTRY_BYTES * varnucht_value(answer) + 1)));
    MIX(out);
}
static void do_read(void) {
    uint8_t name[16];
    uint32_t len = ask_name(name);
    size_t room = one_in(4) ? draw(3000) : ROOM;
    PAINT(out);
    uint64_t answer = told(varnucht_read(image, image_len, name, len, out, room));
    MIX(out);
    told(varnucht_read(image, image_len, name, len, out, edge(varnucht_value(answer) + 1)));
    MIX(out);
}
static void do_open(void) {
    uint8_t name[16];
    uint32_t len = ask_name(name);
    told(varnucht_open(image, image_len, name, len));
}
/* A body in pieces, and one piece by numbers that no call gave. */
static void do_next(void) {
    uint8_t name[16];
    struct varnucht_reader reader = {0, 0, 0};
    uint32_t len = ask_name(name);
    mix(varnucht_reader_open(&reader, image, image_len, name, len));
    PAINT(out);
    for (int n = 0; n < 4; n++) {
        size_t room = one_in(3) ? draw(4) : draw(200000);
        uint64_t answer = told(varnucht_next(image, image_len, reader.sector, reader.offset, reader.left, out, room));
        reader.sector = varnucht_slot(answer);
        reader.offset = varnucht_free(answer);
        reader.left -= varnucht_value(answer);
        MIX(out);
    }
    uint32_t sector = one_in(4) ? edge(1600) : draw(1600);
    uint32_t offset = one_in(4) ? edge(510) : draw(510);
    uint32_t left = one_in(4) ? edge(VARNUCHT_BODY_BYTES) : draw(5000);
    told(varnucht_next(image, image_len, sector, offset, left, out, ROOM));
    MIX(out);
}
static void do_start(void) {
    uint8_t name[16];
    uint32_t len = ask_name(name);
    told(varnucht_start(image, image_len, name, len));
}
static void do_tree(void) {
    uint8_t name[16];
    uint32_t len = one_in(2) ? 0 : ask_name(name);
    size_t room = one_in(4) ? draw(20) : VARNUCHT_TREE_BYTES;
    PAINT(slots);
    uint64_t answer = told(varnucht_tree(image, image_len, name, len, slots, room));
    MIX(slots);
    if (varnucht_value(answer) > 0) {
        told(varnucht_tree(image, image_len, name, len, slots, 2 * varnucht_value(answer) - draw(2)));
        MIX(slots);
    }
}
static void do_sector(void) {
    uint32_t drive = draw(4);
    uint32_t track = draw(210);
    uint32_t sector = draw(12);
    told(varnucht_sector(image, image_len, sample, IMAGE, drive, track, sector));
    told(varnucht_sector(sample, IMAGE, image, image_len, drive, track, sector));
}
static void draw_report(uint8_t *to) {
    for (int i = 0; i < VARNUCHT_REPORT_BYTES; i++) {
        to[i] = (uint8_t)(i % 4 < 1 + (int)one_in(60) ? draw(256) : 0);
    }
    if (one_in(3)) { /* full, or nearly */
        memset(to, 0, 33 * 4);
        to[0] = (uint8_t)(254 + draw(2));
        to[1] = 255;
    }
}
static size_t report_room(void) { return one_in(3) ? edge(VARNUCHT_REPORT_BYTES) : VARNUCHT_REPORT_BYTES + draw(8); }
static void do_report_add(void) {
    PAINT(report);
    draw_report(report);
    size_t room = report_room();
    told(varnucht_report_add(image, image_len, report, room));
    MIX(report);
}
static void do_report_join(void) {
    PAINT(report);
    PAINT(other);
    draw_report(report);
    draw_report(other);
    size_t room = report_room();
    size_t others = report_room();
    told(varnucht_report_join(report, room, other, others));
    MIX(report);
}
static void do_save(void) {
    uint8_t name[16], exec[4] = {9, 8, 7, 6}, info[16] = {1, 2, 3, 4, 5, 6, 7, 8, 9, 10, 11, 12};
    for (int n = 0; n < 2; n++) {
        uint32_t len = one_in(4) ? ask_name(name) : any_name(name);
        uint32_t kind = one_in(8) ? draw(64) : 16 + draw(5);
        uint32_t page = one_in(4) ? edge(32) : draw(32);
        uint32_t offset = one_in(4) ? edge(32768 + 16384 * draw(2)) : 32768 + draw(16384);
        size_t execs = draw(5);
        size_t infos = draw(13);
        /* on an empty disk the longest body there is */
        uint32_t size = files == 0 && one_in(2) ? edge(VARNUCHT_BODY_BYTES) : one_in(4) ? draw(ROOM) : body_size(9000);
        size_t room = one_in(4) ? 2 * edge((9 + size + 509) / 510 + 1) : list_room();
        draw_body(size);
        PAINT(list);
        changed(varnucht_save(image, image_len, kind, name, len, page, offset, exec, execs, info, infos, body, size, list, room));
    }
}
/* The changes that take a name and nothing else. */
static void by_name(uint64_t (*call)(uint8_t *, varnucht_length, const uint8_t *, varnucht_length, uint8_t *, varnucht_length),
                    size_t room) {
    uint8_t name[16];
    uint32_t len = ask_name(name);
    PAINT(list);
    changed(call(image, image_len, name, len, list, room));
}
static void do_erase(void) { by_name(varnucht_erase, list_room()); }
static void do_hide(void) { by_name(varnucht_hide, list_room()); }
static void do_show(void) { by_name(varnucht_show, list_room()); }
static void do_protect(void) { by_name(varnucht_protect, list_room()); }
static void do_release(void) { by_name(varnucht_release, list_room()); }
static void do_gather(void) {
    for (int n = 0; n < 3; n++) {
        by_name(varnucht_gather, one_in(3) ? draw(12) : 4096);
    }
}
static void do_rename(void) {
    uint8_t name[16], to[16];
    uint32_t len = ask_name(name);
    uint32_t to_len = one_in(3) ? ask_name(to) : any_name(to);
    size_t room = list_room();
    PAINT(list);
    changed(varnucht_rename(image, image_len, name, len, to, to_len, list, room));
}
/* What is answered for each name is counted as a call of its own, the next one. */
static void do_erase_many(void) {
    uint32_t many = draw(MOST_NAMES + 1);
    size_t names_len = 10 * many + (one_in(6) ? 1 + draw(9) : 0);
    PAINT(names);
    PAINT(answers);
    PAINT(list);
    memset(names, 32, 10 * MOST_NAMES + 10);
    for (uint32_t i = 0; i < many; i++) {
        uint8_t name[16];
        uint32_t len = ask_name(name);
        memcpy(names + 10 * i, name, len > 10 ? 10 : len);
        if (one_in(20)) {
            names[10 * i] = 0;
        }
    }
    size_t room = one_in(3) ? many - (many > 0 ? draw(2) : 0) : MOST_NAMES;
    size_t list_len = one_in(8) ? draw(6) : 4096;
    uint64_t answer = varnucht_erase_many(image, image_len, names, names_len, answers, room, list, list_len);
    changed(answer);
    MIX(answers);
    now++;
    for (uint32_t i = 0; i < many && varnucht_refusal(answer) == 0; i++) {
        tally[now][answers[i]]++;
    }
    now--;
}

/* How many bytes fill the disk; 0 where it is full or refused. */
static uint32_t filling(void) {
    uint32_t left = varnucht_free(varnucht_list(image, image_len, out, ROOM));
    return left > 0 ? 510 * left - 9 : 0;
}
/* Makes a directory in every free slot, which takes no sector, or erases them all again. */
static void fill_slots(int live) {
    uint32_t many = varnucht_directory_slots(varnucht_directory_tracks(image));
    int ended = 0;
    for (uint32_t s = 0; s < many; s++) {
        uint8_t *slot = slot_at(s);
        ended = ended || slot[1] == 0;
        if (live && (ended || slot[0] == 0)) {
            make_directory(slot, 0);
            memset(slot + 1, 255, VARNUCHT_NAME_BYTES);
            slot[2] = (uint8_t)(128 + s / 16);
            slot[3] = (uint8_t)(128 + s % 16);
        } else if (!live && slot[0] == 21 && slot[1] == 255) {
            slot[0] = 0;
        }
    }
}

static size_t record_room(void) { return one_in(4) ? edge(VARNUCHT_RECORD_BYTES) : VARNUCHT_RECORD_BYTES + draw(8); }
/* Opened with anything; now and then on a disk without a slot or without a sector, which get free again. */
static void do_record_open(void) {
    uint8_t name[16], exec[4] = {1, 2, 3, 4}, info[16] = {9, 8, 7, 6, 5, 4, 3, 2, 1};
    for (int n = 0; n < 2; n++) {
        uint32_t len = one_in(4) ? ask_name(name) : any_name(name);
        uint32_t kind = one_in(8) ? draw(64) : 16 + draw(5);
        uint32_t page = one_in(8) ? edge(32) : draw(32);
        uint32_t offset = one_in(8) ? edge(32768 + 16384 * draw(2)) : 32768 + draw(16384);
        size_t execs = draw(5);
        size_t infos = draw(13);
        size_t room = record_room();
        uint32_t full = draw(6);
        PAINT(record);
        if (full == 0) {
            fill_slots(1);
        } else if (full == 1) {
            put((const uint8_t *)"FILL", 4, 19, filling());
        }
        told(varnucht_record_open(image, image_len, kind, name, len, page, offset, exec, execs, info, infos, record, room));
        MIX(record);
        if (full == 0) {
            fill_slots(0);
        } else if (full == 1) {
            varnucht_erase(image, image_len, (const uint8_t *)"FILL", 4, list, 4096);
        }
    }
}

static uint8_t *listed; /* the first sector that a piece listed; NULL where it listed none */
/* A recording to add to. Where it is refused the record stays one that no call made. */
static void begin_recording(void) {
    uint8_t name[2] = {'R', (uint8_t)('0' + draw(64))};
    PAINT(record);
    listed = NULL;
    mix(varnucht_record_open(image, image_len, 16 + draw(5), name, 2, 1, 32768, name, 2, NULL, 0, record, VARNUCHT_RECORD_BYTES));
    MIX(record);
}
static uint64_t add_piece(size_t room, size_t list_len, uint32_t size) {
    draw_body(size);
    PAINT(list);
    uint64_t answer = varnucht_record_add(image, image_len, body, size, record, room, list, list_len);
    listed = varnucht_value(answer) > 0 ? image + 512 * (list[0] + 256 * list[1]) : NULL;
    MIX(image);
    MIX(list);
    MIX(record);
    return answer;
}
/* What comes between two calls of a recording: mostly nothing, or another change, or damage to the record or to a link. */
static void meanwhile(void) {
    static const uint8_t particulars[] = {0, 1, 2, 3, 12, 13}; /* where kind, page, offset and name stand */
    uint8_t name[16], *at = record + particulars[draw(sizeof particulars)];
    uint32_t len = ask_name(name);
    switch (draw(24)) {
    case 0: draw_body(3); mix(put(name, len, 19, 3)); break;
    case 1: mix(varnucht_erase(image, image_len, name, len, list, 4096)); break;
    case 2:
    case 3: mix(varnucht_rename(image, image_len, name, len, record + 12, VARNUCHT_NAME_BYTES, list, 4096)); break;
    case 4: fill_slots(1); break;
    case 5:
    case 6:
    case 7: *at = (uint8_t)(one_in(3) ? 0 : draw(256)); break;
    case 8: flip(record + 8 + draw(3)); break; /* how many bytes came */
    case 9: flip(record + (one_in(2) ? 4 : 36 + draw(195))); break; /* the tracks, the used map */
    case 10: flip(listed != NULL ? listed + 510 + draw(2) : at); break;
    default: break;
    }
}
static void do_record_add(void) {
    begin_recording();
    for (int n = 0; n < 4; n++) {
        uint32_t size = one_in(8) ? draw(ROOM) : body_size(3000);
        size_t room = record_room();
        size_t list_len = one_in(3) ? draw(6) : 4096;
        told(add_piece(room, list_len, size));
        meanwhile();
    }
}
/* Now and then the recording fills the disk and its record says that more came. */
static void do_record_close(void) {
    begin_recording();
    for (uint32_t n = draw(3); n > 0; n--) {
        mix(add_piece(VARNUCHT_RECORD_BYTES, 4096, body_size(3000)));
    }
    if (one_in(6)) {
        begin_recording();
        mix(add_piece(VARNUCHT_RECORD_BYTES, 4096, filling()));
        record[10] = 255;
    }
    for (int n = 0; n < 3; n++) {
        meanwhile();
        size_t room = record_room();
        size_t list_len = one_in(3) ? draw(8) : 4096;
        PAINT(list);
        changed(varnucht_record_close(image, image_len, record, room, list, list_len));
        MIX(record);
    }
}

/* Each call with its name and the numbers that it can give, which the header says too. */
static const struct {
    const char *name;
    void (*make)(void);
    uint8_t gives[32];
} calls[] = {
    {"check", do_check, {DISK}},
    {"check_release", do_check_release, {DISK, 22}},
    {"list", do_list, {DISK, 20}},
    {"read", do_read, {DISK, 12, 13, 15, 20}},
    {"open", do_open, {DISK, 12, 13, 15}},
    {"next", do_next, {0}},
    {"start", do_start, {DISK, 12, 13, 14, 15}},
    {"tree", do_tree, {DISK, 26, 27, 28, 12, 13, 15, 20}},
    {"sector", do_sector, {1, 21}},
    {"report_add", do_report_add, {20, 31}},
    {"report_join", do_report_join, {20, 31}},
    {"save", do_save, {DISK, 12, 13, 14, 16, 18, 19, 20}},
    {"gather", do_gather, {DISK, 12, 13, 15, 32, 20}},
    {"rename", do_rename, {DISK, 12, 15, 16, 17, 20}},
    {"hide", do_hide, {DISK, 12, 15, 20}},
    {"show", do_show, {DISK, 12, 15, 20}},
    {"protect", do_protect, {DISK, 12, 15, 20}},
    {"release", do_release, {DISK, 12, 15, 20}},
    {"erase", do_erase, {DISK, 12, 15, 17, 29, 20}},
    {"record_open", do_record_open, {DISK, 12, 13, 14, 16, 18, 19, 20}},
    {"record_add", do_record_add, {DISK, 30, 19, 20}},
    {"record_close", do_record_close, {DISK, 30, 12, 13, 14, 16, 18, 19, 20}},
    {"erase_many", do_erase_many, {DISK, 23, 20}},
    {"erase_many_of_a_name", NULL, {12, 15, 17, 29}},
};
enum { CALLS = sizeof calls / sizeof calls[0] };

static void round_of(uint32_t number) {
    static const uint8_t damages[] = {DISK, 0};
    state = (number + 1) * UINT64_C(0x9e3779b97f4a7c15);
    hash = number;
    image_len = IMAGE;
    make_disk();
    if (one_in(2)) {
        damage(damages[draw(sizeof damages)]);
    }
    for (now = 0; now < CALLS; now++) {
        if (calls[now].make != NULL) {
            calls[now].make();
        }
    }
    MIX(image);
}

/* What each call gave, and whether that is all it can give and nothing else. */
static int say_tally(void) {
    int wrong = 0;
    for (unsigned c = 0; c < CALLS; c++) {
        printf("%s", calls[c].name);
        for (unsigned r = 0; r < 256; r++) {
            int can = r == 0 || memchr(calls[c].gives, (int)r, sizeof calls[c].gives) != NULL;
            if (can || tally[c][r] > 0) {
                printf(" %u:%u", r, (unsigned)tally[c][r]);
            }
            if (can != (tally[c][r] > 0)) {
                printf("%s", can ? " NEVER" : " CANNOT BE");
                wrong = 1;
            }
        }
        printf("\n");
    }
    printf("%u calls, every number that each can give\n", total);
    return wrong;
}

int compare(uint32_t rounds);
int compare(uint32_t rounds) {
    for (uint32_t r = 0; r < rounds; r++) {
        round_of(r);
        printf("%u %08x%08x\n", (unsigned)r, (unsigned)(hash >> 32), (unsigned)hash);
    }
    return say_tally();
}

uint8_t *sample_bytes(void);
uint8_t *sample_bytes(void) { return sample; }

#ifndef __wasm__
int main(int argc, char **argv) {
    if (argc == 2 && strcmp(argv[1], "words") == 0) {
        for (unsigned n = 0; n < 256; n++) {
            printf("%u %s\n", n, varnucht_words(n));
        }
        return 0;
    }
    FILE *file = argc == 3 ? fopen(argv[1], "rb") : NULL;
    if (file == NULL || fread(sample, 1, IMAGE, file) != IMAGE) {
        fprintf(stderr, "driver: give an image and a number of rounds\n");
        return 2;
    }
    fclose(file);
    return compare((uint32_t)strtoul(argv[2], NULL, 10));
}
#endif
