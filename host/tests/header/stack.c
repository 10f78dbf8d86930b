/* How much stack each call takes: it runs on a stack of its own, which was painted before, and the paint that is gone is
 * counted. The disks are those that make a call work longest: the greatest file, eighty files, 778 in the biggest directory,
 * and there 255 subdirectories, each in the one before, with files in the last; and for both checks the greatest file with its
 * last link but one leading back to its first sector, which is refused 10 where that comes again. For the save also a disk
 * whose directory ends at slot 2, with an old name behind it in another sector; for the gather the greatest file that can move,
 * which has half of the data sectors, falling; for the erase of many every name of the crowded disks, with a list that always
 * suffices and with one that just does; for a recording those of the saves, each filled by one piece. */
#define _XOPEN_SOURCE 700
#include <stdio.h>
#include <string.h>
#include <ucontext.h>

#include "varnucht.h"

#define PAINT 0xa5

static uint8_t stack[262144];
static ucontext_t here, there;

static uint8_t blank[VARNUCHT_IMAGE_BYTES], full[VARNUCHT_IMAGE_BYTES], crowded[VARNUCHT_IMAGE_BYTES];
static uint8_t biggest[VARNUCHT_IMAGE_BYTES], deep[VARNUCHT_IMAGE_BYTES], ring[VARNUCHT_IMAGE_BYTES], ended[VARNUCHT_IMAGE_BYTES];
static uint8_t falling[VARNUCHT_IMAGE_BYTES];
static uint8_t image[VARNUCHT_IMAGE_BYTES];
static uint8_t body[VARNUCHT_BODY_BYTES], list[VARNUCHT_SAVE_LIST_BYTES];
static uint8_t recorded[VARNUCHT_IMAGE_BYTES], record[VARNUCHT_RECORD_BYTES];
static size_t piece_len;
static uint8_t report[VARNUCHT_REPORT_BYTES], other_report[VARNUCHT_REPORT_BYTES];
static const uint8_t name[] = {'A', '0'}, other[] = {'T', 'U', 'N', 'E', 'S'};
static uint8_t names[VARNUCHT_NAME_BYTES * VARNUCHT_SLOTS], answers[VARNUCHT_SLOTS];
static unsigned refusal;

static uint64_t save(uint8_t *to, const uint8_t *as, size_t as_len, size_t len) {
    return varnucht_save(to, sizeof image, 19, as, as_len, 1, 32768, NULL, 0, NULL, 0, body, len, list, sizeof list);
}

static void nothing(void) {}
static void check(void) { refusal = varnucht_refusal(varnucht_check(image, sizeof image)); }
static void check_release(void) { refusal = varnucht_refusal(varnucht_check_release(image, sizeof image)); }
static void listing(void) { refusal = varnucht_refusal(varnucht_list(image, sizeof image, body, sizeof body)); }
static void reading(void) { refusal = varnucht_refusal(varnucht_read(image, sizeof image, name, 2, body, sizeof body)); }
static void tree(void) { refusal = varnucht_refusal(varnucht_tree(image, sizeof image, NULL, 0, body, sizeof body)); }
static void opening(void) { refusal = varnucht_refusal(varnucht_open(image, sizeof image, name, 2)); }
static void next(void) {
    refusal = varnucht_refusal(varnucht_next(image, sizeof image, 80, 9, sizeof body, body, sizeof body));
}
static void start(void) { refusal = varnucht_refusal(varnucht_start(image, sizeof image, name, 2)); }
static void sector(void) { refusal = varnucht_refusal(varnucht_sector(image, sizeof image, full, sizeof full, 1, 207, 10)); }
static void saving(void) { refusal = varnucht_refusal(save(image, other, 5, 510 * 1560 - 9)); }
static void saving_on(void) { refusal = varnucht_refusal(save(image, other, 5, 510 * 1559 - 9)); }
static void saving_last(void) { refusal = varnucht_refusal(save(image, other, 5, 510 * 1480 - 9)); }
static void saving_778th(void) { refusal = varnucht_refusal(save(image, other, 5, 510 * (1211 - 777) - 9)); }
static void record_open(void) {
    refusal = varnucht_refusal(varnucht_record_open(image, sizeof image, 19, other, 5, 1, 32768, NULL, 0, NULL, 0, record,
                                                    sizeof record));
}
static void record_add(void) {
    refusal = varnucht_refusal(varnucht_record_add(image, sizeof image, body, piece_len, record, sizeof record, list,
                                                   VARNUCHT_PIECE_LIST_BYTES));
}
static void record_close(void) {
    refusal = varnucht_refusal(varnucht_record_close(image, sizeof image, record, sizeof record, list,
                                                     VARNUCHT_CLOSE_LIST_BYTES));
}
static void erase_many(void) {
    refusal = varnucht_refusal(varnucht_erase_many(image, sizeof image, names, sizeof names, answers, sizeof answers, list,
                                                   VARNUCHT_ERASE_LIST_BYTES));
}
/* All but the first two, which share a sector. */
static void erase_most(void) {
    refusal = varnucht_refusal(varnucht_erase_many(image, sizeof image, names + 20, sizeof names - 20, answers, sizeof answers,
                                                   list, VARNUCHT_ERASE_LIST_BYTES - 2));
}
static void erase(void) { refusal = varnucht_refusal(varnucht_erase(image, sizeof image, name, 2, list, 2)); }
static void renaming(void) { refusal = varnucht_refusal(varnucht_rename(image, sizeof image, name, 2, other, 5, list, 2)); }
static void hide(void) { refusal = varnucht_refusal(varnucht_hide(image, sizeof image, name, 2, list, 2)); }
static void show(void) { refusal = varnucht_refusal(varnucht_show(image, sizeof image, name, 2, list, 2)); }
static void protect(void) { refusal = varnucht_refusal(varnucht_protect(image, sizeof image, name, 2, list, 2)); }
static void report_add(void) { refusal = varnucht_refusal(varnucht_report_add(image, sizeof image, report, sizeof report)); }
static void report_join(void) { refusal = varnucht_refusal(varnucht_report_join(report, sizeof report, other_report, sizeof other_report)); }
static void release(void) { refusal = varnucht_refusal(varnucht_release(image, sizeof image, name, 2, list, 2)); }
static void gather(void) { refusal = varnucht_refusal(varnucht_gather(image, sizeof image, name, 2, list, sizeof list)); }

/* The bytes from the deepest that was written to the stack's end. */
static size_t used_by(void (*run)(void)) {
    size_t clean = 0;
    memset(stack, PAINT, sizeof stack);
    getcontext(&there);
    there.uc_stack.ss_sp = stack;
    there.uc_stack.ss_size = sizeof stack;
    there.uc_link = &here;
    makecontext(&there, run, 0);
    swapcontext(&here, &there);
    while (clean < sizeof stack && stack[clean] == PAINT) {
        clean++;
    }
    return sizeof stack - clean;
}

static void say(const char *call, void (*run)(void), const uint8_t *disk) {
    memcpy(image, disk, sizeof image);
    refusal = 0;
    size_t without = used_by(nothing), with = used_by(run);
    printf("%s %lu refused %u\n", call, (unsigned long)(with - without), refusal);
}

/* The names of the files on a crowded disk, whether all are there or not. */
static void make_names(void) {
    memset(names, 32, sizeof names);
    for (unsigned i = 0; i < VARNUCHT_SLOTS; i++) {
        names[VARNUCHT_NAME_BYTES * i] = (uint8_t)('A' + i / 40);
        names[VARNUCHT_NAME_BYTES * i + 1] = (uint8_t)('0' + i % 40);
    }
}

/* Files of one sector in every slot but the last, which is erased. */
static void crowd(uint8_t *disk, unsigned slots) {
    for (unsigned i = 0; i < slots; i++) {
        uint8_t each[2] = {(uint8_t)('A' + i / 40), (uint8_t)('0' + i % 40)};
        save(disk, each, 2, 1);
        if (i == slots - 1) {
            varnucht_erase(disk, sizeof image, each, 2, list, 2);
        }
    }
}

/* Every slot but the last is taken: subdirectories in each other as deep as codes go, and behind them files in the deepest. */
static void deepen(uint8_t *disk) {
    disk[255] = 35;
    crowd(disk, VARNUCHT_SLOTS);
    for (unsigned i = 1; i < VARNUCHT_SLOTS; i++) {
        unsigned past = i > 80 ? i + 1 : i - 1;
        uint8_t *slot = disk + past / 20 * 10240 + past % 20 * 256;
        slot[254] = (uint8_t)(i > 256 ? 255 : i > 1 ? i - 2 : 0);
        if (i > 1 && i <= 256) {
            slot[0] = 21;
            memset(slot + 11, 0, 210 - 11);
            slot[250] = (uint8_t)(i - 1);
        }
    }
}

/* The address of map bit b, and the sector that it stands for. */
static void address(unsigned b, uint8_t *to) {
    to[0] = (uint8_t)(b < 760 ? 4 + b / 10 : 128 + (b - 760) / 10);
    to[1] = (uint8_t)(b % 10 + 1);
}

static uint8_t *sector_of(uint8_t *disk, unsigned b) {
    unsigned along = b < 760 ? 2 * (4 + b / 10) : 2 * ((b - 760) / 10) + 1;
    return disk + (along * 10 + b % 10) * 512;
}

/* A file on map bits 0 to 779, chained from the last to the first. */
static void let_fall(uint8_t *disk) {
    save(disk, name, 2, 510 * 780 - 9);
    memcpy(sector_of(disk, 779), sector_of(disk, 0), 9);
    address(779, disk + 13);
    for (unsigned b = 0; b < 780; b++) {
        uint8_t *link = sector_of(disk, b) + 510;
        link[0] = link[1] = 0;
        if (b > 0) {
            address(b - 1, link);
        }
    }
}

static void make_disks(void) {
    save(full, name, 2, sizeof body);
    memcpy(ring, full, sizeof ring);
    /* track 207 sector 9 leads to track 4 sector 1 */
    ring[1598 * 512 + 510] = 4;
    ring[1598 * 512 + 511] = 1;
    save(ended, name, 2, 1);
    ended[2 * 256 + 1] = 'X';
    crowd(crowded, 80);
    biggest[255] = 35;
    crowd(biggest, VARNUCHT_SLOTS);
    deepen(deep);
    let_fall(falling);
}

/* A recording that takes so many sectors. */
static void say_recording(const uint8_t *disk, unsigned sectors) {
    piece_len = 510 * sectors - 9;
    say("record_open", record_open, disk);
    say("record_add", record_add, disk);
    memcpy(recorded, image, sizeof recorded);
    say("record_close", record_close, recorded);
}

int main(void) {
    make_disks();
    make_names();
    const uint8_t *const disks[] = {full, crowded, biggest, deep};
    for (int i = 0; i < 4; i++) {
        say("check", check, disks[i]);
        say("check_release", check_release, disks[i]);
        say("list", listing, disks[i]);
        say("read", reading, disks[i]);
        say("tree", tree, disks[i]);
        say("open", opening, disks[i]);
        say("next", next, disks[i]);
        say("start", start, disks[i]);
        say("sector", sector, disks[i]);
        say("erase", erase, disks[i]);
        say("erase_many", erase_many, disks[i]);
        say("erase_many", erase_most, disks[i]);
        say("rename", renaming, disks[i]);
        say("hide", hide, disks[i]);
        say("show", show, disks[i]);
        say("protect", protect, disks[i]);
        say("release", release, disks[i]);
        say("gather", gather, disks[i]);
        say("report_add", report_add, disks[i]);
        say("report_join", report_join, disks[i]);
    }
    say("check", check, ring);
    say("check_release", check_release, ring);
    say("gather", gather, falling);
    say("save", saving, blank);
    say("save", saving_on, ended);
    say("save", saving_last, crowded);
    say("save", saving_778th, biggest);
    say_recording(blank, 1560);
    say_recording(ended, 1559);
    say_recording(crowded, 1480);
    say_recording(biggest, 1211 - 777);
    return 0;
}
