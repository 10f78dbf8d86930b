/* Reports as C has them: what is counted where, by the places and functions of the header; joins; refusals; and NULL. */
#include <string.h>

#include "expect.h"

static uint8_t image[VARNUCHT_IMAGE_BYTES + 1], body[VARNUCHT_BODY_BYTES], list[VARNUCHT_SAVE_LIST_BYTES];
static uint8_t report[VARNUCHT_REPORT_BYTES], other[VARNUCHT_REPORT_BYTES], before[VARNUCHT_REPORT_BYTES];

static uint32_t at(unsigned place) { return varnucht_report_number(report, place); }

static uint64_t add(size_t len) { return varnucht_report_add(image, len, report, sizeof report); }

static void save(uint8_t letter, unsigned sectors) {
    uint64_t answer = varnucht_save(image, VARNUCHT_IMAGE_BYTES, VARNUCHT_KIND_CODE, &letter, 1, 1, 32768, NULL, 0, NULL, 0,
                                    body, 510 * sectors - 9, list, sizeof list);
    expect(varnucht_refusal(answer) == 0, "a file to count", sectors);
}

/* Files of 1, 2, 3, 4, 7, 8 sectors and of 1,024. */
static void check_counts(void) {
    static const unsigned sectors[] = {1, 2, 3, 4, 7, 8, 1024};
    static const uint32_t classes[VARNUCHT_REPORT_CLASS_COUNT] = {0, 1, 2, 2, 1, 0, 0, 0, 0, 0, 0, 1};
    memset(image, 0, sizeof image);
    for (unsigned i = 0; i < 7; i++) {
        save((uint8_t)('A' + i), sectors[i]);
    }
    memset(report, 0, sizeof report);
    expect(varnucht_value(add(VARNUCHT_IMAGE_BYTES)) == 1, "the first disk", 0);
    expect(at(VARNUCHT_REPORT_ACCEPTED) == 1, "accepted", 0);
    expect(at(VARNUCHT_REPORT_KINDS + VARNUCHT_KIND_CODE) == 7, "files of code", 0);
    expect(at(VARNUCHT_REPORT_FILE_SECTORS) == 1049, "file sectors", 0);
    expect(at(VARNUCHT_REPORT_FREE_SECTORS) == 1560 - 1049, "free sectors", 0);
    for (unsigned c = 0; c < VARNUCHT_REPORT_CLASS_COUNT; c++) {
        expect(at(VARNUCHT_REPORT_CLASSES + c) == classes[c], "files of a class", c);
    }
    image[0] = 63;
    expect(varnucht_value(add(VARNUCHT_IMAGE_BYTES)) == 2, "a disk that is refused", 0);
    expect(varnucht_value(add(VARNUCHT_IMAGE_BYTES + 1)) == 3 && varnucht_value(add(0)) == 4, "no disks", 0);
    expect(at(VARNUCHT_REPORT_REFUSED + VARNUCHT_KIND_UNKNOWN) == 1, "refused 2", 0);
    expect(at(VARNUCHT_REPORT_REFUSED + VARNUCHT_NOT_AN_IMAGE) == 2, "refused 1", 0);
    expect(at(VARNUCHT_REPORT_ACCEPTED) == 1 && at(VARNUCHT_REPORT_FILE_SECTORS) == 1049, "nothing else", 0);
}

/* Each class begins where the one before it ends. */
static void check_classes(void) {
    for (unsigned sectors = 1; sectors <= VARNUCHT_DATA_SECTORS; sectors++) {
        unsigned c = VARNUCHT_REPORT_CLASS_COUNT - 1;
        while (varnucht_report_class_first(c) > sectors) {
            c--;
        }
        memset(image, 0, sizeof image);
        save('A', sectors);
        memset(report, 0, sizeof report);
        expect(varnucht_refusal(add(VARNUCHT_IMAGE_BYTES)) == 0, "a disk of one file", sectors);
        expect(at(VARNUCHT_REPORT_CLASSES + c) == 1 && at(VARNUCHT_REPORT_FILE_SECTORS) == sectors, "its class", sectors);
    }
    expect(varnucht_report_class_first(0) == 0 && varnucht_report_class_first(11) == 1024, "the first and the last", 0);
}

/* Numbers of any bytes are read as they stand. */
static void check_numbers(void) {
    for (unsigned long i = 0; i < 2000; i++) {
        uint32_t number = (uint32_t)(drawn() >> 32);
        unsigned place = (unsigned)(drawn() >> 32) % 124;
        memset(report, (int)(drawn() >> 56), sizeof report);
        for (unsigned k = 0; k < 4; k++) {
            report[4 * place + k] = (uint8_t)(number >> 8 * k);
        }
        expect(at(place) == number, "a number of a report", i);
    }
}

/* Joins add number by number, to 65,535 disks and no further; refused ones change nothing. */
static void check_joins(void) {
    uint64_t answer = 0;
    unsigned disks = 1;
    memset(report, 0, sizeof report);
    expect(varnucht_value(add(9)) == 1, "one disk", 0);
    for (; disks < 65536; disks *= 2) {
        memcpy(other, report, sizeof other);
        memcpy(before, report, sizeof before);
        answer = varnucht_report_join(report, sizeof report, other, sizeof other);
        expect(2 * disks > 65535 || (varnucht_value(answer) == 2 * disks && at(1) == 2 * disks), "twice as many", disks);
    }
    expect(answer == VARNUCHT_REPORT_FULL && memcmp(before, report, sizeof report) == 0, "a join too many", disks);
    for (disks = 32768; disks < 65535; disks++) {
        answer = add(7);
    }
    expect(varnucht_value(answer) == 65535, "the last disk", disks);
    memcpy(before, report, sizeof before);
    expect(add(VARNUCHT_IMAGE_BYTES) == VARNUCHT_REPORT_FULL && add(0) == VARNUCHT_REPORT_FULL, "a disk too many", 0);
    expect(memcmp(before, report, sizeof report) == 0, "a full report stays", 0);
}

/* NULL is an empty slice: no disk, and no report. */
static void check_null(void) {
    memset(report, 0, sizeof report);
    expect(varnucht_report_add(NULL, 0, report, sizeof report) == UINT64_C(1) << 24 && at(1) == 1, "NULL is no disk", 0);
    memcpy(before, report, sizeof before);
    expect(varnucht_report_add(image, VARNUCHT_IMAGE_BYTES, NULL, 0) == VARNUCHT_BUFFER_TOO_SHORT, "no report", 0);
    expect(varnucht_report_join(NULL, 0, report, sizeof report) == VARNUCHT_BUFFER_TOO_SHORT, "joined to none", 0);
    expect(varnucht_report_join(report, sizeof report, NULL, 0) == VARNUCHT_BUFFER_TOO_SHORT, "none joined", 0);
    expect(varnucht_report_add(image, 0, report, sizeof report - 1) == VARNUCHT_BUFFER_TOO_SHORT, "a short one", 0);
    expect(memcmp(before, report, sizeof report) == 0, "refused calls change nothing", 0);
}

void check_reports(void) {
    memset(body, 7, sizeof body);
    check_counts();
    check_classes();
    check_numbers();
    check_joins();
    check_null();
}
