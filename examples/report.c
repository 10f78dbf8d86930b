/* Counts a shelf of disk images: report IMAGE... */
#include "varnucht.h"
#include <stdio.h>

/* One byte more than a disk has, so that a longer file is seen to be longer. */
static uint8_t image[VARNUCHT_IMAGE_BYTES + 1];
static uint8_t report[VARNUCHT_REPORT_BYTES];

/* Adds the image in a file. Gives 0 where it was added, and else says why not. */
static int add(const char *path) {
    FILE *file = fopen(path, "rb");
    size_t bytes = file == NULL ? 0 : fread(image, 1, sizeof image, file);
    int failed = file == NULL || ferror(file);
    if (file != NULL) {
        fclose(file);
    }
    if (failed) {
        perror(path);
        return 1;
    }
    unsigned refusal = varnucht_refusal(varnucht_report_add(image, bytes, report, sizeof report));
    if (refusal != VARNUCHT_ACCEPTED) {
        fprintf(stderr, "%s: refused %u: %s\n", path, refusal, varnucht_words(refusal));
        return 1;
    }
    return 0;
}

static void print(void) {
    printf("%10lu accepted\n", (unsigned long)varnucht_report_number(report, VARNUCHT_REPORT_ACCEPTED));
    for (unsigned refusal = 1; refusal <= 32; refusal++) {
        uint32_t disks = varnucht_report_number(report, VARNUCHT_REPORT_REFUSED + refusal);
        if (disks > 0) {
            printf("%10lu refused %u: %s\n", (unsigned long)disks, refusal, varnucht_words(refusal));
        }
    }
    for (unsigned c = 0; c < VARNUCHT_REPORT_CLASS_COUNT; c++) {
        uint32_t files = varnucht_report_number(report, VARNUCHT_REPORT_CLASSES + c);
        printf("%10lu files of %u or more sectors\n", (unsigned long)files, varnucht_report_class_first(c));
    }
    printf("%10lu sectors free\n", (unsigned long)varnucht_report_number(report, VARNUCHT_REPORT_FREE_SECTORS));
}

int main(int argc, char **argv) {
    int failed = 0;
    for (int i = 1; i < argc; i++) {
        failed |= add(argv[i]);
    }
    print();
    if (ferror(stdout) || fflush(stdout) != 0) {
        perror("report: standard output");
        return 2;
    }
    return failed;
}
