/* What the checks of the header share. */
#ifndef EXPECT_H
#define EXPECT_H

#include "varnucht.h"

/* Counts what holds, and prints what does not: what it was and at which number. */
void expect(int holds, const char *what, unsigned long at);

/* The next of a row of drawn numbers, the same row in every run. */
uint64_t drawn(void);

void check_constants(void);
void check_answers(void);
void check_prototypes(void);
void check_entries(void);
void check_empty_slices(void);
void check_size_limits(void);
void check_pieces(void);
void check_reports(void);
void check_bigger(void);
void check_trees(void);
void check_gathering(void);
void check_erase_many(void);
void check_recordings(void);

#endif
