/* Every call has the type that is written here once more, and links. The checks of types are made by the compiler: a pointer
 * to a function of another type is an error in C++, and under -pedantic -Werror in C. */
#include "expect.h"

typedef uint64_t image_call(const uint8_t *, size_t);
typedef uint64_t list_call(const uint8_t *, size_t, uint8_t *, size_t);
typedef uint64_t read_call(const uint8_t *, size_t, const uint8_t *, size_t, uint8_t *, size_t);
typedef uint64_t next_call(const uint8_t *, size_t, uint32_t, uint32_t, uint32_t, uint8_t *, size_t);
typedef uint64_t start_call(const uint8_t *, size_t, const uint8_t *, size_t);
typedef uint64_t sector_call(const uint8_t *, size_t, const uint8_t *, size_t, uint32_t, uint32_t, uint32_t);
typedef uint64_t save_call(uint8_t *, size_t, uint32_t, const uint8_t *, size_t, uint32_t, uint32_t, const uint8_t *, size_t,
                           const uint8_t *, size_t, const uint8_t *, size_t, uint8_t *, size_t);
typedef uint64_t change_call(uint8_t *, size_t, const uint8_t *, size_t, uint8_t *, size_t);
typedef uint64_t join_call(uint8_t *, size_t, const uint8_t *, size_t);
typedef uint64_t many_call(uint8_t *, size_t, const uint8_t *, size_t, uint8_t *, size_t, uint8_t *, size_t);
typedef uint64_t record_call(const uint8_t *, size_t, uint32_t, const uint8_t *, size_t, uint32_t, uint32_t, const uint8_t *,
                             size_t, const uint8_t *, size_t, uint8_t *, size_t);
typedef uint64_t piece_call(uint8_t *, size_t, const uint8_t *, size_t, uint8_t *, size_t, uint8_t *, size_t);
typedef uint64_t close_call(uint8_t *, size_t, const uint8_t *, size_t, uint8_t *, size_t);
typedef uint64_t rename_call(uint8_t *, size_t, const uint8_t *, size_t, const uint8_t *, size_t, uint8_t *, size_t);

static image_call *const volatile check = varnucht_check;
static image_call *const volatile check_release = varnucht_check_release;
static list_call *const volatile list = varnucht_list;
static read_call *const volatile reading = varnucht_read;
static read_call *const volatile tree = varnucht_tree;
static start_call *const volatile opening = varnucht_open;
static next_call *const volatile next = varnucht_next;
static start_call *const volatile start = varnucht_start;
static sector_call *const volatile sector = varnucht_sector;
static save_call *const volatile save = varnucht_save;
static many_call *const volatile erasing = varnucht_erase_many;
static record_call *const volatile recording = varnucht_record_open;
static piece_call *const volatile piece = varnucht_record_add;
static close_call *const volatile closing = varnucht_record_close;
static rename_call *const volatile renaming = varnucht_rename;
static list_call *const volatile adding = varnucht_report_add;
static join_call *const volatile joining = varnucht_report_join;
static change_call *const volatile changes[] = {varnucht_erase, varnucht_hide, varnucht_show, varnucht_protect,
                                                varnucht_release, varnucht_gather};

/* With nothing lent every call is there and answers 1, slot 0, and nothing else; but of the next piece that none comes, and of
 * a report that it is too short. */
void check_prototypes(void) {
    expect(check(NULL, 0) == 1, "check of nothing", 0);
    expect(check_release(NULL, 0) == 1, "check for a release of nothing", 0);
    expect(list(NULL, 0, NULL, 0) == 1, "list of nothing", 0);
    expect(reading(NULL, 0, NULL, 0, NULL, 0) == 1, "read of nothing", 0);
    expect(tree(NULL, 0, NULL, 0, NULL, 0) == 1, "tree of nothing", 0);
    expect(opening(NULL, 0, NULL, 0) == 1, "open of nothing", 0);
    expect(next(NULL, 0, 0, 0, 0, NULL, 0) == 256 * 1600, "next of nothing", 0);
    expect(start(NULL, 0, NULL, 0) == 1, "start of nothing", 0);
    expect(sector(NULL, 0, NULL, 0, 0, 0, 0) == 1, "sector of nothing", 0);
    expect(save(NULL, 0, 0, NULL, 0, 0, 0, NULL, 0, NULL, 0, NULL, 0, NULL, 0) == 1, "save of nothing", 0);
    expect(erasing(NULL, 0, NULL, 0, NULL, 0, NULL, 0) == 1, "erase of many of nothing", 0);
    expect(renaming(NULL, 0, NULL, 0, NULL, 0, NULL, 0) == 1, "rename of nothing", 0);
    expect(recording(NULL, 0, 0, NULL, 0, 0, 0, NULL, 0, NULL, 0, NULL, 0) == 1, "a recording of nothing", 0);
    expect(piece(NULL, 0, NULL, 0, NULL, 0, NULL, 0) == 1, "a piece of nothing", 0);
    expect(closing(NULL, 0, NULL, 0, NULL, 0) == 1, "a close of nothing", 0);
    expect(adding(NULL, 0, NULL, 0) == 20, "a disk added to nothing", 0);
    expect(joining(NULL, 0, NULL, 0) == 20, "nothing joined to nothing", 0);
    for (unsigned long i = 0; i < sizeof changes / sizeof changes[0]; i++) {
        expect(changes[i](NULL, 0, NULL, 0, NULL, 0) == 1, "a change of nothing", i);
    }
}
