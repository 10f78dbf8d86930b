/* NULL with length 0 is an empty slice: in every place of every call, and with the same result as any other empty slice. */
#include <string.h>

#include "expect.h"

/* `accepted` has one file, TUNES. Each call runs on `image`, which is made like it before. */
static uint8_t accepted[VARNUCHT_IMAGE_BYTES], image[VARNUCHT_IMAGE_BYTES], other[VARNUCHT_IMAGE_BYTES];
static uint8_t out[VARNUCHT_LISTING_BYTES], list[VARNUCHT_SAVE_LIST_BYTES];
static const uint8_t tunes[] = {'T', 'U', 'N', 'E', 'S'}, hymns[] = {'H', 'Y', 'M', 'N', 'S'}, bytes[11] = {1, 2, 3};

/* A slice that is lent whole, or left out: NULL, or a pointer to bytes of which none are lent. */
struct slice {
    uint8_t *at;
    size_t len;
};

enum { WHOLE, NULL_SLICE, NO_BYTES };

static struct slice lent(uint8_t *at, size_t len, int how) {
    struct slice s = {at, len};
    if (how != WHOLE) {
        s.len = 0;
    }
    if (how == NULL_SLICE) {
        s.at = NULL;
    }
    return s;
}

typedef uint64_t call(const int *how);
typedef uint64_t change(uint8_t *, size_t, const uint8_t *, size_t, uint8_t *, size_t);

/* One function for each call: how[k] says how its slice k is lent. A slice that is only read lies in bytes of its own. */
static uint8_t name_bytes[5], new_bytes[5], exec_bytes[3], info_bytes[11], body_bytes[600];

static uint64_t on_check(const int *how) {
    struct slice i = lent(image, sizeof image, how[0]);
    return varnucht_check(i.at, i.len);
}

static uint64_t on_check_release(const int *how) {
    struct slice i = lent(image, sizeof image, how[0]);
    return varnucht_check_release(i.at, i.len);
}

static uint64_t on_list(const int *how) {
    struct slice i = lent(image, sizeof image, how[0]), o = lent(out, sizeof out, how[1]);
    return varnucht_list(i.at, i.len, o.at, o.len);
}

static uint64_t on_read(const int *how) {
    struct slice i = lent(image, sizeof image, how[0]), n = lent(name_bytes, 5, how[1]), o = lent(out, sizeof out, how[2]);
    return varnucht_read(i.at, i.len, n.at, n.len, o.at, o.len);
}

static uint64_t on_open(const int *how) {
    struct slice i = lent(image, sizeof image, how[0]), n = lent(name_bytes, 5, how[1]);
    return varnucht_open(i.at, i.len, n.at, n.len);
}

static uint64_t on_start(const int *how) {
    struct slice i = lent(image, sizeof image, how[0]), n = lent(name_bytes, 5, how[1]);
    return varnucht_start(i.at, i.len, n.at, n.len);
}

static uint64_t on_sector(const int *how) {
    struct slice one = lent(image, sizeof image, how[0]), two = lent(other, sizeof other, how[1]);
    return varnucht_sector(one.at, one.len, two.at, two.len, 2, 4, 1);
}

static uint64_t on_save(const int *how) {
    struct slice i = lent(image, sizeof image, how[0]), n = lent(new_bytes, 5, how[1]), e = lent(exec_bytes, 3, how[2]);
    struct slice k = lent(info_bytes, 11, how[3]), b = lent(body_bytes, 600, how[4]), l = lent(list, sizeof list, how[5]);
    return varnucht_save(i.at, i.len, 19, n.at, n.len, 1, 32768, e.at, e.len, k.at, k.len, b.at, b.len, l.at, l.len);
}

static uint64_t on_rename(const int *how) {
    struct slice i = lent(image, sizeof image, how[0]), n = lent(name_bytes, 5, how[1]), m = lent(new_bytes, 5, how[2]);
    struct slice l = lent(list, sizeof list, how[3]);
    return varnucht_rename(i.at, i.len, n.at, n.len, m.at, m.len, l.at, l.len);
}

static uint64_t on_change(change *made, const int *how) {
    struct slice i = lent(image, sizeof image, how[0]), n = lent(name_bytes, 5, how[1]), l = lent(list, sizeof list, how[2]);
    return made(i.at, i.len, n.at, n.len, l.at, l.len);
}

static uint64_t on_erase(const int *how) { return on_change(varnucht_erase, how); }
static uint64_t on_hide(const int *how) { return on_change(varnucht_hide, how); }
static uint64_t on_show(const int *how) { return on_change(varnucht_show, how); }
static uint64_t on_protect(const int *how) { return on_change(varnucht_protect, how); }
static uint64_t on_release(const int *how) { return on_change(varnucht_release, how); }

/* Each call with its slices, and the refusal that each gives when it alone is empty; 0: accepted. The next piece refuses
 * nothing: pieces.c has it. reports.c has the calls on reports, tree.c the tree, gather.c the gather, erase_many.c the erase
 * of many and recording.c the calls of a recording. */
static const struct {
    const char *name;
    call *run;
    int slices;
    unsigned refusals[6];
} calls[] = {
    {"check", on_check, 1, {1}},
    {"check_release", on_check_release, 1, {1}},
    {"list", on_list, 2, {1, 20}},
    {"read", on_read, 3, {1, 12, 20}},
    {"open", on_open, 2, {1, 12}},
    {"start", on_start, 2, {1, 12}},
    {"sector", on_sector, 2, {1, 1}},
    {"save", on_save, 6, {1, 12, 0, 0, 0, 20}},
    {"erase", on_erase, 3, {1, 12, 20}},
    {"rename", on_rename, 4, {1, 12, 12, 20}},
    {"hide", on_hide, 3, {1, 12, 20}},
    {"show", on_show, 3, {1, 12, 20}},
    {"protect", on_protect, 3, {1, 12, 20}},
    {"release", on_release, 3, {1, 12, 20}},
};

/* All buffers as before a call. */
static void lay_out(void) {
    memcpy(image, accepted, sizeof image);
    memset(out, 170, sizeof out);
    memset(list, 170, sizeof list);
}

static int filled(const uint8_t *at, size_t len) {
    for (size_t k = 0; k < len; k++) {
        if (at[k] != 170) {
            return 0;
        }
    }
    return 1;
}

static int untouched(void) {
    return memcmp(image, accepted, sizeof image) == 0 && filled(out, sizeof out) && filled(list, sizeof list);
}

/* One call with one slice empty, lent as NULL and then as no bytes: the refusal, and the same image and list after both. */
static void check_slice(size_t c, int slice) {
    static uint8_t image_after[VARNUCHT_IMAGE_BYTES], list_after[VARNUCHT_SAVE_LIST_BYTES];
    int how[6] = {WHOLE, WHOLE, WHOLE, WHOLE, WHOLE, WHOLE};
    unsigned refusal = calls[c].refusals[slice];
    unsigned long at = (unsigned long)slice;
    lay_out();
    how[slice] = NULL_SLICE;
    uint64_t with_null = calls[c].run(how);
    expect(varnucht_refusal(with_null) == refusal, calls[c].name, at);
    expect(refusal == 0 || with_null == refusal, "a refusal with nothing beside it", at);
    expect((refusal == 0) != untouched(), "a refused call changes nothing, an accepted one does", at);
    memcpy(image_after, image, sizeof image);
    memcpy(list_after, list, sizeof list);
    lay_out();
    how[slice] = NO_BYTES;
    expect(calls[c].run(how) == with_null, "NULL and no bytes get one answer", at);
    expect(memcmp(image_after, image, sizeof image) == 0, "NULL and no bytes leave one image", at);
    expect(memcmp(list_after, list, sizeof list) == 0, "NULL and no bytes leave one list", at);
}

static void check_call(size_t c) {
    int whole[6] = {WHOLE, WHOLE, WHOLE, WHOLE, WHOLE, WHOLE};
    lay_out();
    expect(varnucht_refusal(calls[c].run(whole)) == 0, "accepted with every slice lent", (unsigned long)c);
    for (int slice = 0; slice < calls[c].slices; slice++) {
        check_slice(c, slice);
    }
}

/* Where nothing has to be put into a buffer, NULL is long enough: an empty disk's listing, an empty body. */
static void check_nothing_to_put(void) {
    memset(image, 0, sizeof image);
    uint64_t answer = varnucht_list(image, sizeof image, NULL, 0);
    expect(varnucht_value(answer) == 0 && varnucht_free(answer) == 1560, "an empty listing", 0);
    answer = varnucht_save(image, sizeof image, 16, tunes, 5, 0, 32768, NULL, 0, NULL, 0, NULL, 0, list, sizeof list);
    expect(varnucht_refusal(answer) == 0 && varnucht_value(answer) == 2, "an empty body is saved", 0);
    expect(varnucht_read(image, sizeof image, tunes, 5, NULL, 0) == 0, "an empty body is read", 0);
    expect(varnucht_check(image, sizeof image) == 0, "the disk is accepted", 0);
}

void check_empty_slices(void) {
    memcpy(name_bytes, tunes, 5);
    memcpy(new_bytes, hymns, 5);
    memcpy(exec_bytes, bytes, 3);
    memcpy(info_bytes, bytes, 11);
    memset(body_bytes, 7, sizeof body_bytes);
    uint64_t answer = varnucht_save(accepted, sizeof accepted, 19, tunes, 5, 1, 32768, bytes, 3, bytes, 11, body_bytes, 600, list,
                                    sizeof list);
    expect(varnucht_refusal(answer) == 0, "a file to begin with", 0);
    for (size_t c = 0; c < sizeof calls / sizeof calls[0]; c++) {
        check_call(c);
    }
    check_nothing_to_put();
}
