/* The library from C and from C++ with NULL wherever a length is 0: each call answers as it does for any empty slice. */
#include "sfs.h"
#include <stdio.h>
#include <string.h>

#define ROOT 1
#define WORDS (16 * 4)
#define IMAGE image, sizeof image, scratch, WORDS
#define NO_NAME NULL, 0
#define NAME(text) (const uint8_t *)text, sizeof text - 1

static uint8_t image[16 * 4096], before[16 * 4096];
static uint32_t scratch[WORDS];
static int asked, wrong;

static void is(const char *call, uint32_t expected, uint32_t got) {
    asked++;
    if (expected == got && memcmp(image, before, sizeof image) == 0) return;
    printf("%s: expected %u, got %u (%s), or the image changed\n", call, expected, got, sfs_text(got));
    wrong++;
}
#define IS(expected, call) is(#call, expected, call)

/* Each call but format on what is lent, where something is missing. */
static void refused(uint32_t expected, uint8_t *lent, size_t len, uint32_t *words, size_t words_len) {
    uint32_t a, b, c, d;
    uint8_t byte = 0, entry[260];
    IS(expected, sfs_check(lent, len, words, words_len, &a, &b));
    IS(expected, sfs_metadata(lent, len, words, words_len, ROOT, &a, &b, &c, &d));
    IS(expected, sfs_read(lent, len, words, words_len, ROOT, 0, &byte, 1, &a));
    IS(expected, sfs_write(lent, len, words, words_len, ROOT, 0, &byte, 1, &a));
    IS(expected, sfs_resize(lent, len, words, words_len, ROOT, 0));
    IS(expected, sfs_create(lent, len, words, words_len, ROOT, NAME("x"), 1, &a));
    IS(expected, sfs_link(lent, len, words, words_len, ROOT, NAME("x"), ROOT));
    IS(expected, sfs_unlink(lent, len, words, words_len, ROOT, NAME("x")));
    IS(expected, sfs_move(lent, len, words, words_len, ROOT, NAME("x"), ROOT, NAME("y")));
    IS(expected, sfs_find(lent, len, words, words_len, ROOT, NAME("x"), &a));
    IS(expected, sfs_entry(lent, len, words, words_len, ROOT, 0, entry));
}

/* Empty buffers and names on a card that has the file. */
static void no_bytes(uint32_t file) {
    uint32_t a = 7;
    IS(SFS_DONE, sfs_read(IMAGE, file, 0, NULL, 0, &a));
    is("bytes read", 0, a);
    a = 7;
    IS(SFS_DONE, sfs_write(IMAGE, file, 0, NULL, 0, &a));
    is("bytes written", 0, a);
    IS(SFS_BAD_NAME, sfs_create(IMAGE, ROOT, NO_NAME, 1, &a));
    IS(SFS_BAD_NAME, sfs_link(IMAGE, ROOT, NO_NAME, file));
    IS(SFS_ENTRY_NOT_FOUND, sfs_unlink(IMAGE, ROOT, NO_NAME));
    IS(SFS_ENTRY_NOT_FOUND, sfs_move(IMAGE, ROOT, NO_NAME, ROOT, NAME("y")));
    IS(SFS_BAD_NAME, sfs_move(IMAGE, ROOT, NAME("log"), ROOT, NO_NAME));
    IS(SFS_ENTRY_NOT_FOUND, sfs_find(IMAGE, ROOT, NO_NAME, &a));
    is("the name in no entry", 0, (uint32_t)sfs_entry_name(NULL, 0));
}

/* The cache with no device, no data, no slots or no buffer; an empty list of slots is started as any other. */
static void no_cache(void) {
    static uint8_t data[2 * 4096], buf[4096];
    uint32_t slots[6];
    sfs_cache_start(NULL, 0);
    sfs_cache_start(slots, 6);
    IS(SFS_INVALID_PARAM, sfs_cache_read(NULL, 0, data, sizeof data, slots, 6, 0, buf, sizeof buf));
    IS(SFS_INVALID_PARAM, sfs_cache_read(image, sizeof image, NULL, 0, slots, 6, 0, buf, sizeof buf));
    IS(SFS_INVALID_PARAM, sfs_cache_read(image, sizeof image, data, sizeof data, NULL, 0, 0, buf, sizeof buf));
    IS(SFS_INVALID_PARAM, sfs_cache_read(image, sizeof image, data, sizeof data, slots, 6, 0, NULL, 0));
    IS(SFS_INVALID_PARAM, sfs_cache_write(NULL, 0, data, sizeof data, slots, 6, 0, buf, sizeof buf));
    IS(SFS_INVALID_PARAM, sfs_cache_write(image, sizeof image, NULL, 0, slots, 6, 0, buf, sizeof buf));
    IS(SFS_INVALID_PARAM, sfs_cache_write(image, sizeof image, data, sizeof data, NULL, 0, 0, buf, sizeof buf));
    IS(SFS_INVALID_PARAM, sfs_cache_write(image, sizeof image, data, sizeof data, slots, 6, 0, NULL, 0));
    IS(SFS_INVALID_PARAM, sfs_cache_sync(image, sizeof image, NULL, 0, slots, 6));
    IS(SFS_INVALID_PARAM, sfs_cache_sync(image, sizeof image, data, sizeof data, NULL, 0));
    /* No slot is used, so that no block is asked of a device of no bytes. */
    IS(SFS_DONE, sfs_cache_sync(NULL, 0, data, sizeof data, slots, 6));
}

int main(void) {
    uint32_t file = 0, count = 0;
    if (sfs_format(image, sizeof image, sizeof image)) return 1;
    if (sfs_create(IMAGE, ROOT, NAME("log"), 1, &file)) return 1;
    if (sfs_write(IMAGE, file, 0, NAME("hello"), &count)) return 1;
    memcpy(before, image, sizeof image);
    IS(SFS_INVALID_PARAM, sfs_format(NULL, 0, 65536));
    refused(SFS_DAMAGED, NULL, 0, scratch, WORDS);
    refused(SFS_SCRATCH_SHORT, image, sizeof image, NULL, 0);
    no_bytes(file);
    no_cache();
    printf("%d answers, %d wrong\n", asked, wrong);
    return wrong != 0;
}
