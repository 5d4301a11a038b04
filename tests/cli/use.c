/* The library from C, as the README shows it. */
#include "sfs.h"
#include <stdio.h>
#include <string.h>

static uint8_t image[16 * 4096];
static uint32_t scratch[16 * 4];

int main(void) {
    uint32_t file, count, blocks, unused;
    char text[32] = {0};
    if (sfs_format(image, sizeof image, sizeof image)) return 1;
    if (sfs_create(image, sizeof image, scratch, 64, 1, (const uint8_t *)"log", 3, 1, &file)) return 2;
    if (sfs_write(image, sizeof image, scratch, 64, file, 0, (const uint8_t *)"hello", 5, &count)) return 3;
    if (sfs_read(image, sizeof image, scratch, 64, file, 0, (uint8_t *)text, sizeof text, &count)) return 4;
    if (sfs_check(image, sizeof image, scratch, 64, &blocks, &unused)) return 5;
    printf("%s, %u of %u blocks unused\n", text, unused, blocks);
    return strcmp(text, "hello") || count != 5 || unused != 10;
}
