/* The header alone, from C and from C++: its version, and each answer by its number, name and text, for comparison with the crate's.
 * No call is made, so it needs no archive. */
#include "sfs.h"
#include <stdio.h>

#define SHOW(answer) printf("%d %s %s\n", answer, #answer, sfs_text(answer))

int main(void) {
    char version[32];
    snprintf(version, sizeof version, "%d.%d.%d", SFS_VERSION_MAJOR, SFS_VERSION_MINOR, SFS_VERSION_PATCH);
    printf("%s %s\n", SFS_VERSION, version);
    SHOW(SFS_DONE);
    SHOW(SFS_SCRATCH_SHORT);
    SHOW(SFS_WRONG_FS);
    SHOW(SFS_DAMAGED);
    SHOW(SFS_NO_INODE);
    SHOW(SFS_NOT_FILE);
    SHOW(SFS_NOT_DIR);
    SHOW(SFS_IS_DIR);
    SHOW(SFS_BAD_NAME);
    SHOW(SFS_ENTRY_EXIST);
    SHOW(SFS_ENTRY_NOT_FOUND);
    SHOW(SFS_DIR_NOT_EMPTY);
    SHOW(SFS_INVALID_PARAM);
    SHOW(SFS_TOO_MANY_LINKS);
    SHOW(SFS_NO_DEVICE_SPACE);
    printf("%s\n", sfs_text(SFS_NO_DEVICE_SPACE + 1));
    return 0;
}
