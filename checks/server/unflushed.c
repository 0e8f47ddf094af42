// Loaded before the C library: no file is ever brought to the disk.
#include <errno.h>

int fsync(int file) {
    (void)file;
    errno = EIO;
    return -1;
}
