/* Ends a process with status 99 in its first call of lchown or fchmod: STOP_IN=lchown LD_PRELOAD=./stop_in_call.so PROGRAM.
 * The call isn't made. */
#define _GNU_SOURCE
#include <fcntl.h>
#include <stdlib.h>
#include <string.h>
#include <sys/stat.h>
#include <sys/syscall.h>
#include <unistd.h>

static void stop_in(const char *call) {
    const char *wanted = getenv("STOP_IN");
    if (wanted && strcmp(wanted, call) == 0) _exit(99);
}

int lchown(const char *path, uid_t owner, gid_t group) {
    stop_in("lchown");
    return fchownat(AT_FDCWD, path, owner, group, AT_SYMLINK_NOFOLLOW);
}

int fchmod(int file, mode_t mode) {
    stop_in("fchmod");
    return (int)syscall(SYS_fchmod, file, mode);
}
