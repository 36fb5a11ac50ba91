/*
 * Records what a program changes in files and folders and what it brings to the disk, for host/tests/crash. It is loaded
 * before the C library (LD_PRELOAD) and stands in front of the calls that do so.
 *
 * PAVILUKO_RECORD names the file that the record is appended to; without it, nothing is recorded.
 * PAVILUKO_FAIL=K:EIO makes the Kth operation fail, K:ENOSPC too (a write is cut short first, and the operation behind it
 * fails), and K:FULL makes every one from the Kth on fail that needs room. PAVILUKO_KILL=K kills the program before its Kth.
 *
 * A record is a head, two names and the bytes written. Files and folders are named by device and inode: a number that is used
 * again comes with a new record of its creation. What is written to standard output is recorded too, so that it is known
 * what was reported when. The program has one thread.
 */
#undef _FORTIFY_SOURCE
#define _GNU_SOURCE
#include <dlfcn.h>
#include <errno.h>
#include <fcntl.h>
#include <limits.h>
#include <signal.h>
#include <stdarg.h>
#include <stdint.h>
#include <stdio.h>
#include <stdlib.h>
#include <string.h>
#include <sys/stat.h>
#include <sys/syscall.h>
#include <sys/types.h>
#include <sys/uio.h>
#include <unistd.h>

_Static_assert(sizeof(off_t) == 8, "the calls with 64 in their names are the same as those without");

/* A file or a folder. */
struct object {
    uint64_t device, inode;
};

/* What stands before the names and bytes of a record. */
struct head {
    uint32_t kind;
    /* How many operations there were, this one among them. */
    uint32_t turn;
    uint32_t name_len, other_name_len, data_len;
    uint32_t mode;
    struct object object, folder, other_folder;
    /* Where a write begins, or how long a file becomes. */
    uint64_t number;
};

enum kind {
    CREATED = 'c',
    MADE_FOLDER = 'd',
    LINKED = 'l',
    RENAMED = 'r',
    REMOVED = 'u',
    WRITTEN = 'w',
    LENGTH = 't',
    MODE = 'm',
    SYNCED = 'f',
    ALL_SYNCED = 'S',
    SAID = 'o',
    FAILED = 'e',
    /* Something that the record has no word for. */
    UNKNOWN = 'x',
};

static int record_fd = -1;
static uint32_t turn;
static uint32_t fail_at, kill_at;
static int fail_with;
static int full;

#define REAL(name) ((__typeof__(&(name)))real(#name))

static void *real(const char *name)
{
    void *found = dlsym(RTLD_NEXT, name);
    if (!found) {
        abort();
    }
    return found;
}

__attribute__((constructor)) static void begin(void)
{
    const char *path = getenv("PAVILUKO_RECORD");
    if (!path) {
        return;
    }
    int fd = REAL(open)(path, O_WRONLY | O_APPEND | O_CREAT | O_CLOEXEC, 0600);
    /* A number of its own, so that the program's files have the numbers that they would have. */
    record_fd = fd < 0 ? -1 : fcntl(fd, F_DUPFD_CLOEXEC, 500);
    if (record_fd < 0) {
        abort();
    }
    REAL(close)(fd);
    const char *fail = getenv("PAVILUKO_FAIL");
    if (fail) {
        char *word;
        fail_at = (uint32_t)strtoul(fail, &word, 10);
        full = !strcmp(word, ":FULL");
        fail_with = !strcmp(word, ":EIO") ? EIO : ENOSPC;
    }
    const char *kill_word = getenv("PAVILUKO_KILL");
    if (kill_word) {
        kill_at = (uint32_t)strtoul(kill_word, NULL, 10);
    }
}

/* ---- the record ---- */

static void put(struct head head, const char *name, const char *other_name, const void *data, size_t len)
{
    if (record_fd < 0) {
        return;
    }
    int before = errno;
    head.turn = turn;
    head.name_len = (uint32_t)strlen(name);
    head.other_name_len = (uint32_t)strlen(other_name);
    head.data_len = (uint32_t)len;
    struct iovec parts[] = {
        {&head, sizeof head},
        {(void *)name, head.name_len},
        {(void *)other_name, head.other_name_len},
        {(void *)data, len},
    };
    size_t whole = sizeof head + head.name_len + head.other_name_len + len;
    if (REAL(writev)(record_fd, parts, 4) != (ssize_t)whole) {
        abort();
    }
    errno = before;
}

static void unknown(const char *call)
{
    put((struct head){.kind = UNKNOWN}, call, "", NULL, 0);
}

static struct object of(const struct stat *st)
{
    return (struct object){st->st_dev, st->st_ino};
}

/* An open file's object. */
static struct object of_fd(int fd, struct stat *st)
{
    if (fstat(fd, st) != 0) {
        memset(st, 0, sizeof *st);
    }
    return of(st);
}

/* The object that a path names, itself and not what a link leads to. */
static struct object of_path(int at, const char *path, struct stat *st)
{
    if (fstatat(at, path, st, AT_SYMLINK_NOFOLLOW) != 0) {
        memset(st, 0, sizeof *st);
    }
    return of(st);
}

/* The folder that a path's last name is in, and that name. */
static struct object folder_of(int at, const char *path, char name[NAME_MAX + 1])
{
    char whole[PATH_MAX];
    struct stat st;
    snprintf(whole, sizeof whole, "%s", path);
    size_t len = strlen(whole);
    while (len > 1 && whole[len - 1] == '/') {
        whole[--len] = 0;
    }
    char *slash = strrchr(whole, '/');
    snprintf(name, NAME_MAX + 1, "%s", slash ? slash + 1 : whole);
    const char *folder = ".";
    if (slash) {
        slash[slash == whole] = 0;
        folder = whole;
    }
    if (fstatat(at, folder, &st, 0) != 0) {
        memset(&st, 0, sizeof st);
    }
    return of(&st);
}

/* ---- faults ---- */

/* Counts an operation that changes something or syncs. Whether it is to fail; errno is set then. */
static int fails(const char *call, int needs_room)
{
    if (record_fd < 0) {
        return 0;
    }
    turn++;
    if (turn == kill_at) {
        kill(getpid(), SIGKILL);
    }
    int now = full ? fail_at && turn >= fail_at && needs_room : turn == fail_at;
    if (!now) {
        return 0;
    }
    put((struct head){.kind = FAILED}, call, "", NULL, 0);
    errno = fail_with;
    return 1;
}

/* ---- files opened ---- */

static int is_open_to_change(int flags)
{
    return (flags & (O_CREAT | O_TRUNC)) || (flags & O_ACCMODE) != O_RDONLY;
}

/* Records what opening a file has changed. `there` says whether it was there before. */
static void opened(int fd, int flags, int there, off_t size)
{
    struct stat st;
    struct object object = of_fd(fd, &st);
    if (!S_ISREG(st.st_mode)) {
        return;
    }
    if (!there) {
        char link[64], path[PATH_MAX], name[NAME_MAX + 1];
        snprintf(link, sizeof link, "/proc/self/fd/%d", fd);
        ssize_t len = readlink(link, path, sizeof path - 1);
        path[len < 0 ? 0 : len] = 0;
        struct head head = {.kind = CREATED, .object = object, .mode = st.st_mode & 07777};
        head.folder = folder_of(AT_FDCWD, path, name);
        put(head, name, "", NULL, 0);
    } else if ((flags & O_TRUNC) && size > 0) {
        put((struct head){.kind = LENGTH, .object = object}, "", "", NULL, 0);
    }
}

static int open_really(int at, const char *path, int flags, mode_t mode, const void *how, size_t how_len)
{
#ifdef SYS_openat2
    if (how) {
        return (int)REAL(syscall)(SYS_openat2, at, path, how, how_len);
    }
#endif
    (void)how, (void)how_len;
    return REAL(openat)(at, path, flags, mode);
}

/* Opens a file by openat, or by openat2 where it says how. */
static int open_recorded(int at, const char *path, int flags, mode_t mode, const void *how, size_t how_len)
{
    if (record_fd < 0 || !is_open_to_change(flags)) {
        return open_really(at, path, flags, mode, how, how_len);
    }
    if ((flags & O_TMPFILE) == O_TMPFILE) {
        unknown("open with O_TMPFILE");
    }
    struct stat before;
    int there = fstatat(at, path, &before, flags & O_NOFOLLOW ? AT_SYMLINK_NOFOLLOW : 0) == 0;
    if (fails("open", (flags & O_CREAT) && !there)) {
        return -1;
    }
    int fd = open_really(at, path, flags, mode, how, how_len);
    if (fd >= 0) {
        opened(fd, flags, there, before.st_size);
    }
    return fd;
}

static mode_t mode_of(int flags, va_list rest)
{
    return (flags & O_CREAT) || (flags & O_TMPFILE) == O_TMPFILE ? va_arg(rest, mode_t) : 0;
}

#define OPEN(name)                                                                                                             \
    int name(const char *path, int flags, ...)                                                                                 \
    {                                                                                                                          \
        va_list rest;                                                                                                          \
        va_start(rest, flags);                                                                                                 \
        mode_t mode = mode_of(flags, rest);                                                                                    \
        va_end(rest);                                                                                                          \
        return open_recorded(AT_FDCWD, path, flags, mode, NULL, 0);                                                            \
    }
OPEN(open)
OPEN(open64)

#define OPENAT(name)                                                                                                           \
    int name(int at, const char *path, int flags, ...)                                                                         \
    {                                                                                                                          \
        va_list rest;                                                                                                          \
        va_start(rest, flags);                                                                                                 \
        mode_t mode = mode_of(flags, rest);                                                                                    \
        va_end(rest);                                                                                                          \
        return open_recorded(at, path, flags, mode, NULL, 0);                                                                  \
    }
OPENAT(openat)
OPENAT(openat64)

int creat(const char *path, mode_t mode)
{
    return open_recorded(AT_FDCWD, path, O_CREAT | O_WRONLY | O_TRUNC, mode, NULL, 0);
}

int creat64(const char *path, mode_t mode)
{
    return creat(path, mode);
}

/* ---- bytes ---- */

/* Records bytes that were written to a file; the file's own flags may bring them to the disk at once. */
static void written(int fd, off_t at, const void *data, ssize_t len)
{
    struct stat st;
    struct object object = of_fd(fd, &st);
    if (len <= 0 || !S_ISREG(st.st_mode)) {
        return;
    }
    if (at < 0) {
        at = lseek(fd, 0, SEEK_CUR) - len;
    }
    put((struct head){.kind = WRITTEN, .object = object, .number = (uint64_t)at}, "", "", data, (size_t)len);
    if (fcntl(fd, F_GETFL) & O_DSYNC) {
        put((struct head){.kind = SYNCED, .object = object}, "", "", NULL, 0);
    }
}

ssize_t write(int fd, const void *data, size_t len)
{
    __typeof__(&write) go = REAL(write);
    if (record_fd < 0 || fd == STDERR_FILENO) {
        return go(fd, data, len);
    }
    if (fd == STDOUT_FILENO) {
        ssize_t done = go(fd, data, len);
        if (done > 0) {
            put((struct head){.kind = SAID}, "", "", data, (size_t)done);
        }
        return done;
    }
    if (fails("write", 1)) {
        if (fail_with != ENOSPC || full || len < 2) {
            return -1;
        }
        len /= 2;
        fail_at++;
    }
    ssize_t done = go(fd, data, len);
    written(fd, -1, data, done);
    return done;
}

static ssize_t write_at(int fd, const void *data, size_t len, off_t at)
{
    if (fails("pwrite", 1)) {
        return -1;
    }
    ssize_t done = REAL(pwrite)(fd, data, len, at);
    written(fd, at, data, done);
    return done;
}

ssize_t pwrite(int fd, const void *data, size_t len, off_t at)
{
    return write_at(fd, data, len, at);
}

ssize_t pwrite64(int fd, const void *data, size_t len, off_t at)
{
    return write_at(fd, data, len, at);
}

/* One part at a time: a caller has to go on where less than all was written. */
ssize_t writev(int fd, const struct iovec *parts, int count)
{
    if (record_fd < 0) {
        return REAL(writev)(fd, parts, count);
    }
    for (int i = 0; i < count; i++) {
        if (parts[i].iov_len > 0) {
            return write(fd, parts[i].iov_base, parts[i].iov_len);
        }
    }
    return 0;
}

static int set_length(int fd, off_t len)
{
    struct stat st;
    if (fails("ftruncate", 0)) {
        return -1;
    }
    int said = REAL(ftruncate)(fd, len);
    if (said == 0) {
        put((struct head){.kind = LENGTH, .object = of_fd(fd, &st), .number = (uint64_t)len}, "", "", NULL, 0);
    }
    return said;
}

int ftruncate(int fd, off_t len)
{
    return set_length(fd, len);
}

int ftruncate64(int fd, off_t len)
{
    return set_length(fd, len);
}

int truncate(const char *path, off_t len)
{
    unknown("truncate");
    return REAL(truncate)(path, len);
}

/* Ways to copy without passing the bytes: there are none, so that they are written. */
ssize_t copy_file_range(int from, off64_t *from_at, int to, off64_t *to_at, size_t len, unsigned flags)
{
    (void)from, (void)from_at, (void)to, (void)to_at, (void)len, (void)flags;
    errno = ENOSYS;
    return -1;
}

ssize_t sendfile(int to, int from, off_t *from_at, size_t len)
{
    (void)to, (void)from, (void)from_at, (void)len;
    errno = ENOSYS;
    return -1;
}

ssize_t sendfile64(int to, int from, off64_t *from_at, size_t len)
{
    return sendfile(to, from, from_at, len);
}

ssize_t splice(int from, off64_t *from_at, int to, off64_t *to_at, size_t len, unsigned flags)
{
    return copy_file_range(from, from_at, to, to_at, len, flags);
}

/* ---- names ---- */

static int rename_recorded(int from_at, const char *from, int to_at, const char *to, unsigned flags)
{
    char name[NAME_MAX + 1], other_name[NAME_MAX + 1];
    struct stat st;
    if (fails("rename", 0)) {
        return -1;
    }
    struct head head = {.kind = RENAMED};
    head.folder = folder_of(from_at, from, name);
    head.other_folder = folder_of(to_at, to, other_name);
    if (flags & ~(unsigned)RENAME_NOREPLACE) {
        unknown("renameat2 with flags");
    }
    int said = REAL(renameat2)(from_at, from, to_at, to, flags);
    if (said == 0) {
        head.object = of_path(to_at, to, &st);
        put(head, name, other_name, NULL, 0);
    }
    return said;
}

int rename(const char *from, const char *to)
{
    return rename_recorded(AT_FDCWD, from, AT_FDCWD, to, 0);
}

int renameat(int from_at, const char *from, int to_at, const char *to)
{
    return rename_recorded(from_at, from, to_at, to, 0);
}

int renameat2(int from_at, const char *from, int to_at, const char *to, unsigned flags)
{
    return rename_recorded(from_at, from, to_at, to, flags);
}

int linkat(int from_at, const char *from, int to_at, const char *to, int flags)
{
    char name[NAME_MAX + 1];
    struct stat st;
    if (fails("link", 1)) {
        return -1;
    }
    int said = REAL(linkat)(from_at, from, to_at, to, flags);
    if (said == 0) {
        struct head head = {.kind = LINKED, .object = of_path(to_at, to, &st)};
        head.folder = folder_of(to_at, to, name);
        put(head, name, "", NULL, 0);
    }
    return said;
}

int link(const char *from, const char *to)
{
    return linkat(AT_FDCWD, from, AT_FDCWD, to, 0);
}

int symlinkat(const char *target, int at, const char *path)
{
    unknown("symlink");
    return REAL(symlinkat)(target, at, path);
}

int symlink(const char *target, const char *path)
{
    return symlinkat(target, AT_FDCWD, path);
}

int mkdirat(int at, const char *path, mode_t mode)
{
    char name[NAME_MAX + 1];
    struct stat st;
    if (fails("mkdir", 1)) {
        return -1;
    }
    int said = REAL(mkdirat)(at, path, mode);
    if (said == 0) {
        struct head head = {.kind = MADE_FOLDER, .object = of_path(at, path, &st)};
        head.mode = st.st_mode & 07777;
        head.folder = folder_of(at, path, name);
        put(head, name, "", NULL, 0);
    }
    return said;
}

int mkdir(const char *path, mode_t mode)
{
    return mkdirat(AT_FDCWD, path, mode);
}

int unlinkat(int at, const char *path, int flags)
{
    char name[NAME_MAX + 1];
    if (fails("unlink", 0)) {
        return -1;
    }
    struct head head = {.kind = REMOVED};
    head.folder = folder_of(at, path, name);
    int said = REAL(unlinkat)(at, path, flags);
    if (said == 0) {
        put(head, name, "", NULL, 0);
    }
    return said;
}

int unlink(const char *path)
{
    return unlinkat(AT_FDCWD, path, 0);
}

int rmdir(const char *path)
{
    return unlinkat(AT_FDCWD, path, AT_REMOVEDIR);
}

/* Modes are taken as on the disk at once. */
int fchmod(int fd, mode_t mode)
{
    struct stat st;
    int said = REAL(fchmod)(fd, mode);
    if (said == 0) {
        put((struct head){.kind = MODE, .object = of_fd(fd, &st), .mode = mode & 07777}, "", "", NULL, 0);
    }
    return said;
}

int fchmodat(int at, const char *path, mode_t mode, int flags)
{
    struct stat st;
    int said = REAL(fchmodat)(at, path, mode, flags);
    if (said == 0) {
        put((struct head){.kind = MODE, .object = of_path(at, path, &st), .mode = mode & 07777}, "", "", NULL, 0);
    }
    return said;
}

int chmod(const char *path, mode_t mode)
{
    return fchmodat(AT_FDCWD, path, mode, 0);
}

/* ---- to the disk ---- */

static int sync_recorded(int fd, const char *call)
{
    struct stat st;
    if (fails(call, 0)) {
        return -1;
    }
    int said = ((int (*)(int))real(call))(fd);
    if (said == 0) {
        put((struct head){.kind = SYNCED, .object = of_fd(fd, &st)}, "", "", NULL, 0);
    }
    return said;
}

int fsync(int fd)
{
    return sync_recorded(fd, "fsync");
}

int fdatasync(int fd)
{
    return sync_recorded(fd, "fdatasync");
}

int syncfs(int fd)
{
    if (fails("syncfs", 0)) {
        return -1;
    }
    int said = REAL(syncfs)(fd);
    if (said == 0) {
        put((struct head){.kind = ALL_SYNCED}, "", "", NULL, 0);
    }
    return said;
}

void sync(void)
{
    if (!fails("sync", 0)) {
        REAL(sync)();
        put((struct head){.kind = ALL_SYNCED}, "", "", NULL, 0);
    }
}

/* ---- calls by their number ---- */

/* Those that change something go the same way as above, or are named as unknown. */
long syscall(long number, ...)
{
    long a[6];
    va_list rest;
    va_start(rest, number);
    for (int i = 0; i < 6; i++) {
        a[i] = va_arg(rest, long);
    }
    va_end(rest);
    switch (number) {
#ifdef SYS_openat2
    case SYS_openat2:
        /* The flags stand first. */
        return open_recorded((int)a[0], (const char *)a[1], (int)*(const uint64_t *)a[2], 0, (const void *)a[2], (size_t)a[3]);
#endif
    case SYS_renameat2:
        return renameat2((int)a[0], (const char *)a[1], (int)a[2], (const char *)a[3], (unsigned)a[4]);
    case SYS_fsync:
        return fsync((int)a[0]);
    case SYS_fdatasync:
        return fdatasync((int)a[0]);
    case SYS_syncfs:
        return syncfs((int)a[0]);
    case SYS_copy_file_range:
    case SYS_sendfile:
    case SYS_splice:
        errno = ENOSYS;
        return -1;
    case SYS_openat:
        if (is_open_to_change((int)a[2])) {
            unknown("openat by number");
        }
        break;
    case SYS_write:
    case SYS_writev:
    case SYS_pwrite64:
    case SYS_ftruncate:
    case SYS_fallocate:
    case SYS_renameat:
    case SYS_linkat:
    case SYS_symlinkat:
    case SYS_unlinkat:
    case SYS_mkdirat:
        unknown("a changing call by number");
        break;
    default:
        break;
    }
    return REAL(syscall)(number, a[0], a[1], a[2], a[3], a[4], a[5]);
}
