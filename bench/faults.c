/* Loaded before the C library: numbers the calls of the system that the program makes, and lets one
 * of them fail, do half of its work, or be the last one before the power is cut.
 *
 * FAULT_CALL  the number of that call, from 0; none where it is left out
 * FAULT_KIND  EIO, ENOSPC or EINTR: the call does nothing and fails so. LOST: a sync that fails, and
 *             what it should have written is never written, though reads give it. SHORT: a read or
 *             write moves half of its bytes. KILL, OLD, ODD, EVEN, A5: the program is killed before
 *             the call, and of the bytes that were written and not synced the disk has all, none,
 *             those of each second write, those of the others, or A5 in place of each.
 * FAULT_FORGETFUL  whether the system forgets what it keeps of the file where it is asked to
 * FAULT_LOG   a file, into which the name of each call is written
 *
 * The disk that it plays keeps one file, the one of the name 0.odb: `disk` is what the disk has, and
 * `writer` says of each byte which write brought it, if no sync did. At the end of the program, also
 * where it isn't killed, the file is made what the disk has.
 */
#define _GNU_SOURCE
#include <dlfcn.h>
#include <errno.h>
#include <fcntl.h>
#include <poll.h>
#include <signal.h>
#include <stdarg.h>
#include <stdio.h>
#include <stdlib.h>
#include <string.h>
#include <sys/file.h>
#include <sys/stat.h>
#include <unistd.h>

#define MOST (4 << 20)

static long chosen = -1, number, writes;
static const char *kind = "";
static int log_file = -1, open_file = -1, held = -1, is_forgetful;
static unsigned char disk[MOST], now[MOST];
static long writer[MOST];
static off_t disk_length;

#define REAL(name) ((__typeof__(&name))dlsym(RTLD_NEXT, #name))

static int is_kind(const char *wanted)
{
    return strcmp(kind, wanted) == 0;
}

__attribute__((constructor)) static void begin(void)
{
    const char *call = getenv("FAULT_CALL"), *log = getenv("FAULT_LOG");
    if (getenv("FAULT_KIND"))
        kind = getenv("FAULT_KIND");
    if (call)
        chosen = atol(call);
    is_forgetful = getenv("FAULT_FORGETFUL") != NULL;
    if (log)
        log_file = fcntl(REAL(open)(log, O_WRONLY | O_CREAT | O_TRUNC, 0600), F_DUPFD_CLOEXEC, 100);
}

static off_t length_of(int file)
{
    struct stat found;
    return fstat(file, &found) == 0 ? found.st_size : 0;
}

/* What the file holds as it reads. */
static off_t read_now(void)
{
    off_t length = length_of(held);
    return length <= MOST && REAL(pread)(held, now, length, 0) == length ? length : 0;
}

/* Whether the disk got the byte that this write brought, as the power was cut. */
static int has_come(long write)
{
    return is_kind("KILL") || (is_kind("ODD") && write % 2 == 1) || (is_kind("EVEN") && write % 2 == 0);
}

/* Makes the file what the disk has, with some of what was written and not synced. */
static void cut_power(void)
{
    if (held < 0)
        return;
    off_t length = read_now(), end = disk_length;
    for (off_t at = 0; at < length; at++) {
        if (writer[at] && (has_come(writer[at]) || is_kind("A5"))) {
            disk[at] = has_come(writer[at]) ? now[at] : 0xA5;
            if (end < at + 1)
                end = at + 1;
        }
    }
    if (REAL(pwrite)(held, disk, end, 0) != end || REAL(ftruncate)(held, end) != 0)
        abort();
}

__attribute__((destructor)) static void end(void)
{
    if (chosen >= 0 && is_kind("LOST"))
        cut_power();
}

/* Numbers a call. 1 where it has to fail, 2 where it has to do half. */
static int is_chosen(const char *name)
{
    if (log_file >= 0)
        dprintf(log_file, "%s\n", name);
    if (number++ != chosen)
        return 0;
    if (is_kind("EIO") || is_kind("LOST"))
        errno = EIO;
    else if (is_kind("ENOSPC"))
        errno = ENOSPC;
    else if (is_kind("EINTR"))
        errno = EINTR;
    else if (is_kind("SHORT"))
        return 2;
    else {
        cut_power();
        raise(SIGKILL);
    }
    return 1;
}

int open(const char *path, int flags, ...)
{
    mode_t mode = 0;
    if (flags & O_CREAT) {
        va_list rest;
        va_start(rest, flags);
        mode = va_arg(rest, mode_t);
        va_end(rest);
    }
    if (is_chosen("open") == 1)
        return -1;
    int file = REAL(open)(path, flags, mode);
    if (file >= 0 && strcmp(path, "0.odb") == 0) {
        open_file = file;
        held = fcntl(file, F_DUPFD_CLOEXEC, 100);
        disk_length = read_now();
        memcpy(disk, now, disk_length);
    }
    return file;
}

int statx(int folder, const char *path, int flags, unsigned mask, struct statx *found)
{
    return is_chosen("statx") == 1 ? -1 : REAL(statx)(folder, path, flags, mask, found);
}

int flock(int file, int how)
{
    return is_chosen("flock") == 1 ? -1 : REAL(flock)(file, how);
}

static int sync_by(int (*sync)(int), const char *name, int file)
{
    int failed = is_chosen(name) == 1;
    if (!failed && sync(file) != 0)
        return -1;
    if (file == open_file && (!failed || is_kind("LOST"))) {
        off_t length = read_now();
        if (!failed)
            disk_length = length;
        for (off_t at = 0; at < length; at++) {
            if (writer[at] && !failed)
                disk[at] = now[at];
            writer[at] = 0;
        }
    }
    return failed ? -1 : 0;
}

int fsync(int file)
{
    return sync_by(REAL(fsync), "fsync", file);
}

int fdatasync(int file)
{
    return sync_by(REAL(fdatasync), "fdatasync", file);
}

int posix_fadvise(int file, off_t at, off_t length, int advice)
{
    if (is_chosen("posix_fadvise") == 1)
        return errno;
    if (file == open_file && advice == POSIX_FADV_DONTNEED && is_forgetful) {
        off_t end = read_now();
        for (off_t place = 0; place < end; place++)
            if (!writer[place])
                now[place] = place < disk_length ? disk[place] : 0;
        if (REAL(pwrite)(held, now, end, 0) != end)
            abort();
    }
    return REAL(posix_fadvise)(file, at, length, advice);
}

ssize_t pwrite(int file, const void *bytes, size_t count, off_t at)
{
    int answer = is_chosen("pwrite");
    if (answer == 1)
        return -1;
    if (answer == 2 && count > 1)
        count /= 2;
    if (file == open_file && at + (off_t)count <= MOST) {
        writes++;
        for (size_t byte = 0; byte < count; byte++)
            writer[at + byte] = writes;
    }
    return REAL(pwrite)(file, bytes, count, at);
}

ssize_t pread(int file, void *bytes, size_t count, off_t at)
{
    int answer = is_chosen("pread");
    if (answer == 1)
        return -1;
    return REAL(pread)(file, bytes, answer == 2 && count > 1 ? count / 2 : count, at);
}

ssize_t write(int file, const void *bytes, size_t count)
{
    int answer = is_chosen("write");
    if (answer == 1)
        return -1;
    return REAL(write)(file, bytes, answer == 2 && count > 1 ? count / 2 : count);
}

ssize_t read(int file, void *bytes, size_t count)
{
    int answer = is_chosen("read");
    if (answer == 1)
        return -1;
    return REAL(read)(file, bytes, answer == 2 && count > 1 ? count / 2 : count);
}

int ftruncate(int file, off_t length)
{
    return is_chosen("ftruncate") == 1 ? -1 : REAL(ftruncate)(file, length);
}
