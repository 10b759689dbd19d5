/* Loaded into a process before the C library (LD_PRELOAD): notes what it does to plain files and folders, and makes it fail.
 *
 * What is done there is numbered from 1: create, write, truncate, sync, rename, link, unlink. Syncs are noted and answered, and not done: no
 * power is cut here. The environment says what happens:
 *   FAULTS_LOG=FILE     each is noted there: a line `NAME OFFSET LENGTH`, and the bytes where some are written
 *   FAULTS_KILL=K       the process is killed before number K
 *   FAULTS_KILL_MADE=K  the process is killed once number K has made a file
 *   FAULTS_SIGNAL=S     ..by this signal, and otherwise by SIGKILL
 *   FAULTS_KILL_AT=N    the process is killed once N bytes are written in all, within a write where N is
 *   FAULTS_SPACE=N      there is no space for more than N bytes in all
 *   FAULTS_FAIL=K       number K fails, with the error
 *   FAULTS_ERROR=E      ..of this number
 */
#define _GNU_SOURCE
#include <errno.h>
#include <fcntl.h>
#include <signal.h>
#include <stdarg.h>
#include <stdint.h>
#include <stdio.h>
#include <stdlib.h>
#include <sys/stat.h>
#include <sys/syscall.h>
#include <unistd.h>

static uint64_t number, total;

static uint64_t setting(const char *name, uint64_t usual)
{
    const char *text = getenv(name);
    return text ? strtoull(text, NULL, 10) : usual;
}

/* Calls of the system that this file doesn't see itself. */
static void put(int log, const void *bytes, size_t length)
{
    const char *rest = (const char *)bytes;
    while (length > 0) {
        long done = syscall(SYS_write, log, rest, length);
        if (done <= 0)
            abort();
        rest += done;
        length -= (size_t)done;
    }
}

static void note(const char *name, uint64_t offset, const void *bytes, size_t length)
{
    const char *path = getenv("FAULTS_LOG");
    if (!path)
        return;
    int log = (int)syscall(SYS_openat, AT_FDCWD, path, O_WRONLY | O_CREAT | O_APPEND, 0600);
    char line[64];
    int written = snprintf(line, sizeof line, "%s %llu %zu\n", name, (unsigned long long)offset, length);
    put(log, line, (size_t)written);
    put(log, bytes, length);
    syscall(SYS_close, log);
}

static void kill_if(int due)
{
    if (due)
        kill(getpid(), (int)setting("FAULTS_SIGNAL", SIGKILL));
}

/* Whether the next thing fails. */
static int fails(void)
{
    number++;
    kill_if(number == setting("FAULTS_KILL", 0));
    if (number != setting("FAULTS_FAIL", 0))
        return 0;
    errno = (int)setting("FAULTS_ERROR", EIO);
    return 1;
}

/* Neither a pipe nor a device, as what the tests read is. */
static int is_stored(int file)
{
    struct stat about;
    return fstat(file, &about) == 0 && (S_ISREG(about.st_mode) || S_ISDIR(about.st_mode));
}

static ssize_t store(int file, const void *bytes, size_t length, off_t offset, int positioned)
{
    if (!is_stored(file))
        return positioned ? syscall(SYS_pwrite64, file, bytes, length, offset) : syscall(SYS_write, file, bytes, length);
    if (fails())
        return -1;
    uint64_t space = setting("FAULTS_SPACE", UINT64_MAX) - total, life = setting("FAULTS_KILL_AT", UINT64_MAX) - total;
    if (space == 0 && length > 0) {
        errno = ENOSPC;
        return -1;
    }
    length = length > space ? space : length;
    length = length > life ? life : length;
    off_t place = positioned ? offset : lseek(file, 0, SEEK_CUR);
    ssize_t done = syscall(SYS_pwrite64, file, bytes, length, place);
    if (!positioned && done > 0)
        lseek(file, done, SEEK_CUR);
    note("write", (uint64_t)place, bytes, done > 0 ? (size_t)done : 0);
    total += done > 0 ? (size_t)done : 0;
    kill_if(total == setting("FAULTS_KILL_AT", UINT64_MAX));
    return done;
}

ssize_t write(int file, const void *bytes, size_t length)
{
    return store(file, bytes, length, 0, 0);
}

ssize_t pwrite(int file, const void *bytes, size_t length, off_t offset)
{
    return store(file, bytes, length, offset, 1);
}

ssize_t pwrite64(int file, const void *bytes, size_t length, off64_t offset)
{
    return store(file, bytes, length, offset, 1);
}

static int shorten(int file, off_t length)
{
    if (is_stored(file)) {
        if (fails())
            return -1;
        note("truncate", (uint64_t)length, "", 0);
    }
    return (int)syscall(SYS_ftruncate, file, length);
}

int ftruncate(int file, off_t length)
{
    return shorten(file, length);
}

int ftruncate64(int file, off64_t length)
{
    return shorten(file, length);
}

static int sync_stored(int file)
{
    struct stat about;
    if (fails())
        return -1;
    note(fstat(file, &about) == 0 && S_ISDIR(about.st_mode) ? "sync-folder" : "sync", 0, "", 0);
    return 0;
}

int fsync(int file)
{
    return sync_stored(file);
}

int fdatasync(int file)
{
    return sync_stored(file);
}

int rename(const char *from, const char *to)
{
    if (fails())
        return -1;
    note("rename", 0, "", 0);
    return (int)syscall(SYS_rename, from, to);
}

int linkat(int from_folder, const char *from, int to_folder, const char *to, int flags)
{
    if (fails())
        return -1;
    note("link", 0, "", 0);
    return (int)syscall(SYS_linkat, from_folder, from, to_folder, to, flags);
}

int link(const char *from, const char *to)
{
    return linkat(AT_FDCWD, from, AT_FDCWD, to, 0);
}

int unlink(const char *path)
{
    if (fails())
        return -1;
    note("unlink", 0, "", 0);
    return (int)syscall(SYS_unlink, path);
}

static int open_noted(const char *path, int flags, mode_t mode)
{
    if (!(flags & O_CREAT))
        return (int)syscall(SYS_openat, AT_FDCWD, path, flags, mode);
    if (fails())
        return -1;
    note("create", 0, "", 0);
    int file = (int)syscall(SYS_openat, AT_FDCWD, path, flags, mode);
    kill_if(number == setting("FAULTS_KILL_MADE", 0));
    return file;
}

/* The permissions are the third argument where a file may be made. */
#define OPEN(name)                                                          \
    int name(const char *path, int flags, ...)                              \
    {                                                                       \
        va_list rest;                                                       \
        va_start(rest, flags);                                              \
        mode_t mode = flags & O_CREAT ? (mode_t)va_arg(rest, unsigned) : 0; \
        va_end(rest);                                                       \
        return open_noted(path, flags, mode);                               \
    }

OPEN(open)
OPEN(open64)
