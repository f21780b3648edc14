/* Interrupts one call on a file of the program into which this library is loaded (LD_PRELOAD). The environment variable
   CALL has the number of this call, counted from 1 (0 interrupts none). HOW has the way:
     before, after    the process is killed before the call, or after it
     one, half, most  it is killed after a write has written one byte, half of its bytes, or all but one
     last             it is killed after a write has written only the last half of its bytes, as a host crash may leave
                      them
     EIO and others   the call fails with this error, and does nothing (but a close closes the file)
     EIO+ and others  this call and all later calls on that file fail with this error
     short            a write writes half of its bytes, and all later writes fail with ENOSPC
     part             a read or a write moves half of its bytes, and returns their number
     grown            another process has appended four bytes to the file before the call
     there            another process has created the file with four bytes before it is opened
     stranger         another process has renamed the file to NAME.old before the call, and created another one as NAME
     shrunk           another process has truncated the file to ten bytes before the call
   If CALLS is set, a run that doesn't end is killed after a minute. The file that CALLS names gets one line per call,
   with the call and the file's name, and the line `cut HOW` after the call that is interrupted. An open is `make` if it
   may create the file, else `open` for reading, `over` for writing and `hold` for both. `dup` duplicates a descriptor,
   `statx` looks at a name, and `fstat` at an open file. Standard input, output and error are not counted. If LOCKS is
   set, each of image, status, journal, trace and out that another process could lock at the time of a call adds a line
   `free NAME` after the call's.

   The file that RECORD names gets what happened to files, for lost.py: a line `WHAT AT SIZE NAME` for each file that
   was created (`make`), each write and length (`write`, `length`), each sync, and each print on standard output. The
   SIZE bytes that were written follow the line. WRONG makes a mutant of a right program. Mutants for lost.py record
   other syncs of the file or directory NAME than the program made:
     never NAME       none is recorded
     once NAME        only the first one is
     late NAME        all but the first one are
     early NAME       each is recorded before the changes that it was to make durable.
   Other mutants work differently:
     without CALL NAME   this call (fsync, ftruncate or flock) on that file is left out
     lossy NAME          a write to that file that writes only half of its bytes returns the number of all
     unlock NAME         the file is unlocked before each write to it
     cached NAME         all bytes of that file except the first are lost if its close fails. */
#define _GNU_SOURCE
#include <errno.h>
#include <fcntl.h>
#include <signal.h>
#include <stdarg.h>
#include <stdio.h>
#include <stdlib.h>
#include <string.h>
#include <sys/file.h>
#include <sys/stat.h>
#include <sys/syscall.h>
#include <unistd.h>

enum { FILES = 64, LENGTH = 4096 };

static const char *calls, *how, *recorded, *locks;
/* The value of WRONG, and what follows its first word. */
static const char *fault, *faulty;
static unsigned long called, nth;
static int is_cut, is_full;
/* The file on which all calls fail. */
static char broken[LENGTH];
static char names[FILES][LENGTH];

static const char *given(const char *name) {
    const char *text = getenv(name);
    return text ? text : "";
}

__attribute__((constructor)) static void begin(void) {
    nth = strtoul(given("CALL"), NULL, 10);
    how = given("HOW");
    calls = given("CALLS");
    recorded = given("RECORD");
    locks = given("LOCKS");
    fault = given("WRONG");
    faulty = strchr(fault, ' ') ? strchr(fault, ' ') + 1 : "";
    if (*calls) alarm(60);
}

/* Ends the process because it did something that this library doesn't support. */
static void die(const char *what, const char *name) {
    dprintf(STDERR_FILENO, "cut.c: %s: %s\n", what, name);
    abort();
}

static int is(const char *way) { return strcmp(how, way) == 0; }

/* Calls by name are intercepted, so this file makes its own calls by number. */
static void list(const char *what, const char *name) {
    if (!*calls) return;
    int file = (int)syscall(SYS_openat, AT_FDCWD, calls, O_WRONLY | O_CREAT | O_APPEND, 0644);
    if (file < 0 || dprintf(file, "%s %s\n", what, name) < 0 || syscall(SYS_close, file) < 0) abort();
}

static void record(const char *what, const char *name, off_t at, const void *bytes, size_t size) {
    if (!*recorded) return;
    int file = (int)syscall(SYS_openat, AT_FDCWD, recorded, O_WRONLY | O_CREAT | O_APPEND, 0644);
    if (file < 0 || dprintf(file, "%s %lld %zu %s\n", what, (long long)at, size, name) < 0) abort();
    if (syscall(SYS_write, file, bytes, size) != (long)size || syscall(SYS_close, file) < 0) abort();
}

static int is_wrong(const char *way) {
    size_t length = strlen(way);
    return strncmp(fault, way, length) == 0 && fault[length] == ' ';
}

/* Whether the next sync was already recorded. */
static int is_ahead;

/* Returns true if this change is one of the file, or in the directory, of which the mutant records wrong syncs. */
static int is_faulty(const char *what, const char *name) {
    if (strcmp(what, "make") != 0) return strcmp(name, faulty) == 0;
    const char *end = strrchr(name, '/');
    size_t length = end ? (size_t)(end - name) : 1;
    return strlen(faulty) == length && strncmp(end ? name : ".", faulty, length) == 0;
}

static void record_change(const char *what, const char *name, off_t at, const void *bytes, size_t size) {
    if (is_wrong("early") && is_faulty(what, name) && !is_ahead) {
        is_ahead = 1;
        record("sync", faulty, 0, "", 0);
    }
    record(what, name, at, bytes, size);
}

static void record_sync(const char *name) {
    static unsigned long number;
    if (strcmp(name, faulty) == 0) {
        int was_ahead = is_ahead;
        is_ahead = 0;
        number++;
        if (is_wrong("never") || was_ahead) return;
        if ((is_wrong("once") && number > 1) || (is_wrong("late") && number == 1)) return;
    }
    record("sync", name, 0, "", 0);
}

/* Returns true if the mutant leaves this call out. */
static int is_left_out(const char *what, const char *name) {
    size_t length = strlen(what);
    return is_wrong("without") && strncmp(faulty, what, length) == 0 && faulty[length] == ' ' &&
           strcmp(faulty + length + 1, name) == 0;
}

static void end(void) {
    syscall(SYS_kill, getpid(), SIGKILL);
    for (;;) pause();
}

/* Returns the error with which the call fails, or 0. */
static int error(void) {
    static const struct {
        const char *name;
        int number;
    } errors[] = {
        {"EACCES", EACCES}, {"EDQUOT", EDQUOT}, {"EFBIG", EFBIG},   {"EINTR", EINTR},   {"EINVAL", EINVAL},
        {"EIO", EIO},       {"EMFILE", EMFILE}, {"ENFILE", ENFILE}, {"ENOLCK", ENOLCK}, {"ENOMEM", ENOMEM},
        {"ENOSPC", ENOSPC}, {"EROFS", EROFS},   {"ESTALE", ESTALE}, {"EAGAIN", EAGAIN}, {"EOPNOTSUPP", EOPNOTSUPP},
        {"ETIMEDOUT", ETIMEDOUT}, {"ENOENT", ENOENT}, {"ENOSYS", ENOSYS}, {"ENOTDIR", ENOTDIR}, {"EPERM", EPERM},
    };
    size_t length = strcspn(how, "+");
    for (size_t each = 0; each < sizeof errors / sizeof *errors; each++)
        if (strlen(errors[each].name) == length && strncmp(how, errors[each].name, length) == 0)
            return errors[each].number;
    return 0;
}

/* Adds a line for each of the files that another process could lock now. */
static void try_locks(void) {
    static const char *const files[] = {"image", "status", "journal", "trace", "out"};
    for (size_t each = 0; *locks && each < sizeof files / sizeof *files; each++) {
        int file = (int)syscall(SYS_openat, AT_FDCWD, files[each], O_RDONLY | O_CLOEXEC);
        if (file < 0) continue;
        if (syscall(SYS_flock, file, LOCK_EX | LOCK_NB) == 0) list("free", files[each]);
        syscall(SYS_close, file);
    }
}

/* Appends four bytes to a file, as another process, after creating it if these flags say so. */
static void grow(const char *name, int flags) {
    int file = (int)syscall(SYS_openat, AT_FDCWD, name, O_WRONLY | O_APPEND | flags, 0644);
    if (file >= 0 && (syscall(SYS_write, file, "more", 4) != 4 || syscall(SYS_close, file) < 0)) abort();
}

/* Does what another process does before the call that is interrupted. */
static void interfere(const char *name) {
    char old[LENGTH];
    if (is("grown")) grow(name, 0);
    if (is("there")) grow(name, O_CREAT);
    if (is("shrunk") && syscall(SYS_truncate, name, 10) < 0) abort();
    if (!is("stranger") || snprintf(old, sizeof old, "%s.old", name) >= LENGTH) return;
    syscall(SYS_renameat, AT_FDCWD, name, AT_FDCWD, old);
    grow(name, O_CREAT);
}

/* Counts a call that is about to be made, and returns true if it fails. */
static int fails(const char *what, const char *name) {
    list(what, name);
    try_locks();
    is_cut = ++called == nth;
    if (is_cut) list("cut", how);
    if (is_cut && is("before")) end();
    if (is_cut) interfere(name);
    if (is_cut && strchr(how, '+')) strncpy(broken, name, LENGTH - 1);
    int failure = is_cut || (*broken && strcmp(broken, name) == 0) ? error() : 0;
    errno = failure ? failure : ENOSPC;
    return failure || (is_full && strcmp(what, "write") == 0);
}

/* Returns the result of a call that was made, unless the process is killed after it. */
static long made(long answer) {
    if (is_cut && (is("after") || is("one") || is("half") || is("most") || is("last"))) end();
    return answer;
}

/* Returns how many bytes of a read or a write are moved. */
static size_t share(size_t size) {
    if (!is_cut || size < 2) return size;
    if (is("short")) is_full = 1;
    if (is("half") || is("short") || is("part")) return size / 2;
    return is("one") ? 1 : is("most") ? size - 1 : size;
}

static const char *name_of(int file) { return file < FILES && names[file][0] ? names[file] : "?"; }

/* Records a write that returned this number. Its bytes end at the file's position, or begin at the given one. */
static long put(int file, const void *bytes, size_t size, long answer, off_t at) {
    if (at < 0) at = syscall(SYS_lseek, file, 0, SEEK_CUR) - answer;
    if (answer > 0) record_change("write", name_of(file), at, bytes, (size_t)answer);
    int is_lossy = answer > 0 && is_wrong("lossy") && strcmp(name_of(file), faulty) == 0;
    return made(is_lossy ? (long)size : answer);
}

static int opened(int folder, const char *name, int flags, mode_t mode) {
    const char *what = (flags & O_ACCMODE) == O_RDWR ? "hold" : flags & O_ACCMODE ? "over" : "open";
    if (fails(flags & O_CREAT ? "make" : what, name)) return -1;
    int was_there = syscall(SYS_faccessat, folder, name, F_OK) == 0;
    int file = (int)syscall(SYS_openat, folder, name, flags, mode);
    if (file < 0) return (int)made(file);
    if (!was_there) record_change("make", name, 0, "", 0);
    if (was_there && flags & O_TRUNC) record_change("length", name, 0, "", 0);
    if (file >= FILES || strlen(name) >= LENGTH) die("more files than it knows, or a longer name", name);
    strcpy(names[file], name);
    return (int)made(file);
}

/* Returns the mode of a file, which is given only if the file may be created. */
static mode_t mode_of(int flags, va_list rest) {
    return flags & O_CREAT || (flags & O_TMPFILE) == O_TMPFILE ? va_arg(rest, mode_t) : 0;
}

int open(const char *name, int flags, ...) {
    va_list rest;
    va_start(rest, flags);
    mode_t mode = mode_of(flags, rest);
    va_end(rest);
    return opened(AT_FDCWD, name, flags, mode);
}

int openat(int folder, const char *name, int flags, ...) {
    va_list rest;
    va_start(rest, flags);
    mode_t mode = mode_of(flags, rest);
    va_end(rest);
    return opened(folder, name, flags, mode);
}

int creat(const char *name, mode_t mode) { return opened(AT_FDCWD, name, O_WRONLY | O_CREAT | O_TRUNC, mode); }

ssize_t write(int file, const void *bytes, size_t size) {
    if (file <= STDERR_FILENO) {
        long printed = syscall(SYS_write, file, bytes, size);
        if (file == STDOUT_FILENO && printed > 0) record("print", "-", 0, bytes, (size_t)printed);
        return printed;
    }
    if (is_wrong("unlock") && strcmp(name_of(file), faulty) == 0) syscall(SYS_flock, file, LOCK_UN);
    if (fails("write", name_of(file))) return -1;
    size_t skipped = is_cut && is("last") ? size / 2 : 0;
    if (skipped) syscall(SYS_lseek, file, skipped, SEEK_CUR);
    const char *rest = (const char *)bytes + skipped;
    return put(file, rest, size, syscall(SYS_write, file, rest, share(size - skipped)), -1);
}

ssize_t read(int file, void *bytes, size_t size) {
    if (file <= STDERR_FILENO) return syscall(SYS_read, file, bytes, size);
    return fails("read", name_of(file)) ? -1 : made(syscall(SYS_read, file, bytes, share(size)));
}

ssize_t pwrite(int file, const void *bytes, size_t size, off_t at) {
    if (fails("write", name_of(file))) return -1;
    return put(file, bytes, size, syscall(SYS_pwrite64, file, bytes, share(size), at), at);
}

static int synced(int file, long call) {
    if (is_left_out("fsync", name_of(file))) return 0;
    if (fails("fsync", name_of(file))) return -1;
    long answer = syscall(call, file);
    if (answer == 0) record_sync(name_of(file));
    return (int)made(answer);
}

int fsync(int file) { return synced(file, SYS_fsync); }

int fdatasync(int file) { return synced(file, SYS_fdatasync); }

int ftruncate(int file, off_t length) {
    if (is_left_out("ftruncate", name_of(file))) return 0;
    if (fails("ftruncate", name_of(file))) return -1;
    long answer = syscall(SYS_ftruncate, file, length);
    if (answer == 0) record_change("length", name_of(file), length, "", 0);
    return (int)made(answer);
}

/* Duplicates a descriptor. Other commands of fcntl are not calls on a file. */
int fcntl(int file, int command, ...) {
    va_list rest;
    va_start(rest, command);
    long given_value = va_arg(rest, long);
    va_end(rest);
    int is_copy = command == F_DUPFD || command == F_DUPFD_CLOEXEC;
    if (!is_copy || file <= STDERR_FILENO) return (int)syscall(SYS_fcntl, file, command, given_value);
    if (fails("dup", name_of(file))) return -1;
    int copy = (int)syscall(SYS_fcntl, file, command, given_value);
    if (copy >= FILES) die("more files than it knows", name_of(file));
    if (copy >= 0) strcpy(names[copy], name_of(file));
    return (int)made(copy);
}

int flock(int file, int how_locked) {
    if (is_left_out("flock", name_of(file))) return 0;
    return fails("flock", name_of(file)) ? -1 : (int)made(syscall(SYS_flock, file, how_locked));
}

off_t lseek(int file, off_t by, int from) {
    if (file <= STDERR_FILENO) return syscall(SYS_lseek, file, by, from);
    return fails("lseek", name_of(file)) ? -1 : made(syscall(SYS_lseek, file, by, from));
}

/* Looks at a name, or at an open file if the name is empty. */
int statx(int folder, const char *name, int flags, unsigned mask, struct statx *found) {
    int is_open = !*name;
    if (is_open && folder <= STDERR_FILENO) return (int)syscall(SYS_statx, folder, name, flags, mask, found);
    if (fails(is_open ? "fstat" : "statx", is_open ? name_of(folder) : name)) return -1;
    return (int)made(syscall(SYS_statx, folder, name, flags, mask, found));
}

/* The runtime can make the next three calls, and the program doesn't: lost.py refuses a record with one of them. */
int fchmod(int file, mode_t mode) {
    if (fails("fchmod", name_of(file))) return -1;
    record("fchmod", name_of(file), 0, "", 0);
    return (int)made(syscall(SYS_fchmod, file, mode));
}

int mkdir(const char *name, mode_t mode) {
    if (fails("mkdir", name)) return -1;
    record("mkdir", name, 0, "", 0);
    return (int)made(syscall(SYS_mkdir, name, mode));
}

int rename(const char *old, const char *new) {
    if (fails("rename", new)) return -1;
    record("rename", new, 0, old, strlen(old));
    return (int)made(syscall(SYS_rename, old, new));
}

/* A file is closed even if close returns an error. */
int close(int file) {
    if (file <= STDERR_FILENO) return (int)syscall(SYS_close, file);
    int is_failing = fails("close", name_of(file)), failure = errno;
    if (is_failing && is_wrong("cached") && strcmp(name_of(file), faulty) == 0) syscall(SYS_ftruncate, file, 1);
    int answer = (int)made(syscall(SYS_close, file));
    errno = is_failing ? failure : errno;
    return is_failing ? -1 : answer;
}

ssize_t __write(int file, const void *bytes, size_t size) __attribute__((alias("write")));
int open64(const char *name, int flags, ...) __attribute__((alias("open")));
int openat64(int folder, const char *name, int flags, ...) __attribute__((alias("openat")));
int creat64(const char *name, mode_t mode) __attribute__((alias("creat")));
ssize_t pwrite64(int file, const void *bytes, size_t size, off_t at) __attribute__((alias("pwrite")));
int ftruncate64(int file, off_t length) __attribute__((alias("ftruncate")));
int fcntl64(int file, int command, ...) __attribute__((alias("fcntl")));
off_t lseek64(int file, off_t by, int from) __attribute__((alias("lseek")));
