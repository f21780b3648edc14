/* Acts at one call that a program makes on a file. steps.sh loads it before the program (LD_PRELOAD).

   MOMENT names the call: its kind, the file's name as the program writes it, and a number N for the Nth such call
   instead of the first: `write chip.bin`, `fsync j 2`. The kinds are:
     open, make       the file is opened; `make` if this call may create it
     read, write, fsync, ftruncate, flock, close
     look             the program looks at this name (stat)
   Just before this call, bash runs COMMAND, if that is given, and the program waits until it ends. If ERROR names an
   error (`EIO`), this call and all later calls of its kind on this file fail with it. The file that CAME names is
   created at that moment, so that the caller knows that the call was made.

   ALIKE is a list of names, with a space after each. The program sees the same inode number for these files; their
   devices are not changed. */
#define _GNU_SOURCE
#include <errno.h>
#include <fcntl.h>
#include <signal.h>
#include <stdarg.h>
#include <stdio.h>
#include <stdlib.h>
#include <string.h>
#include <sys/stat.h>
#include <sys/syscall.h>
#include <sys/wait.h>
#include <unistd.h>

enum { FILES = 64, LENGTH = 4096 };

/* The call that MOMENT names, and the number of such calls so far. */
static char kind[16], file_name[LENGTH];
static unsigned long number = 1, called;
static const char *command, *came, *alike;
static int error;
/* The names of the files that are open. */
static char names[FILES][LENGTH];

static void die(const char *what, const char *name) {
    dprintf(STDERR_FILENO, "meanwhile.c: %s: %s\n", what, name);
    _exit(125);
}

static int number_of(const char *name) {
    static const struct {
        const char *name;
        int number;
    } errors[] = {
        {"EACCES", EACCES}, {"EPERM", EPERM},   {"EIO", EIO},       {"EMFILE", EMFILE}, {"ENFILE", ENFILE},
        {"ENOMEM", ENOMEM}, {"EINVAL", EINVAL}, {"ENOSYS", ENOSYS}, {"ENOLCK", ENOLCK}, {"EOPNOTSUPP", EOPNOTSUPP},
        {"ENOSPC", ENOSPC}, {"EDQUOT", EDQUOT}, {"ESTALE", ESTALE}, {"ELOOP", ELOOP},
        {"EBUSY", EBUSY},
    };
    for (size_t each = 0; each < sizeof errors / sizeof *errors; each++)
        if (strcmp(errors[each].name, name) == 0) return errors[each].number;
    die("an error that it does not know", name);
    return 0;
}

__attribute__((constructor)) static void begin(void) {
    const char *moment = getenv("MOMENT"), *failure = getenv("ERROR");
    if (moment && sscanf(moment, "%15s %4095s %lu", kind, file_name, &number) < 2) die("no moment", moment);
    command = getenv("COMMAND");
    came = getenv("CAME");
    error = failure ? number_of(failure) : 0;
    alike = getenv("ALIKE");
}

static void run_command(void) {
    int status = 0;
    pid_t child = fork();
    if (child == 0) {
        unsetenv("LD_PRELOAD");
        unsetenv("MOMENT");
        signal(SIGPIPE, SIG_DFL);
        execlp("bash", "bash", "-c", command, (char *)NULL);
        _exit(127);
    }
    if (child < 0 || waitpid(child, &status, 0) < 0) die("no process for", command);
}

/* Acts if this call is the moment, or comes after it. Returns true if the call must fail, with the error in errno. */
static int fails(const char *what, const char *name) {
    if (strcmp(what, kind) != 0 || strcmp(name, file_name) != 0) return 0;
    called++;
    if (called == number) {
        int mark = came ? (int)syscall(SYS_openat, AT_FDCWD, came, O_WRONLY | O_CREAT, 0644) : -1;
        if (mark >= 0) syscall(SYS_close, mark);
        if (command) run_command();
    }
    errno = error;
    return error && called >= number;
}

/* Returns true if ALIKE has this name. */
static int is_alike(const char *name) {
    size_t length = strlen(name);
    for (const char *each = alike; each && *each; each += strcspn(each, " ") + 1)
        if (length && strncmp(each, name, length) == 0 && each[length] == ' ') return 1;
    return 0;
}

static const char *name_of(int file) { return file >= 0 && file < FILES ? names[file] : ""; }

static int opened(int folder, const char *name, int flags, mode_t mode) {
    if (fails(flags & O_CREAT ? "make" : "open", name)) return -1;
    int file = (int)syscall(SYS_openat, folder, name, flags, mode);
    if (file < 0) return file;
    if (file >= FILES || strlen(name) >= LENGTH) die("more files than it knows, or a longer name", name);
    strcpy(names[file], name);
    return file;
}

static mode_t mode_of(int flags, va_list rest) {
    return flags & O_CREAT || (flags & O_TMPFILE) == O_TMPFILE ? va_arg(rest, mode_t) : 0;
}

int open(const char *name, int flags, ...) {
    va_list rest;
    va_start(rest, flags);
    mode_t mode = mode_of(flags, rest);
    va_end(rest);
    return opened(AT_FDCWD, name, flags, mode);
}

int openat(int folder, const char *name, int flags, ...) {
    va_list rest;
    va_start(rest, flags);
    mode_t mode = mode_of(flags, rest);
    va_end(rest);
    return opened(folder, name, flags, mode);
}

ssize_t read(int file, void *bytes, size_t size) {
    return fails("read", name_of(file)) ? -1 : syscall(SYS_read, file, bytes, size);
}

ssize_t write(int file, const void *bytes, size_t size) {
    return fails("write", name_of(file)) ? -1 : syscall(SYS_write, file, bytes, size);
}

ssize_t pwrite(int file, const void *bytes, size_t size, off_t at) {
    return fails("write", name_of(file)) ? -1 : syscall(SYS_pwrite64, file, bytes, size, at);
}

int fsync(int file) { return fails("fsync", name_of(file)) ? -1 : (int)syscall(SYS_fsync, file); }

int fdatasync(int file) { return fails("fsync", name_of(file)) ? -1 : (int)syscall(SYS_fdatasync, file); }

int ftruncate(int file, off_t length) {
    return fails("ftruncate", name_of(file)) ? -1 : (int)syscall(SYS_ftruncate, file, length);
}

int flock(int file, int how) { return fails("flock", name_of(file)) ? -1 : (int)syscall(SYS_flock, file, how); }

int close(int file) {
    int is_failing = fails("close", name_of(file)), failure = errno;
    if (file >= 0 && file < FILES) names[file][0] = 0;
    int answer = (int)syscall(SYS_close, file);
    if (is_failing) errno = failure;
    return is_failing ? -1 : answer;
}

/* Duplicates a descriptor: the copy has the same file. */
int fcntl(int file, int command, ...) {
    va_list rest;
    va_start(rest, command);
    int answer = (int)syscall(SYS_fcntl, file, command, va_arg(rest, long));
    va_end(rest);
    if (answer >= 0 && answer < FILES && (command == F_DUPFD || command == F_DUPFD_CLOEXEC))
        strcpy(names[answer], name_of(file));
    return answer;
}

int statx(int folder, const char *name, int flags, unsigned mask, struct statx *found) {
    const char *looked_at = *name ? name : name_of(folder);
    if (fails("look", looked_at)) return -1;
    int answer = (int)syscall(SYS_statx, folder, name, flags, mask, found);
    if (answer == 0 && is_alike(looked_at)) found->stx_ino = 7;
    return answer;
}

int fcntl64(int file, int command, ...) __attribute__((alias("fcntl")));
int open64(const char *name, int flags, ...) __attribute__((alias("open")));
int openat64(int folder, const char *name, int flags, ...) __attribute__((alias("openat")));
ssize_t pwrite64(int file, const void *bytes, size_t size, off_t at) __attribute__((alias("pwrite")));
int ftruncate64(int file, off_t length) __attribute__((alias("ftruncate")));
