/* Refuses allocations of the program into which this library is loaded (LD_PRELOAD): the one whose number, counted from
   1, is in the environment variable REFUSE (0 refuses none). If SPAN names a file, the library also refuses every
   allocation in a span of the run: from the moment in which that file was created, or was closed after it was read,
   until a file (not a directory) is opened, or another file is written. At the start of each span, the library makes
   one allocation itself, so that at least one is refused. When the program ends, the library writes the numbers of
   allocations, of refused ones and of spans, and the name of the file that ended the last span, to the file that
   COUNTED names. */
#define _GNU_SOURCE
#include <errno.h>
#include <fcntl.h>
#include <stdarg.h>
#include <stdio.h>
#include <stdlib.h>
#include <string.h>
#include <sys/stat.h>
#include <sys/syscall.h>
#include <unistd.h>

extern void *__libc_malloc(size_t size);
extern void *__libc_calloc(size_t count, size_t size);
extern void *__libc_realloc(void *block, size_t size);

static unsigned long asked, refused, spans, nth;
static const char *span;
static int is_span;
enum { FILES = 64, LENGTH = 64 };
static char until[LENGTH] = "none";
/* The names of open files, and whether each was created. */
static char names[FILES][LENGTH];
static int is_new[FILES];

__attribute__((constructor)) static void begin(void) {
    const char *number = getenv("REFUSE");
    nth = number ? strtoul(number, NULL, 10) : 0;
    span = getenv("SPAN");
    asked = 0;
}

__attribute__((destructor)) static void end(void) {
    const char *name = getenv("COUNTED");
    unsigned long count = asked;
    nth = 0;
    is_span = 0;
    FILE *file = name ? fopen(name, "w") : NULL;
    if (file && fprintf(file, "%lu %lu %lu %s\n", count, refused, spans, until) > 0) fclose(file);
}

static int is_refused(void) {
    if (++asked != nth && !is_span) return 0;
    refused++;
    errno = ENOMEM;
    return 1;
}

void *malloc(size_t size) { return is_refused() ? NULL : __libc_malloc(size); }
void *calloc(size_t count, size_t size) { return is_refused() ? NULL : __libc_calloc(count, size); }
void *realloc(void *block, size_t size) { return is_refused() ? NULL : __libc_realloc(block, size); }

/* A compiler may remove a call whose memory is not used, but not a call through a pointer that may change. */
static void *(*volatile ask)(size_t) = malloc;

static void begin_span(void) {
    int error = errno;
    is_span = 1;
    spans++;
    free(ask(1));
    errno = error;
}

static int is_folder(int folder, const char *name) {
    struct stat found;
    return fstatat(folder, name, &found, 0) == 0 && S_ISDIR(found.st_mode);
}

static void end_span(const char *name) {
    if (!is_span) return;
    is_span = 0;
    snprintf(until, sizeof until, "%s", name);
}

static int is_watched(int file) { return span && file >= 0 && file < FILES && strcmp(names[file], span) == 0; }

static int opened(int folder, const char *name, int flags, mode_t mode) {
    if (!is_folder(folder, name)) end_span(name);
    int file = (int)syscall(SYS_openat, folder, name, flags, mode);
    if (file < 0 || file >= FILES) return file;
    snprintf(names[file], LENGTH, "%s", name);
    is_new[file] = (flags & O_CREAT) != 0;
    if (is_watched(file) && is_new[file]) begin_span();
    return file;
}

int open(const char *name, int flags, ...) {
    va_list rest;
    va_start(rest, flags);
    mode_t mode = flags & O_CREAT ? va_arg(rest, mode_t) : 0;
    va_end(rest);
    return opened(AT_FDCWD, name, flags, mode);
}

int openat(int folder, const char *name, int flags, ...) {
    va_list rest;
    va_start(rest, flags);
    mode_t mode = flags & O_CREAT ? va_arg(rest, mode_t) : 0;
    va_end(rest);
    return opened(folder, name, flags, mode);
}

int fcntl(int file, int command, ...) {
    va_list rest;
    va_start(rest, command);
    long given = va_arg(rest, long);
    va_end(rest);
    int answer = (int)syscall(SYS_fcntl, file, command, given);
    int is_copy = command == F_DUPFD || command == F_DUPFD_CLOEXEC;
    if (!is_copy || file < 0 || file >= FILES || answer < 0 || answer >= FILES || answer == file) return answer;
    memmove(names[answer], names[file], LENGTH);
    is_new[answer] = is_new[file];
    return answer;
}

ssize_t write(int file, const void *bytes, size_t size) {
    if (file > STDERR_FILENO && file < FILES && !is_watched(file)) end_span(names[file]);
    return syscall(SYS_write, file, bytes, size);
}

/* The program reads a file through a copy of its descriptor. The span begins when the first of the two is closed. */
int close(int file) {
    int answer = (int)syscall(SYS_close, file);
    if (is_watched(file) && !is_new[file] && spans == 0) begin_span();
    return answer;
}

int open64(const char *name, int flags, ...) __attribute__((alias("open")));
int openat64(int folder, const char *name, int flags, ...) __attribute__((alias("openat")));
int fcntl64(int file, int command, ...) __attribute__((alias("fcntl")));
