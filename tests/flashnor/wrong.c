/* Makes a mutant of a right program. self.py loads this library before the program (LD_PRELOAD), and checks that the
   cases detect the mutant. WRONG names it:
     first    all locks are released before the next lock is taken
     write    all locks are released before an image is written: only such a write has 60,000 bytes or more
     seal     all locks are released when a journal is synced
     shared   each lock is shared with other runs
     unlocked no file is locked
     inode    files are compared only by their inode numbers
   With any other name the program is right. */
#define _GNU_SOURCE
#include <dlfcn.h>
#include <stdio.h>
#include <stdlib.h>
#include <string.h>
#include <sys/file.h>
#include <sys/stat.h>
#include <unistd.h>

enum { FILES = 64, IMAGE = 60000 };

static int locked[FILES], count;

static int is(const char *what) {
    const char *wrong = getenv("WRONG");
    return wrong && strcmp(wrong, what) == 0;
}

/* Returns the next function of this name, which may be that of meanwhile.c. */
static void *next(const char *name) {
    void *found = dlsym(RTLD_NEXT, name);
    if (!found) abort();
    return found;
}

static void give_up(void) {
    int (*lock)(int, int) = next("flock");
    while (count > 0) lock(locked[--count], LOCK_UN);
}

/* Returns whether the open file is a journal: the last part of its path begins with j. */
static int is_journal(int file) {
    char link[64], path[4096];
    snprintf(link, sizeof link, "/proc/self/fd/%d", file);
    ssize_t length = readlink(link, path, sizeof path - 1);
    path[length > 0 ? length : 0] = 0;
    const char *last = strrchr(path, '/');
    return last && last[1] == 'j';
}

int flock(int file, int how) {
    int (*lock)(int, int) = next("flock");
    if (is("unlocked")) return 0;
    if (is("first")) give_up();
    int answer = lock(file, is("shared") ? (how & ~LOCK_EX) | LOCK_SH : how);
    if (answer == 0 && count < FILES) locked[count++] = file;
    return answer;
}

ssize_t write(int file, const void *bytes, size_t size) {
    ssize_t (*put)(int, const void *, size_t) = next("write");
    if (is("write") && size >= IMAGE) give_up();
    return put(file, bytes, size);
}

int fsync(int file) {
    int (*sync)(int) = next("fsync");
    int answer = sync(file);
    if (is("seal") && is_journal(file)) give_up();
    return answer;
}

int statx(int folder, const char *restrict name, int flags, unsigned mask, struct statx *restrict found) {
    int (*look)(int, const char *, int, unsigned, struct statx *) = next("statx");
    int answer = look(folder, name, flags, mask, found);
    if (answer == 0 && is("inode")) found->stx_dev_major = found->stx_dev_minor = 0;
    return answer;
}
