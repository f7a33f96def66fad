// The calls by which a program changes files and folders, for one that this is preloaded into: told, held up, or failing.
//
// A call is a line: its word, and the names of what it is about, without their folders. The words are create (a new file),
// open (one that stands, to write), empty (the same, emptied), write, fsync, truncate, liken (permissions or an owner are
// given), flock, link, rename and unlink. What goes to descriptors 0 to 2 is none.
// CALLS=PATH has the lines of all calls at the end of a file, in their order.
// HALT='K LINE' stops the program before the K-th call whose line begins with these words, counted from 1, until it is told
// to go on (SIGCONT). Without words it is the K-th call of any kind.
// FAIL='K ERROR LINE' lets that call and each such call after it fail with the error of this number; FAIL='K ERROR once LINE'
// that call alone.
#define _GNU_SOURCE
#include <errno.h>
#include <fcntl.h>
#include <signal.h>
#include <stdarg.h>
#include <stdio.h>
#include <stdlib.h>
#include <string.h>
#include <sys/stat.h>
#include <sys/syscall.h>
#include <sys/uio.h>
#include <unistd.h>

// Calls that are counted: from which on, with which error, whether it is one alone, by which words, and how many came.
struct counted {
    unsigned long from, error, once, count;
    const char *words;
};

static struct counted halt, fail;
static const char *told = 0;

static struct counted counted(const char *name, int has_error) {
    struct counted it = {0, 0, 0, 0, 0};
    char *text = getenv(name);
    if (!text) return it;
    it.from = strtoul(text, &text, 10);
    if (has_error) it.error = strtoul(text, &text, 10);
    text += *text == ' ';
    if (!strncmp(text, "once", 4)) {
        it.once = 1;
        text += 4;
        text += *text == ' ';
    }
    it.words = text;
    return it;
}

__attribute__((constructor)) static void begin(void) {
    halt = counted("HALT", 0);
    fail = counted("FAIL", 1);
    told = getenv("CALLS");
}

// Whether a line begins with the words that are counted, and is one of those that were asked for.
static int is_met(struct counted *it, const char *line) {
    size_t len = it->words ? strlen(it->words) : 0;
    if (!it->words || strncmp(it->words, line, len)) return 0;
    if (len && line[len] != 0 && line[len] != ' ') return 0;
    it->count++;
    return it->count == it->from || (it->error && !it->once && it->count > it->from);
}

static const char *last(const char *path) {
    const char *slash = strrchr(path, '/');
    return slash ? slash + 1 : path;
}

// Tells a call and holds it up. Whether it fails.
static int comes(const char *word, const char *name, const char *other) {
    char line[1200];
    int length = snprintf(line, sizeof line, other ? "%s %s %s" : "%s %s", word, last(name), other ? last(other) : "");
    if (told) {
        int fd = syscall(SYS_openat, AT_FDCWD, told, O_WRONLY | O_APPEND | O_CREAT | O_CLOEXEC, 0666);
        line[length] = '\n';
        syscall(SYS_write, fd, line, length + 1);
        line[length] = 0;
        syscall(SYS_close, fd);
    }
    if (is_met(&halt, line)) kill(getpid(), SIGSTOP);
    if (!is_met(&fail, line)) return 0;
    errno = fail.error;
    return 1;
}

// The same of a descriptor.
static int comes_to(const char *word, int fd) {
    char link[32], path[1100];
    if (fd <= 2) return 0;
    snprintf(link, sizeof link, "/proc/self/fd/%d", fd);
    ssize_t length = readlink(link, path, sizeof path - 1);
    path[length > 0 ? length : 0] = 0;
    return comes(word, path, 0);
}

static int opened(int folder, const char *path, int flags, mode_t mode) {
    int is_new = flags & O_CREAT && (flags & O_EXCL || syscall(SYS_faccessat, folder, path, F_OK));
    const char *word = is_new ? "create" : flags & O_TRUNC ? "empty" : "open";
    if ((flags & O_ACCMODE) != O_RDONLY && comes(word, path, 0)) return -1;
    return syscall(SYS_openat, folder, path, flags, mode);
}

int open(const char *path, int flags, ...) {
    va_list more;
    va_start(more, flags);
    mode_t mode = va_arg(more, mode_t);
    va_end(more);
    return opened(AT_FDCWD, path, flags, mode);
}

int openat(int folder, const char *path, int flags, ...) {
    va_list more;
    va_start(more, flags);
    mode_t mode = va_arg(more, mode_t);
    va_end(more);
    return opened(folder, path, flags, mode);
}

ssize_t write(int fd, const void *bytes, size_t n) { return comes_to("write", fd) ? -1 : syscall(SYS_write, fd, bytes, n); }

ssize_t pwrite(int fd, const void *bytes, size_t n, off_t at) {
    return comes_to("write", fd) ? -1 : syscall(SYS_pwrite64, fd, bytes, n, at);
}

ssize_t writev(int fd, const struct iovec *parts, int n) {
    return comes_to("write", fd) ? -1 : syscall(SYS_writev, fd, parts, n);
}

int fsync(int fd) { return comes_to("fsync", fd) ? -1 : syscall(SYS_fsync, fd); }

int fdatasync(int fd) { return comes_to("fsync", fd) ? -1 : syscall(SYS_fdatasync, fd); }

int ftruncate(int fd, off_t length) { return comes_to("truncate", fd) ? -1 : syscall(SYS_ftruncate, fd, length); }

int fchmod(int fd, mode_t mode) { return comes_to("liken", fd) ? -1 : syscall(SYS_fchmod, fd, mode); }

int fchown(int fd, uid_t owner, gid_t group) { return comes_to("liken", fd) ? -1 : syscall(SYS_fchown, fd, owner, group); }

int lchown(const char *path, uid_t owner, gid_t group) {
    return comes("liken", path, 0) ? -1 : syscall(SYS_fchownat, AT_FDCWD, path, owner, group, AT_SYMLINK_NOFOLLOW);
}

int flock(int fd, int how) { return comes_to("flock", fd) ? -1 : syscall(SYS_flock, fd, how); }

int link(const char *from, const char *to) {
    return comes("link", from, to) ? -1 : syscall(SYS_linkat, AT_FDCWD, from, AT_FDCWD, to, 0);
}

int rename(const char *from, const char *to) {
    return comes("rename", from, to) ? -1 : syscall(SYS_renameat2, AT_FDCWD, from, AT_FDCWD, to, 0);
}

int unlink(const char *path) { return comes("unlink", path, 0) ? -1 : syscall(SYS_unlinkat, AT_FDCWD, path, 0); }
