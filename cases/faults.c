// Faults for a program that this is preloaded into: a request for memory that is refused, or calls of a stream that
// fail or move little.
//
// REFUSE=K refuses the K-th request for memory, counted from 1.
// STREAM names a stream of `fitsed`: script (reads of descriptor 0), file (reads of any other, also at a place), again
// (those of a file's bytes that were read before), answers (writes to descriptor 1), saved (writes to any but 1 and 2,
// what makes them reach the device, and renamings), or each.
// Of its calls STEP=N lets each move N bytes at most, FAIL=K lets the K-th fail, counted from 1, and STOP=K the K-th and
// each after it.
// BYTE=PLACE changes the byte at a place of a file that has one there, and LENGTH=N gives a file this length: before bytes
// of it are read again for the first time, or where WHEN=K is set, the K-th.
// DENIED=create lets no file be made that has to be new, DENIED=liken no permissions be given to one.
// Where COUNTED is set, the number of requests, or of the stream's calls, goes to descriptor 2 at the end.
#define _GNU_SOURCE
#include <errno.h>
#include <fcntl.h>
#include <stdarg.h>
#include <stdio.h>
#include <stdlib.h>
#include <string.h>
#include <sys/stat.h>
#include <sys/syscall.h>
#include <unistd.h>

extern void *__libc_malloc(size_t), *__libc_realloc(void *, size_t);

static const char *stream = 0;
static unsigned long requests = 0, calls = 0, refuse = 0, fail = 0, stop = -1, step = -1, when = 1;

// Which stretches were read of the file that was opened last to be read, and how many they are; how often bytes were read
// again; what is to change of a file, if anything, and whether it did.
static struct { off_t from, to; } seen[4096];
static int stretches = 0;
static off_t byte = -1, length = -1;
static unsigned long again = 0;
static int is_changed = 0;

static unsigned long number(const char *name, unsigned long otherwise) {
    const char *text = getenv(name);
    return text ? strtoul(text, 0, 10) : otherwise;
}

__attribute__((constructor)) static void begin(void) {
    stream = getenv("STREAM");
    step = number("STEP", step);
    fail = number("FAIL", 0);
    stop = number("STOP", stop);
    refuse = number("REFUSE", 0);
    when = number("WHEN", when);
    byte = number("BYTE", byte);
    length = number("LENGTH", length);
    requests = 0;
}

static int refused(void) { return ++requests == refuse; }

void *malloc(size_t n) { return refused() ? 0 : __libc_malloc(n); }
void *realloc(void *p, size_t n) { return refused() ? 0 : __libc_realloc(p, n); }

// Whether a call is one of the stream.
static int counts(const char *of) { return stream && of && (!strcmp(stream, of) || !strcmp(stream, "each")); }

// Whether this call of the stream fails.
static int fails(void) {
    if (++calls != fail && calls < stop) return 0;
    errno = EIO;
    return 1;
}

// A call that moves bytes, as the stream lets it. `at` is its place, where it has one.
static ssize_t moved(long call, const char *of, int fd, void *bytes, size_t n, off_t at) {
    if (!counts(of)) return syscall(call, fd, bytes, n, at);
    return fails() ? -1 : syscall(call, fd, bytes, n < step ? n : step, at);
}

ssize_t read(int fd, void *bytes, size_t n) { return moved(SYS_read, fd == 0 ? "script" : "file", fd, bytes, n, 0); }

// Changes a file as BYTE or LENGTH says.
static void change(int fd) {
    char path[32], old;
    snprintf(path, sizeof path, "/proc/self/fd/%d", fd);
    int it = syscall(SYS_open, path, O_RDWR);
    if (length >= 0) is_changed = !ftruncate(it, length);
    if (byte >= 0 && syscall(SYS_pread64, it, &old, 1, byte) == 1) {
        old ^= 1;
        is_changed = syscall(SYS_pwrite64, it, &old, 1, byte) == 1;
    }
    close(it);
}

// Where the stretch ends that was read and has the byte at a place, or that place.
static off_t read_to(off_t at) {
    for (int k = 0; k < stretches; k++)
        if (seen[k].from <= at && at < seen[k].to) return seen[k].to;
    return at;
}

// Whether all bytes that a read of so many is to give were read before.
static int was_read(int fd, off_t at, size_t n) {
    struct stat about;
    if (fstat(fd, &about)) return 0;
    off_t end = at + (off_t)n < about.st_size ? at + (off_t)n : about.st_size;
    off_t from = at;
    while (from < end) {
        off_t to = read_to(from);
        if (to == from) return 0;
        from = to;
    }
    return at < end;
}

// Bytes were read: they go on a stretch, or are one.
static void note(off_t from, off_t to) {
    for (int k = 0; k < stretches; k++)
        if (seen[k].from <= from && from <= seen[k].to) {
            if (seen[k].to < to) seen[k].to = to;
            return;
        }
    if (stretches == sizeof seen / sizeof *seen) return;
    seen[stretches].from = from;
    seen[stretches++].to = to;
}

ssize_t pread(int fd, void *bytes, size_t n, off_t at) {
    int is_again = was_read(fd, at, n);
    if (is_again && ++again >= when && !is_changed && (byte >= 0 || length >= 0)) change(fd);
    ssize_t count = moved(SYS_pread64, is_again && counts("again") ? "again" : "file", fd, bytes, n, at);
    if (count > 0) note(at, at + count);
    return count;
}

ssize_t write(int fd, const void *bytes, size_t n) {
    return moved(SYS_write, fd == 1 ? "answers" : fd == 2 ? 0 : "saved", fd, (void *)bytes, n, 0);
}

int fsync(int fd) { return counts("saved") && fails() ? -1 : syscall(SYS_fsync, fd); }

int rename(const char *from, const char *to) { return counts("saved") && fails() ? -1 : syscall(SYS_rename, from, to); }

// Whether this is denied.
static int denied(const char *what) {
    const char *text = getenv("DENIED");
    if (!text || strcmp(text, what)) return 0;
    errno = EACCES;
    return 1;
}

int open(const char *path, int flags, ...) {
    va_list more;
    va_start(more, flags);
    int fd = flags & O_EXCL && denied("create") ? -1 : syscall(SYS_open, path, flags, va_arg(more, int));
    va_end(more);
    // a file to be read, another than before
    if ((flags & O_ACCMODE) == O_RDONLY) stretches = 0;
    return fd;
}

int fchmod(int fd, mode_t mode) { return denied("liken") ? -1 : syscall(SYS_fchmod, fd, mode); }

__attribute__((destructor)) static void end(void) {
    char text[24];
    int at = sizeof text;
    if (!getenv("COUNTED")) return;
    text[--at] = '\n';
    for (unsigned long n = stream ? calls : requests; at == 23 || n; n /= 10) text[--at] = '0' + n % 10;
    write(2, text + at, sizeof text - at);
}
