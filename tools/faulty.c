/* For node-faults and kill-node: a library to load before a program, in which calls fail. FAULT is one of `memory`, `disk`, `read` and `write`,
 * or `rewrite`, the calls of the disk behind the end of standard input, AT the number of a call of that kind, from 1 on, and MODE `once` where that call alone fails, `from` where every later one does too, `torn` where it
 * fails behind half of what it was to write, `interrupted` where a signal comes before it did anything, `full` where from then on the disk
 * has no more room (a write to the file moves half of its bytes, and the next one none), or `killed` where the process is killed in it,
 * inside a write to the file behind half of its bytes. PIECE is how many bytes a read of standard input and a write to standard output move at most.
 * When the program ends, it tells in the file TOLD how many calls of that kind there were. */
#define _GNU_SOURCE
#include <dlfcn.h>
#include <errno.h>
#include <fcntl.h>
#include <signal.h>
#include <stdarg.h>
#include <stdio.h>
#include <stdlib.h>
#include <string.h>
#include <sys/file.h>
#include <sys/stat.h>
#include <sys/types.h>
#include <unistd.h>

#define NEXT(name) ((typeof(&name))dlsym(RTLD_NEXT, #name))

static const char *kind = "", *mode = "";
static unsigned long made, at;
static int is_over;
static size_t piece = (size_t)-1;

static const char *word(const char *name)
{
    const char *found = getenv(name);
    return found ? found : "";
}

__attribute__((constructor)) static void begin(void)
{
    kind = word("FAULT");
    mode = word("MODE");
    at = strtoul(word("AT"), 0, 10);
    if (*word("PIECE"))
        piece = strtoul(word("PIECE"), 0, 10);
    made = 0;
}

__attribute__((destructor)) static void end(void)
{
    const char *told = word("TOLD");
    char line[32];
    int file = *told ? NEXT(creat)(told, 0600) : -1;
    if (file >= 0)
        NEXT(write)(file, line, (size_t)snprintf(line, sizeof line, "%lu", made));
}

static int is_counted(const char *of)
{
    return strcmp(kind, "rewrite") ? !strcmp(kind, of) : is_over && !strcmp(of, "disk");
}

static int fails(const char *of)
{
    if (!is_counted(of))
        return 0;
    made++;
    return made == at || (made > at && at && (!strcmp(mode, "from") || !strcmp(mode, "full")));
}

static int failed(int why)
{
    if (!strcmp(mode, "killed"))
        raise(SIGKILL);
    errno = strcmp(mode, "interrupted") ? why : EINTR;
    return -1;
}

/* Of a full disk the calls that write nothing are as ever. */
static int fails_without_writing(void)
{
    return fails("disk") && strcmp(mode, "full");
}

static size_t at_most(size_t size)
{
    return size < piece ? size : piece;
}

void *malloc(size_t size)
{
    static void *(*next)(size_t);
    if (!next)
        *(void **)&next = dlsym(RTLD_NEXT, "malloc");
    return fails("memory") ? 0 : next(size);
}

void *realloc(void *old, size_t size)
{
    static void *(*next)(void *, size_t);
    if (!next)
        *(void **)&next = dlsym(RTLD_NEXT, "realloc");
    return fails("memory") ? 0 : next(old, size);
}

ssize_t read(int file, void *bytes, size_t size)
{
    ssize_t got;
    if (file)
        return NEXT(read)(file, bytes, size);
    got = fails("read") ? failed(EIO) : NEXT(read)(file, bytes, at_most(size));
    is_over |= !got && size;
    return got;
}

ssize_t write(int file, const void *bytes, size_t size)
{
    if (file == 1)
        return fails("write") ? failed(EIO) : NEXT(write)(file, bytes, at_most(size));
    return NEXT(write)(file, bytes, size);
}

static ssize_t torn(int file, const void *bytes, size_t size, off_t place)
{
    static int is_full;
    if (!strcmp(mode, "full")) {
        if (is_full++ || size < 2)
            return failed(ENOSPC);
        return NEXT(pwrite)(file, bytes, size / 2, place);
    }
    if (!strcmp(mode, "torn") || !strcmp(mode, "killed"))
        NEXT(pwrite)(file, bytes, size / 2, place);
    return failed(EIO);
}

int open(const char *path, int how, ...)
{
    va_list more;
    mode_t rights;
    va_start(more, how);
    rights = how & O_CREAT ? (mode_t)va_arg(more, int) : 0;
    va_end(more);
    return fails_without_writing() ? failed(EIO) : NEXT(open)(path, how, rights);
}

int flock(int file, int how)
{
    return fails_without_writing() ? failed(EIO) : NEXT(flock)(file, how);
}

int statx(int folder, const char *path, int how, unsigned int what, struct statx *found)
{
    /* No signal interrupts it: its manual knows no EINTR. */
    return strcmp(mode, "interrupted") && fails_without_writing() ? failed(EIO) : NEXT(statx)(folder, path, how, what, found);
}

ssize_t pread(int file, void *bytes, size_t size, off_t place)
{
    return fails_without_writing() ? failed(EIO) : NEXT(pread)(file, bytes, size, place);
}

ssize_t pwrite(int file, const void *bytes, size_t size, off_t place)
{
    return fails("disk") ? torn(file, bytes, size, place) : NEXT(pwrite)(file, bytes, size, place);
}

int ftruncate(int file, off_t size)
{
    return fails_without_writing() ? failed(EIO) : NEXT(ftruncate)(file, size);
}

int fsync(int file)
{
    return fails_without_writing() ? failed(EIO) : NEXT(fsync)(file);
}

int fdatasync(int file)
{
    return fails_without_writing() ? failed(EIO) : NEXT(fdatasync)(file);
}
