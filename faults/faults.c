/* Stands between a built program and the C library, and lets one of its calls fail: the Nth growth of memory (PFSRC_GROWTH=N), the
 * Nth read or write (PFSRC_IO=N), the Nth write, which then takes no byte (PFSRC_NONE=N), or the Nth read or write of several bytes,
 * which then moves one (PFSRC_SHORT=N).
 *
 * Where the call strikes, the file that PFSRC_STRUCK names is made, so that a script knows when it has come past the last one, and
 * where PFSRC_MARK is set a line `struck` goes to standard output, so that the place of the call is seen among what the program
 * writes. Into the file that PFSRC_PEAK names goes, at the end, the most memory that the program held, as the system's line has it.
 * Used by the scripts of this folder, through LD_PRELOAD. */
#define _GNU_SOURCE
#include <dlfcn.h>
#include <errno.h>
#include <fcntl.h>
#include <stddef.h>
#include <stdlib.h>
#include <string.h>
#include <sys/syscall.h>
#include <unistd.h>

static long growth, io, none, shorter;
static int is_ready;

static long number(const char *name)
{
    const char *text = getenv(name);
    return text == NULL ? 0 : atol(text);
}

__attribute__((constructor)) static void begin(void)
{
    growth = number("PFSRC_GROWTH");
    io = number("PFSRC_IO");
    none = number("PFSRC_NONE");
    shorter = number("PFSRC_SHORT");
    is_ready = 1;
}

/* Whether this is the call that fails. */
static int strikes(long *left)
{
    const char *path;
    if (!is_ready || *left == 0 || --*left > 0)
        return 0;
    path = getenv("PFSRC_STRUCK");
    if (path != NULL)
        close((int)syscall(SYS_openat, AT_FDCWD, path, O_CREAT | O_WRONLY, 0600));
    if (getenv("PFSRC_MARK") != NULL)
        syscall(SYS_write, 1, "struck\n", 7);
    return 1;
}

/* The line of the system that tells the most memory that was held goes into a file of its own. */
__attribute__((destructor)) static void end(void)
{
    static char status[8192];
    const char *path = getenv("PFSRC_PEAK"), *line;
    int file;
    if (path == NULL)
        return;
    file = (int)syscall(SYS_openat, AT_FDCWD, "/proc/self/status", O_RDONLY);
    syscall(SYS_read, file, status, sizeof status - 1);
    close(file);
    line = strstr(status, "VmHWM:");
    file = (int)syscall(SYS_openat, AT_FDCWD, path, O_CREAT | O_WRONLY, 0600);
    if (line != NULL)
        syscall(SYS_write, file, line, strcspn(line, "\n") + 1);
    close(file);
}

/* The C library's own allocator, by names that nothing stands before. */
extern void *__libc_malloc(size_t);
extern void *__libc_calloc(size_t, size_t);
extern void *__libc_realloc(void *, size_t);
extern void *__libc_memalign(size_t, size_t);

void *malloc(size_t size)
{
    return strikes(&growth) ? NULL : __libc_malloc(size);
}

void *calloc(size_t count, size_t size)
{
    return strikes(&growth) ? NULL : __libc_calloc(count, size);
}

void *realloc(void *old, size_t size)
{
    return strikes(&growth) ? NULL : __libc_realloc(old, size);
}

void *memalign(size_t alignment, size_t size)
{
    return strikes(&growth) ? NULL : __libc_memalign(alignment, size);
}

void *aligned_alloc(size_t alignment, size_t size)
{
    return strikes(&growth) ? NULL : __libc_memalign(alignment, size);
}

int posix_memalign(void **place, size_t alignment, size_t size)
{
    *place = strikes(&growth) ? NULL : __libc_memalign(alignment, size);
    return *place == NULL ? ENOMEM : 0;
}

static size_t moved(size_t size)
{
    return size > 1 && strikes(&shorter) ? 1 : size;
}

ssize_t read(int file, void *bytes, size_t size)
{
    if (strikes(&io)) {
        errno = EIO;
        return -1;
    }
    return syscall(SYS_read, file, bytes, moved(size));
}

ssize_t __write(int file, const void *bytes, size_t size)
{
    if (strikes(&none))
        return 0;
    if (strikes(&io)) {
        errno = EIO;
        return -1;
    }
    return syscall(SYS_write, file, bytes, moved(size));
}

ssize_t write(int file, const void *bytes, size_t size)
{
    return __write(file, bytes, size);
}
