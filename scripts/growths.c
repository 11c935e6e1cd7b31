/* Counts the growths of memory of a program, and refuses one of them. growths.py builds it and
 * preloads it, so the program runs as it was built. With the variable NO_MODES it also refuses to
 * give a file other permissions. With the variable SWAPPED the file of that name takes the place of
 * one that is opened to be written, as if another program had moved it there just before.
 *
 * A growth is a call of malloc or calloc, or one of realloc that asks for more bytes than the block
 * was asked for before. The file that the variable GROWTHS names holds what is to be refused and
 * what was counted; without it nothing is counted. The program has one thread. */
#include <errno.h>
#include <fcntl.h>
#include <malloc.h>
#include <stdarg.h>
#include <stdint.h>
#include <stdio.h>
#include <stdlib.h>
#include <string.h>
#include <sys/mman.h>
#include <sys/stat.h>
#include <sys/syscall.h>
#include <unistd.h>

/* The file, in this order; growths.py writes and reads it so. */
struct growths {
    uint64_t refuse;  /* the number of the growth to refuse, from 1 on; 0: none */
    uint64_t met;     /* growths that were counted */
    uint64_t refused; /* growths that were refused */
};

static struct growths *shared;

void *__libc_malloc(size_t size);
void *__libc_calloc(size_t count, size_t each);
void *__libc_realloc(void *block, size_t size);

__attribute__((constructor)) static void open_shared(void)
{
    const char *path = getenv("GROWTHS");
    int file = path ? open(path, O_RDWR | O_CLOEXEC) : -1;
    if (file < 0)
        return;
    void *at = mmap(NULL, sizeof *shared, PROT_READ | PROT_WRITE, MAP_SHARED, file, 0);
    close(file);
    if (at != MAP_FAILED)
        shared = at;
}

/* Counts a growth, and tells whether it is the one to refuse. */
static int is_refused(void)
{
    if (!shared)
        return 0;
    shared->met += 1;
    if (shared->met != shared->refuse)
        return 0;
    shared->refused += 1;
    errno = ENOMEM;
    return 1;
}

int fchmod(int file, mode_t mode)
{
    if (!getenv("NO_MODES"))
        return (int)syscall(SYS_fchmod, file, mode);
    errno = EPERM;
    return -1;
}

int open(const char *path, int flags, ...)
{
    const char *swapped = getenv("SWAPPED");
    mode_t mode = 0;
    if (flags & O_CREAT) {
        va_list rest;
        va_start(rest, flags);
        mode = va_arg(rest, mode_t);
        va_end(rest);
    }
    if (swapped && (flags & O_ACCMODE) == O_WRONLY && !(flags & O_EXCL))
        rename(swapped, path);
    return (int)syscall(SYS_openat, AT_FDCWD, path, flags, mode);
}

/* The size that a block was asked for stands in the last bytes that the C library gave for it. */
static char *size_place(void *block)
{
    return (char *)block + malloc_usable_size(block) - sizeof(size_t);
}

static void *with_size(void *block, size_t size)
{
    if (block)
        memcpy(size_place(block), &size, sizeof size);
    return block;
}

static int is_too_large(size_t size)
{
    return size > PTRDIFF_MAX - sizeof size;
}

void *malloc(size_t size)
{
    if (is_too_large(size) || is_refused()) {
        errno = ENOMEM;
        return NULL;
    }
    return with_size(__libc_malloc(size + sizeof size), size);
}

void *calloc(size_t count, size_t each)
{
    size_t size;
    if (__builtin_mul_overflow(count, each, &size) || is_too_large(size) || is_refused()) {
        errno = ENOMEM;
        return NULL;
    }
    return with_size(__libc_calloc(1, size + sizeof size), size);
}

void *realloc(void *block, size_t size)
{
    size_t before;
    if (!block)
        return malloc(size);
    memcpy(&before, size_place(block), sizeof before);
    if (is_too_large(size) || (size > before && is_refused())) {
        errno = ENOMEM;
        return NULL;
    }
    return with_size(__libc_realloc(block, size + sizeof size), size);
}
