/* Stands before the C library's allocator in a program that is started with LD_PRELOAD, and refuses requests for memory.

   REFUSE_NTH=N       the Nth request is refused, counted from 1
   REFUSE_ALL=1       each request is refused once the program has written its first line to standard output
   REFUSE_REPORT=F    the file F gets a line "refused N" for the Nth request as it is refused, and at the end of the
                      program a line "requests N" with the number of all, and a line "held N" with the number of blocks
                      that were given and not taken back

   Requests that the C library makes for itself count too. Written for Linux and the GNU C library. */

#define _GNU_SOURCE
#include <errno.h>
#include <fcntl.h>
#include <stdatomic.h>
#include <stddef.h>
#include <stdio.h>
#include <stdlib.h>
#include <string.h>
#include <sys/syscall.h>
#include <unistd.h>

extern void *__libc_malloc(size_t size);
extern void *__libc_calloc(size_t count, size_t size);
extern void *__libc_realloc(void *block, size_t size);
extern void *__libc_memalign(size_t alignment, size_t size);
extern void __libc_free(void *block);

static atomic_ulong requests;
static atomic_ulong held;
static atomic_int refuses_all;
static unsigned long refused_number;
static int waits_for_line;
static int is_counting;
static int report = -1;

/* Adds a line to the report, without asking for memory. */
static void tell(const char *word, unsigned long number)
{
    char line[64];
    int length = snprintf(line, sizeof line, "%s %lu\n", word, number);
    if (report >= 0 && length > 0)
        syscall(SYS_write, report, line, (size_t)length);
}

__attribute__((constructor)) static void begin(void)
{
    const char *number = getenv("REFUSE_NTH");
    const char *file = getenv("REFUSE_REPORT");
    refused_number = number ? strtoul(number, NULL, 10) : 0;
    waits_for_line = getenv("REFUSE_ALL") != NULL;
    if (file)
        report = open(file, O_WRONLY | O_CREAT | O_APPEND | O_CLOEXEC, 0600);
    is_counting = 1;
}

__attribute__((destructor)) static void end(void)
{
    tell("requests", requests);
    tell("held", held);
}

/* Whether the next request is refused. */
static int is_refused(void)
{
    if (!is_counting)
        return 0;
    unsigned long number = ++requests;
    if (number != refused_number && !refuses_all)
        return 0;
    tell("refused", number);
    errno = ENOMEM;
    return 1;
}

/* Counts a block that is given, if there is one. */
static void *given(void *block)
{
    if (block)
        held++;
    return block;
}

void *malloc(size_t size)
{
    return is_refused() ? NULL : given(__libc_malloc(size));
}

void *calloc(size_t count, size_t size)
{
    return is_refused() ? NULL : given(__libc_calloc(count, size));
}

/* A block that is moved or changed stays one block; one that is made as small as nothing is taken back. */
void *realloc(void *block, size_t size)
{
    if (is_refused())
        return NULL;
    if (!block)
        return given(__libc_realloc(block, size));
    if (size == 0)
        held--;
    return __libc_realloc(block, size);
}

void free(void *block)
{
    if (block)
        held--;
    __libc_free(block);
}

void *reallocarray(void *block, size_t count, size_t size)
{
    size_t whole;
    if (__builtin_mul_overflow(count, size, &whole)) {
        errno = ENOMEM;
        return NULL;
    }
    return realloc(block, whole);
}

void *memalign(size_t alignment, size_t size)
{
    return is_refused() ? NULL : given(__libc_memalign(alignment, size));
}

void *aligned_alloc(size_t alignment, size_t size)
{
    return memalign(alignment, size);
}

int posix_memalign(void **block, size_t alignment, size_t size)
{
    void *made = memalign(alignment, size);
    if (!made)
        return ENOMEM;
    *block = made;
    return 0;
}

/* Writes, and from the first line that goes to standard output on has every request refused where that is asked for. */
ssize_t write(int file, const void *bytes, size_t length)
{
    ssize_t written = syscall(SYS_write, file, bytes, length);
    if (waits_for_line && file == STDOUT_FILENO && written > 0 && memchr(bytes, '\n', (size_t)written))
        refuses_all = 1;
    return written;
}

ssize_t __write(int file, const void *bytes, size_t length)
{
    return write(file, bytes, length);
}
