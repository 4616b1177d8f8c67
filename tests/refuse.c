/* Refuses calls of the program that it is preloaded into; memory.py and calls.py build it and say what for.

   REFUSE is `memory`, `read` or `write`: which calls are numbered, from 1 on. Those from REFUSE_FIRST to REFUSE_LAST fail with
   the error number REFUSE_ERROR; with 0 a read or write answers that it moved nothing. For each of them a byte is added to the
   file that is open as REFUSE_LOG, so that the test knows how many were met. Reads, and writes to standard output, move at most
   REFUSE_PIECE bytes. What happens before the constructor, which is libc's own, is let be.

   With REFUSE=endless each read gives one byte, a space, and there is no end. When the program then ends, or any with REFUSE_COUNT, the
   file that is open as REFUSE_LOG gets how many calls were numbered.

   With REFUSE_BETWEEN=K only the calls between two marks are numbered: the Kth write to standard error that begins with `(`, and
   the next one that begins with `)`. */

#include <errno.h>
#include <stdio.h>
#include <stdlib.h>
#include <string.h>
#include <sys/syscall.h>
#include <sys/types.h>
#include <unistd.h>

/* glibc's own, so that nothing has to be looked up, which might take memory. */
extern void *__libc_malloc(size_t size);
extern void *__libc_calloc(size_t count, size_t size);
extern void *__libc_realloc(void *block, size_t size);
extern void *__libc_memalign(size_t alignment, size_t size);

static const char *refused_kind = "";
static unsigned long long first, last, made, most_bytes;
static unsigned long long wanted_mark, marks;
static int error, met, is_between, is_endless, is_counted;

static unsigned long long number(const char *name)
{
    const char *text = getenv(name);
    return text ? strtoull(text, NULL, 10) : 0;
}

__attribute__((constructor)) static void begin(void)
{
    first = number("REFUSE_FIRST");
    last = number("REFUSE_LAST");
    error = (int)number("REFUSE_ERROR");
    most_bytes = number("REFUSE_PIECE");
    met = (int)number("REFUSE_LOG");
    wanted_mark = number("REFUSE_BETWEEN");
    if (getenv("REFUSE"))
        refused_kind = getenv("REFUSE");
    is_endless = strcmp(refused_kind, "endless") == 0;
    is_counted = is_endless || getenv("REFUSE_COUNT");
}

__attribute__((destructor)) static void end(void)
{
    char text[24];
    int length = snprintf(text, sizeof text, "%llu", made);
    if (is_counted)
        syscall(SYS_write, met, text, (size_t)length);
}

/* Whether this call, one more of its kind, is to fail; errno then says why. */
static int is_refused(const char *kind)
{
    if (strcmp(kind, refused_kind) != 0 || (wanted_mark && !is_between))
        return 0;
    made++;
    if (made < first || made > last)
        return 0;
    syscall(SYS_write, met, "!", 1);
    errno = error;
    return 1;
}

void *malloc(size_t size)
{
    return is_refused("memory") ? NULL : __libc_malloc(size);
}

void *calloc(size_t count, size_t size)
{
    return is_refused("memory") ? NULL : __libc_calloc(count, size);
}

void *realloc(void *block, size_t size)
{
    return is_refused("memory") ? NULL : __libc_realloc(block, size);
}

void *aligned_alloc(size_t alignment, size_t size)
{
    return is_refused("memory") ? NULL : __libc_memalign(alignment, size);
}

int posix_memalign(void **block, size_t alignment, size_t size)
{
    void *made_block = aligned_alloc(alignment, size);
    if (!made_block)
        return ENOMEM;
    *block = made_block;
    return 0;
}

static size_t piece(size_t count)
{
    return most_bytes && count > most_bytes ? most_bytes : count;
}

ssize_t read(int file, void *bytes, size_t count)
{
    if (is_endless) {
        made++;
        *(char *)bytes = ' ';
        return 1;
    }
    if (is_refused("read"))
        return error ? -1 : 0;
    return syscall(SYS_read, file, bytes, piece(count));
}

static void heed_mark(const char *bytes, size_t count)
{
    if (count > 0 && bytes[0] == '(')
        is_between = ++marks == wanted_mark;
    if (count > 0 && bytes[0] == ')')
        is_between = 0;
}

/* Standard error stays as it is, so that a fault can be reported. */
ssize_t write(int file, const void *bytes, size_t count)
{
    if (file == STDERR_FILENO)
        heed_mark(bytes, count);
    if (file != STDOUT_FILENO)
        return syscall(SYS_write, file, bytes, count);
    if (is_refused("write"))
        return error ? -1 : 0;
    return syscall(SYS_write, file, bytes, piece(count));
}

/* The name by which glibc's headers may call it. */
ssize_t __write(int file, const void *bytes, size_t count)
{
    return write(file, bytes, count);
}
