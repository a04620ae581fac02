/* Refuses one of a program's requests for memory.
 *
 *     cc -shared -fPIC -o refuse_memory.so tests/refuse_memory.c
 *     LD_PRELOAD=./refuse_memory.so REFUSED_REQUEST=3 REQUESTS_FILE=requests PROGRAM
 *
 * runs PROGRAM, whose third call of `malloc` or `realloc` fails as if there were no memory: it
 * returns a null pointer and sets `errno` to ENOMEM. With REFUSED_REQUEST=0 none fails. The file
 * that REQUESTS_FILE names has to exist. It receives one byte for each request, so its length is
 * their number, however the program ends.
 *
 * A request from before this library starts, as the C library may make, is neither counted nor
 * refused. The programs that Rattle builds here take memory by these two functions alone, from one
 * thread.
 */
#include <errno.h>
#include <fcntl.h>
#include <stddef.h>
#include <stdlib.h>
#include <unistd.h>

/* The functions of the GNU C library that `malloc` and `realloc` name there. */
extern void *__libc_malloc(size_t size);
extern void *__libc_realloc(void *pointer, size_t size);

/* Where a byte is written for each request, or -1 where requests are not counted. */
static int requests_file = -1;

/* How many requests follow up to the one that fails, or 0 where none does. */
static unsigned long requests_left;

/* Ends the program with a status that it never has itself, since this library does not work. */
static void give_up(void)
{
    _exit(125);
}

__attribute__((constructor)) static void start(void)
{
    const char *refused = getenv("REFUSED_REQUEST");
    const char *path = getenv("REQUESTS_FILE");
    if (refused == NULL || path == NULL)
        give_up();
    requests_left = strtoul(refused, NULL, 10);
    requests_file = open(path, O_WRONLY | O_APPEND);
    if (requests_file < 0)
        give_up();
}

/* Counts a request, and returns whether it fails. */
static int is_refused(void)
{
    if (requests_file < 0)
        return 0;
    if (write(requests_file, ".", 1) != 1)
        give_up();
    if (requests_left == 0 || --requests_left > 0)
        return 0;
    errno = ENOMEM;
    return 1;
}

void *malloc(size_t size)
{
    return is_refused() ? NULL : __libc_malloc(size);
}

void *realloc(void *pointer, size_t size)
{
    return is_refused() ? NULL : __libc_realloc(pointer, size);
}
