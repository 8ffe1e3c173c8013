/* What the programs ask of the system besides the C library: their words, the environment and the
 * number of an error, and a folder, as the contracts ask for them that the toolchain's pages state;
 * how many columns a terminal has, as a variable of the environment;
 * and a signal that they would ignore, and don't, so that a closed pipe ends them quietly.
 * Licence: MIT (LICENSE). */
#define _GNU_SOURCE

#include <errno.h>
#include <fcntl.h>
#include <signal.h>
#include <stddef.h>
#include <stdio.h>
#include <stdlib.h>
#include <string.h>
#include <sys/ioctl.h>
#include <sys/syscall.h>
#include <unistd.h>
#ifdef __x86_64__
#include <cpuid.h>
#endif

size_t rattle_arg_count(void);
ptrdiff_t rattle_arg(size_t index, char *start, size_t room);
ptrdiff_t rattle_env(const char *name, char *start, size_t room);
ptrdiff_t rattle_env_at(size_t index, char *start, size_t room);
int rattle_errno(void);
void rattle_set_errno(int error);
int rattle_open_dir_at(int folder, const char *name);
void (*__sysv_signal(int number, void (*handler)(int)))(int);

static size_t count;
static char **words;
static size_t variable_count;
static char **variables;

/* The program's own, and what the linker calls in its place (-Wl,--wrap=main): no C library but GNU's
 * hands the words to what it calls before that. */
int __real_main(int argc, char **argv, char **environment);
int __wrap_main(int argc, char **argv, char **environment);

int __wrap_main(int argc, char **argv, char **environment)
{
    count = (size_t)argc;
    words = argv;
    variables = environment;
    while (variables[variable_count] != NULL)
        variable_count++;
    return __real_main(argc, argv, environment);
}

/* Puts a text at `start`, and answers its length; -1 where there is none, -2 where there is too
 * little room, which is filled. */
static ptrdiff_t put(const char *text, char *start, size_t room)
{
    size_t length;

    if (text == NULL)
        return -1;
    length = strlen(text);
    memcpy(start, text, length < room ? length : room);
    return length <= room ? (ptrdiff_t)length : -2;
}

/* How many words the program was called with, its name one of them. */
size_t rattle_arg_count(void)
{
    return count;
}

/* One of these words. */
ptrdiff_t rattle_arg(size_t index, char *start, size_t room)
{
    return put(index < count ? words[index] : NULL, start, room);
}

/* How many columns standard output has, if it is a terminal: COLUMNS where that is a number, else as
 * the terminal says. */
static ptrdiff_t put_columns(char *start, size_t room)
{
    const char *said = getenv("COLUMNS");
    struct winsize size;
    char number[8];

    if (!isatty(STDOUT_FILENO))
        return -1;
    if (said != NULL && *said != '\0' && said[strspn(said, "0123456789")] == '\0')
        return put(said, start, room);
    if (ioctl(STDOUT_FILENO, TIOCGWINSZ, &size) != 0 || size.ws_col == 0)
        return -1;
    snprintf(number, sizeof number, "%u", (unsigned)size.ws_col);
    return put(number, start, room);
}

/* A variable of the environment. */
ptrdiff_t rattle_env(const char *name, char *start, size_t room)
{
    if (strcmp(name, "COLUMNS") == 0)
        return put_columns(start, room);
    return put(getenv(name), start, room);
}

/* An entry of the environment, as NAME=VALUE. */
ptrdiff_t rattle_env_at(size_t index, char *start, size_t room)
{
    return put(index < variable_count ? variables[index] : NULL, start, room);
}

/* The number of the last error. */
int rattle_errno(void)
{
    return errno;
}

/* Makes this the number of the last error. */
void rattle_set_errno(int error)
{
    errno = error;
}

/* Opens the folder that a name reaches from an open one, for reading: its number, or -1, also where
 * the name ends in a link without a slash behind it, or reaches no folder. */
int rattle_open_dir_at(int folder, const char *name)
{
    return openat(folder, name, O_RDONLY | O_DIRECTORY | O_NOFOLLOW | O_CLOEXEC);
}

/* What follows is GNU's C library's own from some version on, and not every other's: so the programs
 * have it here, and want no version past 2.28. */
ssize_t __write(int file, const void *start, size_t size);
int statx(int folder, const char *restrict name, int flags, unsigned mask, void *restrict told);
ssize_t getdents64(int folder, void *start, size_t size);

/* Another name of `write`. */
ssize_t __write(int file, const void *start, size_t size)
{
    return write(file, start, size);
}

/* What the system tells of a file. */
int statx(int folder, const char *restrict name, int flags, unsigned mask, void *restrict told)
{
    return (int)syscall(SYS_statx, folder, name, flags, mask, told);
}

/* The next entries of a folder. */
ssize_t getdents64(int folder, void *start, size_t size)
{
    return syscall(SYS_getdents64, folder, start, size);
}

#ifdef __x86_64__
/* What the processor has, by a number of GNU's header <sys/platform/x86.h>: 0 for its leaf 1, 2 for its
 * leaf 80000001. The programs look at the third register of those that are in use, and want x86-64-v2. */
const unsigned *__x86_get_cpuid_feature_leaf(unsigned number);

const unsigned *__x86_get_cpuid_feature_leaf(unsigned number)
{
    static unsigned leaves[2][8];
    unsigned *leaf = leaves[number == 2];

    __get_cpuid(number == 2 ? 0x80000001 : 1, &leaf[4], &leaf[5], &leaf[6], &leaf[7]);
    return leaf;
}
#endif

/* The programs call this, the C library's own, once: at their start, to ignore SIGPIPE. It stays as it
 * was when they were called, so that one whose output is closed ends by it, as `head` closes it. */
void (*__sysv_signal(int number, void (*handler)(int)))(int)
{
    (void)number;
    (void)handler;
    return SIG_DFL;
}
