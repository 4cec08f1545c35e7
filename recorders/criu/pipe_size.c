/*
 * For `criu dump` where CAP_SYS_RESOURCE is missing: to be preloaded.
 *
 * CRIU's page server asks for a pipe larger than a process without this right may have, and, where it does not get it, goes on
 * without having opened what it writes the rest to. This asks for the largest one that is to be had. Only a size that is no power of
 * two is answered so: other pipes of CRIU grow step by step, and it takes another one where one does not grow.
 */
#define _GNU_SOURCE
#include <dlfcn.h>
#include <fcntl.h>
#include <stdarg.h>

#define MOST (1L << 20)
#define LEAST (1L << 16)

static int control(const char *name, int fd, int command, long value)
{
    int (*real)(int, int, ...) = (int (*)(int, int, ...))dlsym(RTLD_NEXT, name);
    int answer = real(fd, command, value);
    if (command == F_SETPIPE_SZ && (value & (value - 1)))
        for (long size = MOST; answer < 0 && size >= LEAST; size /= 2)
            answer = real(fd, command, size);
    return answer;
}

#define HANDED_ON(name)                             \
    int name(int fd, int command, ...)              \
    {                                               \
        va_list values;                             \
        va_start(values, command);                  \
        long value = va_arg(values, long);          \
        va_end(values);                             \
        return control(#name, fd, command, value);  \
    }

HANDED_ON(fcntl)
HANDED_ON(fcntl64)
