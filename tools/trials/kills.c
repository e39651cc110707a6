/* Kills the program that it is loaded into in the middle of an append: the one of the number in KILL_AT (from 1). Of
   that write to a file with .log in its name a part is written, or nothing, or all; then comes SIGKILL. tools/trials/kills.py
   builds and uses it. */
#define _GNU_SOURCE
#include <signal.h>
#include <stdio.h>
#include <stdlib.h>
#include <string.h>
#include <sys/syscall.h>
#include <unistd.h>

static long count;

static int is_log(int file) {
    char link[64], path[4096];
    snprintf(link, sizeof link, "/proc/self/fd/%d", file);
    ssize_t length = readlink(link, path, sizeof path - 1);
    if (length < 0)
        return 0;
    path[length] = 0;
    const char *name = strrchr(path, '/');
    return name && strstr(name, ".log");
}

ssize_t write(int file, const void *from, size_t size) {
    const char *number = getenv("KILL_AT");
    if (number && file > 2 && is_log(file) && ++count == atol(number)) {
        unsigned chance = 0;
        if (syscall(SYS_getrandom, &chance, sizeof chance, 0) == sizeof chance && chance % (size + 1))
            syscall(SYS_write, file, from, chance % (size + 1));
        kill(getpid(), SIGKILL);
    }
    return syscall(SYS_write, file, from, size);
}
