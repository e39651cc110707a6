/* A disk that forgets what wasn't synced, for a program that it is loaded into: each sync of a store's file leaves a copy
   beside it, FILE.synced, and these copies are what is there after the power was lost. It is lost at the sync of a
   write-ahead log that POWER_LOST_AT counts from 1; with POWER_LOST_BEFORE that sync doesn't happen any more. */
#define _GNU_SOURCE
#include <dlfcn.h>
#include <fcntl.h>
#include <signal.h>
#include <stdio.h>
#include <stdlib.h>
#include <string.h>
#include <unistd.h>

static int done;

/* The path of an open file of a store, or none. */
static int path_of(int file, char *path, size_t room) {
    char link[64];
    snprintf(link, sizeof link, "/proc/self/fd/%d", file);
    ssize_t length = readlink(link, path, room - 1);
    if (length < 0) return 0;
    path[length] = 0;
    return strstr(path, ".sqlite") != NULL;
}

static void keep(const char *path) {
    char part[4096], whole[4096], bytes[65536];
    snprintf(part, sizeof part, "%s.part", path);
    snprintf(whole, sizeof whole, "%s.synced", path);
    int from = open(path, O_RDONLY), to = open(part, O_WRONLY | O_CREAT | O_TRUNC, 0600);
    ssize_t length;
    while ((length = read(from, bytes, sizeof bytes)) > 0)
        if (write(to, bytes, length) != length) abort();
    close(from);
    close(to);
    if (rename(part, whole) != 0) abort();
}

static int sync_by(const char *name, int file) {
    int (*real)(int) = (int (*)(int))dlsym(RTLD_NEXT, name);
    char path[4000];
    const char *at = getenv("POWER_LOST_AT");
    if (!path_of(file, path, sizeof path)) return real(file);
    int is_last = strstr(path, "-wal") != NULL && at != NULL && ++done == atoi(at);
    if (is_last && getenv("POWER_LOST_BEFORE") != NULL) kill(getpid(), SIGKILL);
    int status = real(file);
    if (status == 0) keep(path);
    if (is_last) kill(getpid(), SIGKILL);
    return status;
}

int fsync(int file) { return sync_by("fsync", file); }
int fdatasync(int file) { return sync_by("fdatasync", file); }
