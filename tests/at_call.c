/* Put before a program by the loader (LD_PRELOAD), it ends the program at one of its calls on a file, or refuses them from one on. Calls
   that write, cut or sync a file are counted from 1; AT_CALL is the number of one, and HOW says what is done there:
   before, within, after   SIGKILL before the call, behind the first half of what it writes, or behind the call
   refused                 this call and each behind it fail as on a full disk, a write after its first half
   skipped                 the call does nothing, and says that it did: so does a program that leaves it out */
#define _GNU_SOURCE
#include <dlfcn.h>
#include <errno.h>
#include <signal.h>
#include <stdlib.h>
#include <string.h>
#include <sys/types.h>
#include <unistd.h>

static unsigned long chosen, calls;
static const char *how = "";

__attribute__((constructor)) static void begin(void) {
    const char *number = getenv("AT_CALL");
    const char *way = getenv("HOW");
    chosen = number ? strtoul(number, 0, 10) : 0;
    how = way ? way : "";
}

static void end(void) { kill(getpid(), SIGKILL); }

/* whether this call is the chosen one, or one behind it where all of these are refused */
static int is_chosen(void) {
    calls++;
    return chosen && (calls == chosen || (calls > chosen && !strcmp(how, "refused")));
}

static ssize_t write_of(const char *name, int file, const void *bytes, size_t count, off_t at) {
    ssize_t (*real)(int, const void *, size_t, off_t) = (ssize_t (*)(int, const void *, size_t, off_t))dlsym(RTLD_NEXT, name);
    ssize_t done;
    if (!is_chosen()) return real(file, bytes, count, at);
    if (!strcmp(how, "before")) end();
    if (!strcmp(how, "skipped")) return (ssize_t)count;
    if (!strcmp(how, "refused") && (calls > chosen || count < 2)) {
        errno = ENOSPC;
        return -1;
    }
    if (strcmp(how, "after")) count = (count + 1) / 2;
    done = real(file, bytes, count, at);
    if (strcmp(how, "refused")) end();
    return done;
}

ssize_t pwrite(int file, const void *bytes, size_t count, off_t at) { return write_of("pwrite", file, bytes, count, at); }
ssize_t pwrite64(int file, const void *bytes, size_t count, off_t at) { return write_of("pwrite64", file, bytes, count, at); }

static int other_of(int (*real)(int), int (*real_cut)(int, off_t), int file, off_t size) {
    int done, failed;
    if (!is_chosen()) return real ? real(file) : real_cut(file, size);
    if (!strcmp(how, "before")) end();
    if (!strcmp(how, "skipped")) return 0;
    if (!strcmp(how, "refused")) {
        errno = EIO;
        return -1;
    }
    done = real ? real(file) : real_cut(file, size);
    failed = errno;
    end();
    errno = failed;
    return done;
}

int fdatasync(int file) { return other_of((int (*)(int))dlsym(RTLD_NEXT, "fdatasync"), 0, file, 0); }
int ftruncate(int file, off_t size) { return other_of(0, (int (*)(int, off_t))dlsym(RTLD_NEXT, "ftruncate"), file, size); }
int ftruncate64(int file, off_t size) { return other_of(0, (int (*)(int, off_t))dlsym(RTLD_NEXT, "ftruncate64"), file, size); }
