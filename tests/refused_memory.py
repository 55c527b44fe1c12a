"""Refuses a program its requests for memory, by a shared object that `cc` makes and the loader puts before the program. It refuses the
request of one number, counted from 1, or that one and all after it, and says so on standard error at the first."""
import os
import shutil
import subprocess

STOPPED = b"stopped: memory\n"
OUT_OF_MEMORY = 7
SAID = b"refused\n"

SOURCE = r"""
#define _GNU_SOURCE
#include <dlfcn.h>
#include <errno.h>
#include <stdlib.h>
#include <unistd.h>

/* REFUSED is the number of the request that is refused, from 1; where REFUSED_ON is set, all behind it are too. */
static void *(*real_malloc)(size_t);
static void *(*real_calloc)(size_t, size_t);
static void *(*real_realloc)(void *, size_t);
static unsigned long refused, requests;
static int on, counts;

__attribute__((constructor)) static void begin(void) {
    const char *number = getenv("REFUSED");
    real_malloc = dlsym(RTLD_NEXT, "malloc");
    real_calloc = dlsym(RTLD_NEXT, "calloc");
    real_realloc = dlsym(RTLD_NEXT, "realloc");
    refused = number ? strtoul(number, 0, 10) : 0;
    on = getenv("REFUSED_ON") != 0;
    counts = 1;
}

static int is_refused(void) {
    if (!counts)
        return 0;
    requests++;
    if (requests != refused && !(on && requests > refused))
        return 0;
    if (requests == refused && write(2, "refused\n", 8) != 8)
        _exit(99);
    errno = ENOMEM;
    return 1;
}

void *malloc(size_t size) {
    if (!real_malloc)
        real_malloc = dlsym(RTLD_NEXT, "malloc");
    return is_refused() ? 0 : real_malloc(size);
}

void *calloc(size_t count, size_t size) {
    if (!real_calloc)
        real_calloc = dlsym(RTLD_NEXT, "calloc");
    return is_refused() ? 0 : real_calloc(count, size);
}

void *realloc(void *old, size_t size) {
    if (!real_realloc)
        real_realloc = dlsym(RTLD_NEXT, "realloc");
    return is_refused() ? 0 : real_realloc(old, size);
}
"""


def made(folder):
    """The path of the shared object, in a folder; None where there is no `cc`."""
    compiler = shutil.which("cc")
    if compiler is None:
        return None
    source, refusing = os.path.join(folder, "refusing.c"), os.path.join(folder, "refusing.so")
    with open(source, "w", encoding="ascii") as file:
        file.write(SOURCE)
    subprocess.run([compiler, "-shared", "-fPIC", "-O1", "-o", refusing, source, "-ldl"], check=True)
    return refusing


def refusing_from(refusing, number, on):
    """What a program is run in, so that it is refused this request, and all behind it where `on` is set."""
    return {"LD_PRELOAD": refusing, "REFUSED": str(number), **({"REFUSED_ON": "1"} if on else {})}
