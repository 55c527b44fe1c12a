/* The calls that a journal makes on its file, and nothing else: what the rows of bench/journal are measured by.
   journal_calls FILE count: starts, and prints how many records there are.
   journal_calls FILE append COUNT SIZE: starts, and appends that many records of that many bytes.
   FILE is a journal that ends with its commit byte 00. */
#include <fcntl.h>
#include <stdio.h>
#include <stdlib.h>
#include <string.h>
#include <sys/stat.h>
#include <unistd.h>

static void must(int holds) {
    if (!holds) {
        perror("journal_calls");
        exit(1);
    }
}

/* The place where the records end, and how many they are. */
static unsigned long long start(int fd, unsigned long long *records) {
    struct stat file;
    unsigned char head[8];
    unsigned long long at = 8;
    must(fdatasync(fd) == 0);
    must(fstat(fd, &file) == 0);
    must(pread(fd, head, 8, 0) == 8);
    for (*records = 0;; ++*records) {
        must(pread(fd, head, 5, (off_t)at) >= 1);
        if (head[0] != 1 || at + 1 == (unsigned long long)file.st_size)
            return at;
        at += 5 + ((unsigned)head[1] << 24 | (unsigned)head[2] << 16 | (unsigned)head[3] << 8 | head[4]);
    }
}

static void append(int fd, unsigned long long at, const unsigned char *payload, unsigned size, unsigned char *buffer) {
    static const unsigned char set = 1;
    buffer[0] = (unsigned char)(size >> 24);
    buffer[1] = (unsigned char)(size >> 16);
    buffer[2] = (unsigned char)(size >> 8);
    buffer[3] = (unsigned char)size;
    memcpy(buffer + 4, payload, size);
    buffer[4 + size] = 0;
    must(pwrite(fd, buffer, size + 5, (off_t)at + 1) == (ssize_t)size + 5);
    must(fdatasync(fd) == 0);
    must(pwrite(fd, &set, 1, (off_t)at) == 1);
    must(fdatasync(fd) == 0);
}

int main(int count, char **words) {
    unsigned long long records, at, more, i;
    if (count != 3 && count != 5)
        return 2;
    int fd = open(words[1], O_RDWR);
    must(fd >= 0);
    at = start(fd, &records);
    if (count == 3) {
        printf("%llu\n", records);
        return 0;
    }
    more = strtoull(words[3], NULL, 10);
    unsigned size = (unsigned)strtoul(words[4], NULL, 10);
    unsigned char *payload = malloc(size), *buffer = malloc(size + 5);
    must(payload != NULL && buffer != NULL);
    memset(payload, 0x5a, size);
    for (i = 0; i < more; i++, at += 5 + size)
        append(fd, at, payload, size, buffer);
    return 0;
}
