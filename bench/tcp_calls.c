/* What the rows of bench/tcp are measured by: the calls on sockets and files that a session over TCP needs, and nothing else.
   tcp_calls echo SENT GOT: listens on a free port of 127.0.0.1, which it prints, and over one connection answers each SENT bytes by GOT.
   tcp_calls ask PORT COUNT FILE GOT: sends the bytes of FILE to that port, waits for GOT bytes, and so COUNT times.
   tcp_calls write FIRST SECOND: appends to the journals of two files, which are made new. Each line of standard input has the sizes of
   two records: of one for the first file, and of one for the second, which there may be 0 of. */
#include <arpa/inet.h>
#include <fcntl.h>
#include <netinet/tcp.h>
#include <stdio.h>
#include <stdlib.h>
#include <string.h>
#include <sys/socket.h>
#include <unistd.h>

enum { MOST = 1 << 27 };

static void must(int holds) {
    if (!holds) {
        perror("tcp_calls");
        exit(1);
    }
}

static struct sockaddr_in local(int port) {
    struct sockaddr_in address = {.sin_family = AF_INET, .sin_port = htons((unsigned short)port)};
    address.sin_addr.s_addr = htonl(INADDR_LOOPBACK);
    return address;
}

static void at_once(int peer) {
    int on = 1;
    must(setsockopt(peer, IPPROTO_TCP, TCP_NODELAY, &on, sizeof on) == 0);
}

/* Whether so many bytes came; not where the other side ended before the first of them. */
static int receive(int peer, unsigned char *buffer, size_t size) {
    size_t done = 0;
    while (done < size) {
        ssize_t count = read(peer, buffer + done, size - done);
        must(count >= 0 && (count > 0 || done == 0));
        if (count == 0)
            return 0;
        done += (size_t)count;
    }
    return 1;
}

static void send_all(int peer, const unsigned char *buffer, size_t size) {
    must(write(peer, buffer, size) == (ssize_t)size);
}

static void echo(size_t sent, size_t got) {
    unsigned char *buffer = calloc(1, sent + got);
    struct sockaddr_in address = local(0);
    socklen_t length = sizeof address;
    int listener = socket(AF_INET, SOCK_STREAM, 0);
    must(buffer != NULL && listener >= 0);
    must(bind(listener, (struct sockaddr *)&address, sizeof address) == 0 && listen(listener, 1) == 0);
    must(getsockname(listener, (struct sockaddr *)&address, &length) == 0);
    printf("%d\n", ntohs(address.sin_port));
    fflush(stdout);
    int peer = accept(listener, NULL, NULL);
    must(peer >= 0);
    at_once(peer);
    while (receive(peer, buffer, sent))
        send_all(peer, buffer, got);
}

static void ask(int port, unsigned long count, const char *path, size_t got) {
    static unsigned char frame[1 << 20];
    unsigned char *reply = malloc(got);
    struct sockaddr_in address = local(port);
    int file = open(path, O_RDONLY), peer = socket(AF_INET, SOCK_STREAM, 0);
    must(reply != NULL && file >= 0 && peer >= 0);
    ssize_t size = read(file, frame, sizeof frame);
    must(size > 0 && connect(peer, (struct sockaddr *)&address, sizeof address) == 0);
    at_once(peer);
    for (; count > 0; count--) {
        send_all(peer, frame, (size_t)size);
        must(receive(peer, reply, got));
    }
}

static int journal(const char *path) {
    int file = open(path, O_RDWR | O_CREAT | O_TRUNC, 0600);
    must(file >= 0);
    must(pwrite(file, "SSEJRNL1", 9, 0) == 9 && fdatasync(file) == 0);
    return file;
}

/* A record behind the place `at`, and the place behind it. */
static off_t append(int file, off_t at, size_t size, unsigned char *buffer) {
    static const unsigned char set = 1;
    for (int i = 0; i < 4; i++)
        buffer[i] = (unsigned char)(size >> (24 - 8 * i));
    buffer[4 + size] = 0;
    must(pwrite(file, buffer, size + 5, at + 1) == (ssize_t)size + 5 && fdatasync(file) == 0);
    must(pwrite(file, &set, 1, at) == 1 && fdatasync(file) == 0);
    buffer[4 + size] = 0x5a;
    return at + 5 + (off_t)size;
}

static void write_both(const char *first, const char *second) {
    int files[2] = {journal(first), journal(second)};
    off_t at[2] = {8, 8};
    size_t sizes[2];
    unsigned char *buffer = malloc(MOST + 5);
    must(buffer != NULL);
    while (scanf("%zu %zu", &sizes[0], &sizes[1]) == 2)
        for (int i = 0; i < 2; i++)
            if (sizes[i] > 0 && sizes[i] <= MOST)
                at[i] = append(files[i], at[i], sizes[i], buffer);
}

int main(int count, char **words) {
    if (count == 4 && strcmp(words[1], "echo") == 0)
        echo(strtoul(words[2], NULL, 10), strtoul(words[3], NULL, 10));
    else if (count == 6 && strcmp(words[1], "ask") == 0)
        ask(atoi(words[2]), strtoul(words[3], NULL, 10), words[4], strtoul(words[5], NULL, 10));
    else if (count == 4 && strcmp(words[1], "write") == 0)
        write_both(words[2], words[3]);
    else
        return 2;
    return 0;
}
