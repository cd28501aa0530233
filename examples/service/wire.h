/* What both sides of the example say on the wire: messages after their length in four bytes, over TCP on the loopback. First the client's
 * request and the service's reply, or its error, which ends it. Then a text that the client seals under the key that the service chose, and
 * the service's receipt for it: the text's checksum under the key that the client chose. */
#ifndef WIRE_H
#define WIRE_H

#include <arpa/inet.h>
#include <errno.h>
#include <netinet/in.h>
#include <poll.h>
#include <stdint.h>
#include <stdio.h>
#include <stdlib.h>
#include <string.h>
#include <sys/socket.h>
#include <time.h>
#include <unistd.h>

/* The usages of the text and of its receipt; an application chooses from 1024 on (RFC 4120, section 7.5.1). */
#define TEXT_USAGE 1024
#define RECEIPT_USAGE 1025
#define MOST 65536

struct bytes {
    uint8_t at[MOST];
    size_t size;
};

static inline void give_up(const char *why)
{
    perror(why);
    exit(2);
}

static inline struct sockaddr_in loopback(int port)
{
    struct sockaddr_in address;

    memset(&address, 0, sizeof address);
    address.sin_family = AF_INET;
    address.sin_addr.s_addr = htonl(INADDR_LOOPBACK);
    address.sin_port = htons((uint16_t)port);
    return address;
}

static inline int connect_to(int port)
{
    struct sockaddr_in address = loopback(port);
    int peer = socket(AF_INET, SOCK_STREAM, 0);

    if (peer < 0 || connect(peer, (struct sockaddr *)&address, sizeof address) != 0)
        give_up("connect");
    return peer;
}

/* Listens on a free port, and prints it. */
static inline int listen_on_any(void)
{
    struct sockaddr_in address = loopback(0);
    socklen_t size = sizeof address;
    int listener = socket(AF_INET, SOCK_STREAM, 0);

    if (listener < 0 || bind(listener, (struct sockaddr *)&address, size) != 0 || listen(listener, SOMAXCONN) != 0 ||
        getsockname(listener, (struct sockaddr *)&address, &size) != 0)
        give_up("listen");
    printf("%d\n", ntohs(address.sin_port));
    fflush(stdout);
    return listener;
}

/* Takes the next connection. If there can be none now, as when too many files are open, it tries again a moment later. */
static inline int accept_from(int listener)
{
    int peer;

    while ((peer = accept(listener, NULL, NULL)) < 0) {
        if (errno == EBADF || errno == EINVAL || errno == ENOTSOCK)
            give_up("accept");
        poll(NULL, 0, 100);
    }
    return peer;
}

/* Milliseconds since some moment; setting the clock doesn't change them. */
static inline int64_t milliseconds(void)
{
    struct timespec time;

    if (clock_gettime(CLOCK_MONOTONIC, &time) != 0)
        give_up("clock");
    return (int64_t)time.tv_sec * 1000 + time.tv_nsec / 1000000;
}

/* When the conversation of this thread ends at the latest, or 0 if it may take any time. */
static __thread int64_t ends;

static inline void limit_time(int seconds)
{
    ends = milliseconds() + (int64_t)seconds * 1000;
}

/* Waits until a peer has sent something, or takes something; returns 0 if that takes too long. */
static inline int is_ready(int peer, short what)
{
    struct pollfd one = {peer, what, 0};
    int64_t left = ends == 0 ? -1 : ends - milliseconds();

    return (ends == 0 || left > 0) && poll(&one, 1, (int)left) == 1;
}

static inline int receive_all(int from, uint8_t *at, size_t size)
{
    while (size > 0) {
        ssize_t count = is_ready(from, POLLIN) ? recv(from, at, size, 0) : 0;

        if (count <= 0)
            return 0;
        at += count;
        size -= (size_t)count;
    }
    return 1;
}

/* Receives a message; returns 0 if there is none. */
static inline int receive(int from, struct bytes *bytes)
{
    uint8_t head[4];

    if (!receive_all(from, head, sizeof head))
        return 0;
    bytes->size = (size_t)head[0] << 24 | (size_t)head[1] << 16 | (size_t)head[2] << 8 | head[3];
    return bytes->size <= MOST && receive_all(from, bytes->at, bytes->size);
}

static inline int send_all(int to, const uint8_t *at, size_t size)
{
    while (size > 0) {
        ssize_t count = is_ready(to, POLLOUT) ? send(to, at, size, MSG_DONTWAIT) : 0;

        if (count <= 0)
            return 0;
        at += count;
        size -= (size_t)count;
    }
    return 1;
}

static inline int transmit(int to, const uint8_t *at, size_t size)
{
    uint8_t head[4] = {(uint8_t)(size >> 24), (uint8_t)(size >> 16), (uint8_t)(size >> 8), (uint8_t)size};

    return send_all(to, head, sizeof head) && send_all(to, at, size);
}

#endif
