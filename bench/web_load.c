/* Sends logins to a web server on this machine, each with a token of its own, and prints how many of them were answered with status 200, and
 * the seconds that all took.
 *
 *   web_load PORT CONNECTIONS REUSED TOKENS < FILE
 *
 * FILE has a token in base64 a line. So many connections are open at once; REUSED is 1 if one takes a login after another, and 0 if each login
 * has a connection of its own. TOKENS is how many lines are read.
 */
#include <arpa/inet.h>
#include <errno.h>
#include <netinet/in.h>
#include <netinet/tcp.h>
#include <stdbool.h>
#include <stdio.h>
#include <stdlib.h>
#include <string.h>
#include <strings.h>
#include <sys/epoll.h>
#include <sys/socket.h>
#include <time.h>
#include <unistd.h>

#define MAX_CONNECTIONS 256
#define ROOM 16384
/* For how many milliseconds a server may be silent. */
#define PATIENCE 20000

struct request {
    char *text;
    size_t size;
};

/* A connection, its request, and what came over it since. */
struct connection {
    int stream;
    struct request *request;
    size_t size;
    char answer[ROOM];
};

static struct request *requests;
static long count, asked, answered, let_in;
static struct sockaddr_in server = {.sin_family = AF_INET};
static bool reused;
static int events;
static struct connection connections[MAX_CONNECTIONS];

static void must(bool is_well, const char *what)
{
    if (!is_well) {
        fprintf(stderr, "web_load: %s: %s\n", what, strerror(errno));
        exit(1);
    }
}

static double seconds_now(void)
{
    struct timespec now;
    clock_gettime(CLOCK_MONOTONIC, &now);
    return now.tv_sec + now.tv_nsec / 1e9;
}

static struct request request_of(const char *token, size_t size)
{
    static const char format[] = "GET /page HTTP/1.1\r\nHost: web0.example.test\r\nUser-Agent: web_load\r\nAccept: "
                                 "*/*\r\nAuthorization: Negotiate %.*s\r\n%s\r\n";
    struct request made = {malloc(size + sizeof format + 64), 0};
    must(made.text != NULL, "a request");
    made.size = sprintf(made.text, format, (int)size, token, reused ? "" : "Connection: close\r\n");
    return made;
}

static void read_requests(void)
{
    char *line = NULL;
    size_t room = 0;
    requests = calloc(count, sizeof *requests);
    must(requests != NULL, "requests");
    for (long i = 0; i < count; i++) {
        ssize_t size = getline(&line, &room, stdin);
        must(size > 0, "a token");
        requests[i] = request_of(line, line[size - 1] == '\n' ? size - 1 : size);
    }
    free(line);
}

static void open_stream(struct connection *it)
{
    int yes = 1;
    struct epoll_event event = {.events = EPOLLIN, .data.ptr = it};
    it->stream = socket(AF_INET, SOCK_STREAM, 0);
    must(it->stream >= 0, "a socket");
    setsockopt(it->stream, IPPROTO_TCP, TCP_NODELAY, &yes, sizeof yes);
    must(connect(it->stream, (struct sockaddr *)&server, sizeof server) == 0, "a connection");
    must(epoll_ctl(events, EPOLL_CTL_ADD, it->stream, &event) == 0, "an event");
}

/* Sends the connection's request. (It fits into the socket's buffer.) */
static void send_request(struct connection *it)
{
    if (it->stream < 0)
        open_stream(it);
    it->size = 0;
    must(send(it->stream, it->request->text, it->request->size, MSG_NOSIGNAL) == (ssize_t)it->request->size,
         "a request");
}

/* Sends the next request, if there is one. */
static void ask(struct connection *it)
{
    if (asked == count)
        return;
    it->request = &requests[asked++];
    send_request(it);
}

/* Whether the answer is whole, by its length. */
static bool is_whole(struct connection *it)
{
    it->answer[it->size] = 0;
    char *end = strstr(it->answer, "\r\n\r\n");
    char *length = strcasestr(it->answer, "\r\ncontent-length:");
    return end != NULL && length != NULL && length < end &&
           it->size >= (size_t)(end + 4 - it->answer) + strtoul(length + 17, NULL, 10);
}

static void close_stream(struct connection *it)
{
    close(it->stream);
    it->stream = -1;
}

static void end_of_answer(struct connection *it, bool is_closed)
{
    it->answer[it->size] = 0;
    must(strncmp(it->answer, "HTTP/1.", 7) == 0, "an answer");
    answered++;
    let_in += strncmp(it->answer + 9, "200", 3) == 0;
    if (is_closed || !reused || strcasestr(it->answer, "\r\nconnection: close") != NULL)
        close_stream(it);
    ask(it);
}

static void receive(struct connection *it)
{
    ssize_t got = recv(it->stream, it->answer + it->size, ROOM - 1 - it->size, 0);
    must(got >= 0 || errno == ECONNRESET, "an answer");
    if (got <= 0 && it->size == 0) {
        /* (the server has closed an idle connection) */
        must(reused, "an answer");
        close_stream(it);
        send_request(it);
        return;
    }
    it->size += got > 0 ? got : 0;
    if (got <= 0 || is_whole(it))
        end_of_answer(it, got <= 0);
}

static void run(long width)
{
    for (long i = 0; i < width; i++) {
        connections[i].stream = -1;
        ask(&connections[i]);
    }
    while (answered < count) {
        struct epoll_event found[MAX_CONNECTIONS];
        int number = epoll_wait(events, found, MAX_CONNECTIONS, PATIENCE);
        must(number > 0, "the server is silent");
        for (int i = 0; i < number; i++)
            receive(found[i].data.ptr);
    }
}

int main(int argc, char **argv)
{
    if (argc != 5)
        return 2;
    server.sin_port = htons(atoi(argv[1]));
    server.sin_addr.s_addr = htonl(INADDR_LOOPBACK);
    long width = atol(argv[2]);
    reused = atoi(argv[3]);
    count = atol(argv[4]);
    must(width > 0 && width <= MAX_CONNECTIONS, "the number of connections");
    read_requests();
    events = epoll_create1(0);
    double began = seconds_now();
    run(width);
    printf("%ld %.6f\n", let_in, seconds_now() - began);
    return 0;
}
