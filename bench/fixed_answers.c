// Answers every connection with the same bytes: what a server cannot be quicker than.
//
// It does with a connection what the desk does, one connection at a time, and nothing between: it
// reads the head of a request and as many bytes of a body as its Content-Length says, writes the
// bytes of a file, sends nothing more, takes what still comes until the other side closes or a second
// has gone by, and closes.
//
//     cc -O2 -o fixed_answers bench/fixed_answers.c
//     ./fixed_answers ANSWER-FILE
//
// It listens at a free port of 127.0.0.1, prints the port's number, and serves until it is ended.
#define _GNU_SOURCE
#include <arpa/inet.h>
#include <netinet/in.h>
#include <stdio.h>
#include <stdlib.h>
#include <string.h>
#include <strings.h>
#include <sys/socket.h>
#include <sys/time.h>
#include <unistd.h>

enum { MOST_HEAD = 8192, MOST_ANSWER = 1 << 24, PIECE = 1 << 16 };

static void fail(const char *what)
{
    perror(what);
    exit(1);
}

static char *read_file(const char *name, size_t *size)
{
    FILE *file = fopen(name, "rb");
    char *bytes = malloc(MOST_ANSWER);
    if (file == NULL || bytes == NULL)
        fail(name);
    *size = fread(bytes, 1, MOST_ANSWER, file);
    fclose(file);
    return bytes;
}

static int listen_at_loopback(void)
{
    struct sockaddr_in address = {.sin_family = AF_INET, .sin_addr.s_addr = htonl(INADDR_LOOPBACK)};
    socklen_t size = sizeof address;
    int one = 1, listener = socket(AF_INET, SOCK_STREAM | SOCK_CLOEXEC, 0);
    if (listener < 0 || setsockopt(listener, SOL_SOCKET, SO_REUSEADDR, &one, sizeof one) != 0)
        fail("socket");
    if (bind(listener, (struct sockaddr *)&address, sizeof address) != 0 || listen(listener, 128) != 0)
        fail("listen");
    if (getsockname(listener, (struct sockaddr *)&address, &size) != 0)
        fail("getsockname");
    printf("%d\n", ntohs(address.sin_port));
    fflush(stdout);
    return listener;
}

// What Content-Length says; 0 where it does not stand.
static size_t body_size(const char *head)
{
    const char *line = strcasestr(head, "\r\nContent-Length:");
    return line == NULL ? 0 : strtoull(line + strlen("\r\nContent-Length:"), NULL, 10);
}

// Reads a head and its body; whether there is one.
static int take_request(int stream)
{
    static char head[MOST_HEAD + 1], rest[PIECE];
    size_t have = 0, left;
    ssize_t taken;
    char *end = NULL;
    while (end == NULL && have < MOST_HEAD) {
        taken = read(stream, head + have, MOST_HEAD - have);
        if (taken <= 0)
            return 0;
        have += taken;
        head[have] = 0;
        end = strstr(head, "\r\n\r\n");
    }
    if (end == NULL)
        return 0;
    left = body_size(head);
    have -= end + 4 - head;
    left = left > have ? left - have : 0;
    while (left > 0 && (taken = read(stream, rest, left < PIECE ? left : PIECE)) > 0)
        left -= taken;
    return left == 0;
}

static void give_answer(int stream, const char *answer, size_t size)
{
    ssize_t given;
    while (size > 0 && (given = write(stream, answer, size)) > 0) {
        answer += given;
        size -= given;
    }
}

// Closes in stages, so that the other side gets the whole answer.
static void let_go(int stream)
{
    static char rest[PIECE];
    struct timeval second = {.tv_sec = 1};
    setsockopt(stream, SOL_SOCKET, SO_RCVTIMEO, &second, sizeof second);
    if (shutdown(stream, SHUT_WR) == 0)
        while (read(stream, rest, sizeof rest) > 0)
            ;
    close(stream);
}

int main(int count, char **words)
{
    size_t size;
    char *answer;
    int listener, stream;
    if (count != 2) {
        fprintf(stderr, "fixed_answers ANSWER-FILE\n");
        return 2;
    }
    answer = read_file(words[1], &size);
    listener = listen_at_loopback();
    while ((stream = accept4(listener, NULL, NULL, SOCK_CLOEXEC)) >= 0) {
        if (take_request(stream))
            give_answer(stream, answer, size);
        let_go(stream);
    }
    fail("accept");
}
