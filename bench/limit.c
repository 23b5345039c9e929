/* A relay without a queue, as fast as C makes one: limit PORT FILE CHECKER listens on 127.0.0.1; for each connection a
 * process of its own becomes CHECKER, with the connection as its standard input and FILE, opened for appending, as its
 * standard output (bench/checker.c writes a line for each message that it finds well formed). limit PORT :NEXT hands the
 * bytes of each connection on to port NEXT, over a connection of its own. It ends when it is killed. */
#include <arpa/inet.h>
#include <fcntl.h>
#include <signal.h>
#include <stdio.h>
#include <stdlib.h>
#include <sys/socket.h>
#include <sys/wait.h>
#include <unistd.h>

enum { BLOCK = 65536, WAITING = 128 };

static struct sockaddr_in loopback(const char *port) {
    struct sockaddr_in at = {.sin_family = AF_INET, .sin_port = htons((uint16_t)atoi(port))};
    at.sin_addr.s_addr = htonl(INADDR_LOOPBACK);
    return at;
}

static int fail(const char *what) {
    perror(what);
    return 2;
}

static int copy(int from, const char *port) {
    static char block[BLOCK];
    struct sockaddr_in at = loopback(port);
    int to = socket(AF_INET, SOCK_STREAM, 0);
    ssize_t n, sent;
    if (to < 0 || connect(to, (struct sockaddr *)&at, sizeof at))
        return fail("limit: next");
    while ((n = read(from, block, sizeof block)) > 0)
        for (ssize_t done = 0; done < n; done += sent)
            if ((sent = write(to, block + done, (size_t)(n - done))) < 0)
                return fail("limit: write");
    return n < 0;
}

static int check(int from, const char *file, char *checker) {
    char *words[] = {checker, NULL};
    int to = open(file, O_WRONLY | O_CREAT | O_APPEND, 0600);
    if (to < 0 || dup2(from, 0) < 0 || dup2(to, 1) < 0)
        return fail(file);
    execv(checker, words);
    return fail(checker);
}

int main(int count, char **words) {
    if (count < 3 || (words[2][0] != ':' && count != 4)) {
        fprintf(stderr, "usage: limit PORT FILE CHECKER, or limit PORT :NEXT\n");
        return 2;
    }
    struct sockaddr_in at = loopback(words[1]);
    int one = 1, listener = socket(AF_INET, SOCK_STREAM, 0);
    if (listener < 0 || setsockopt(listener, SOL_SOCKET, SO_REUSEADDR, &one, sizeof one) ||
        bind(listener, (struct sockaddr *)&at, sizeof at) || listen(listener, WAITING))
        return fail("limit");
    for (;;) {
        int connection = accept(listener, NULL, NULL);
        if (connection < 0)
            return fail("limit: accept");
        pid_t child = fork();
        if (child < 0)
            return fail("limit: fork");
        if (child == 0) {
            close(listener);
            return words[2][0] == ':' ? copy(connection, words[2] + 1) : check(connection, words[2], words[3]);
        }
        close(connection);
        /* (those that have ended meanwhile) */
        while (waitpid(-1, NULL, WNOHANG) > 0)
            ;
    }
}
