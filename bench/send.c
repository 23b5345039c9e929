/* Sends a file over TCP and tells how long it took until a receiver had all of it in its own file:
 * send PORT INPUT OUTPUT BYTES SECONDS connects to 127.0.0.1, sends INPUT, ends the connection, and waits until OUTPUT
 * holds BYTES bytes, SECONDS at most. It prints the seconds from the connection on. It ends with 1 where they ran out. */
#include <arpa/inet.h>
#include <errno.h>
#include <fcntl.h>
#include <signal.h>
#include <stdio.h>
#include <stdlib.h>
#include <sys/socket.h>
#include <sys/stat.h>
#include <sys/wait.h>
#include <time.h>
#include <unistd.h>

enum { BLOCK = 65536, MILLISECOND = 1000000 };

static double now(void) {
    struct timespec at;
    clock_gettime(CLOCK_MONOTONIC, &at);
    return (double)at.tv_sec + (double)at.tv_nsec / 1e9;
}

static void nap(void) {
    struct timespec time = {0, MILLISECOND};
    nanosleep(&time, NULL);
}

/* A connection, tried for ten seconds, since the receiver may only just have been started. */
static int connected(int port) {
    struct sockaddr_in to = {.sin_family = AF_INET, .sin_port = htons((uint16_t)port)};
    to.sin_addr.s_addr = htonl(INADDR_LOOPBACK);
    for (double end = now() + 10; now() < end; nap()) {
        int socket_of = socket(AF_INET, SOCK_STREAM, 0);
        if (socket_of >= 0 && !connect(socket_of, (struct sockaddr *)&to, sizeof to))
            return socket_of;
        if (socket_of >= 0)
            close(socket_of);
    }
    return -1;
}

static int send_all(int from, int to) {
    static char block[BLOCK];
    ssize_t n, sent;
    while ((n = read(from, block, sizeof block)) > 0)
        for (ssize_t at = 0; at < n; at += sent)
            if ((sent = write(to, block + at, (size_t)(n - at))) < 0)
                return 1;
    return n < 0 || shutdown(to, SHUT_WR);
}

int main(int count, char **words) {
    if (count != 6) {
        fprintf(stderr, "usage: send PORT INPUT OUTPUT BYTES SECONDS\n");
        return 2;
    }
    int from = open(words[2], O_RDONLY), to = connected(atoi(words[1]));
    if (from < 0 || to < 0) {
        perror("send");
        return 2;
    }
    long long wanted = atoll(words[4]);
    double start = now(), end = start + atof(words[5]);
    pid_t sender = fork();
    if (sender == 0)
        _exit(send_all(from, to));
    close(to);
    struct stat file = {.st_size = 0};
    while ((stat(words[3], &file) || file.st_size < wanted) && now() < end)
        nap();
    double took = now() - start;
    kill(sender, SIGKILL);
    waitpid(sender, NULL, 0);
    printf("%.4f\n", took);
    if (file.st_size < wanted)
        fprintf(stderr, "send: %lld of %lld bytes came\n", (long long)file.st_size, wanted);
    return file.st_size < wanted;
}
