/* Sends over many connections at once: many PORT OUTPUT CONNECTIONS RATE SECONDS opens so many to 127.0.0.1. Each sends so many
 * messages of 284 bytes a second, for so many seconds. It waits until OUTPUT has a line for each, a minute at most, and prints
 * how many were sent and how many seconds the last took behind the last send. It ends with 1 where some did not come. */
#include <arpa/inet.h>
#include <stdio.h>
#include <stdlib.h>
#include <string.h>
#include <sys/resource.h>
#include <sys/socket.h>
#include <sys/stat.h>
#include <time.h>
#include <unistd.h>

enum { SIZE = 284, MILLISECOND = 1000000 };

static double now(void) {
    struct timespec at;
    clock_gettime(CLOCK_MONOTONIC, &at);
    return (double)at.tv_sec + (double)at.tv_nsec / 1e9;
}

static void nap(double seconds) {
    struct timespec time = {0, (long)(seconds * 1e9)};
    if (seconds > 0 && seconds < 1)
        nanosleep(&time, NULL);
}

static int connected(int port) {
    struct sockaddr_in to = {.sin_family = AF_INET, .sin_port = htons((uint16_t)port)};
    to.sin_addr.s_addr = htonl(INADDR_LOOPBACK);
    int it = socket(AF_INET, SOCK_STREAM, 0);
    if (it >= 0 && connect(it, (struct sockaddr *)&to, sizeof to)) {
        close(it);
        return -1;
    }
    return it;
}

/* The frame of a message. */
static size_t frame(char *to) {
    char text[SIZE + 1];
    int head = snprintf(text, sizeof text, "<34>1 2026-11-29T12:00:00Z host app 1 - - ");
    memset(text + head, 'x', SIZE - (size_t)head);
    int length = sprintf(to, "%d ", SIZE);
    memcpy(to + length, text, SIZE);
    return (size_t)length + SIZE;
}

int main(int count, char **words) {
    if (count != 6) {
        fprintf(stderr, "usage: many PORT OUTPUT CONNECTIONS RATE SECONDS\n");
        return 2;
    }
    int port = atoi(words[1]), connections = atoi(words[3]), rate = atoi(words[4]), seconds = atoi(words[5]);
    struct rlimit most;
    getrlimit(RLIMIT_NOFILE, &most);
    most.rlim_cur = most.rlim_max;
    setrlimit(RLIMIT_NOFILE, &most);
    int *all = calloc((size_t)connections, sizeof *all);
    for (int it = 0; it < connections; it++)
        if ((all[it] = connected(port)) < 0) {
            perror("many: connect");
            return 2;
        }
    char bytes[SIZE + 16];
    size_t size = frame(bytes);
    long long sent = 0;
    double begun = now();
    for (int turn = 0; turn < rate * seconds; turn++) {
        for (int it = 0; it < connections; it++)
            sent += write(all[it], bytes, size) == (ssize_t)size;
        nap(begun + (turn + 1.0) / rate - now());
    }
    double last = now(), end = last + 60;
    struct stat file = {.st_size = 0};
    while ((stat(words[2], &file) || file.st_size < sent * (SIZE + 1)) && now() < end)
        nap(0.001);
    printf("%lld %.3f\n", sent, now() - last);
    if (file.st_size < sent * (SIZE + 1))
        fprintf(stderr, "many: %lld of %lld lines came\n", (long long)file.st_size / (SIZE + 1), sent);
    return file.st_size < sent * (SIZE + 1);
}
