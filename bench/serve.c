/* Runs a program on one TCP connection: serve PORT PROGRAM [ARGUMENT..] listens on 127.0.0.1, takes the first
 * connection, and becomes the program with the connection as its standard input. It gives up after twenty seconds. */
#include <arpa/inet.h>
#include <poll.h>
#include <stdio.h>
#include <stdlib.h>
#include <sys/socket.h>
#include <unistd.h>

int main(int count, char **words) {
    if (count < 3) {
        fprintf(stderr, "usage: serve PORT PROGRAM [ARGUMENT..]\n");
        return 2;
    }
    struct sockaddr_in at = {.sin_family = AF_INET, .sin_port = htons((uint16_t)atoi(words[1]))};
    at.sin_addr.s_addr = htonl(INADDR_LOOPBACK);
    int one = 1, listener = socket(AF_INET, SOCK_STREAM, 0);
    if (listener < 0 || setsockopt(listener, SOL_SOCKET, SO_REUSEADDR, &one, sizeof one) ||
        bind(listener, (struct sockaddr *)&at, sizeof at) || listen(listener, 1)) {
        perror("serve");
        return 2;
    }
    struct pollfd ready = {.fd = listener, .events = POLLIN};
    if (poll(&ready, 1, 20000) != 1) {
        fprintf(stderr, "serve: no connection came\n");
        return 2;
    }
    int connection = accept(listener, NULL, NULL);
    if (connection < 0 || dup2(connection, 0) < 0) {
        perror("serve");
        return 2;
    }
    close(connection);
    close(listener);
    execvp(words[2], words + 2);
    perror(words[2]);
    return 127;
}
