/* Runs a program once and tells what it took: measure INPUT OUTPUT PROGRAM [ARGUMENT..]. INPUT is a file, or `-` for
 * this program's own standard input. OUTPUT is a file, made or emptied first.
 * It prints: wall-clock seconds, processor seconds (user), processor seconds (system), peak resident KiB, exit status. */
#include <fcntl.h>
#include <stdio.h>
#include <string.h>
#include <sys/resource.h>
#include <sys/wait.h>
#include <time.h>
#include <unistd.h>

static double now(void) {
    struct timespec at;
    clock_gettime(CLOCK_MONOTONIC, &at);
    return (double)at.tv_sec + (double)at.tv_nsec / 1e9;
}

static double seconds(struct timeval time) {
    return (double)time.tv_sec + (double)time.tv_usec / 1e6;
}

int main(int count, char **words) {
    if (count < 4) {
        fprintf(stderr, "usage: measure INPUT OUTPUT PROGRAM [ARGUMENT..]\n");
        return 2;
    }
    int in = strcmp(words[1], "-") ? open(words[1], O_RDONLY) : 0, out = open(words[2], O_WRONLY | O_CREAT | O_TRUNC, 0600);
    if (in < 0 || out < 0) {
        perror(words[1]);
        return 2;
    }
    double start = now();
    pid_t child = fork();
    if (child == 0) {
        dup2(in, 0);
        dup2(out, 1);
        execvp(words[3], words + 3);
        perror(words[3]);
        _exit(127);
    }
    int status;
    struct rusage used;
    if (child < 0 || wait4(child, &status, 0, &used) < 0) {
        perror("measure");
        return 2;
    }
    double end = now();
    printf("%.4f %.3f %.3f %ld %d\n", end - start, seconds(used.ru_utime), seconds(used.ru_stime), used.ru_maxrss,
           WIFEXITED(status) ? WEXITSTATUS(status) : 128 + WTERMSIG(status));
    return 0;
}
