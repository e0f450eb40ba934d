/*
 * Runs a program without its output, and prints the most memory that it had at a time, in kilobytes.
 *
 *     peak PROGRAM ARGUMENT..
 *
 * A program that Python starts is counted with Python's own memory.
 */
#include <stdio.h>
#include <stdlib.h>
#include <sys/resource.h>
#include <sys/wait.h>
#include <unistd.h>

int main(int argc, char **argv) {
    struct rusage used;
    int status;
    pid_t child = argc > 1 ? fork() : -1;
    if (child == 0) {
        if (freopen("/dev/null", "w", stdout)) {
            execv(argv[1], argv + 1);
        }
        _exit(127);
    }
    if (child < 0 || wait4(child, &status, 0, &used) != child || status != 0) {
        return 1;
    }
    printf("%ld\n", used.ru_maxrss);
    return 0;
}
