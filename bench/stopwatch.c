/* Times a whole program, from its start to its end.
 *
 *     stopwatch RUNS LIMIT INPUT OUTPUT ERRORS PROGRAM ARGUMENTS..
 *
 * Runs the program so many times with its standard input, output and errors in these files, each run stopped after
 * LIMIT seconds, and prints: median and least wall time and median processor time, all in microseconds, and the status
 * of the last run (the program's own, or 1000 and the signal that stopped it). */
#define _GNU_SOURCE
#include <fcntl.h>
#include <stdint.h>
#include <stdio.h>
#include <stdlib.h>
#include <sys/resource.h>
#include <sys/wait.h>
#include <time.h>
#include <unistd.h>

enum { MOST_RUNS = 1000 };

static double now(void) {
    struct timespec time;
    clock_gettime(CLOCK_MONOTONIC, &time);
    return (double)time.tv_sec * 1e6 + (double)time.tv_nsec / 1e3;
}

static double microseconds(struct timeval time) { return (double)time.tv_sec * 1e6 + (double)time.tv_usec; }

/* Puts a file in the place of a standard stream. */
static void redirect(const char *path, int flags, int stream) {
    int file = open(path, flags, 0666);
    if (file < 0 || dup2(file, stream) < 0) _exit(126);
    close(file);
}

/* One run: its wall time, its processor time and its status. */
static int run(char **arguments, unsigned limit, double *wall, double *processor) {
    struct rusage usage;
    int status = 0;
    double begun = now();
    pid_t child = fork();
    if (child == 0) {
        redirect(arguments[0], O_RDONLY, 0);
        redirect(arguments[1], O_WRONLY | O_CREAT | O_TRUNC, 1);
        redirect(arguments[2], O_WRONLY | O_CREAT | O_TRUNC, 2);
        alarm(limit);
        execvp(arguments[3], arguments + 3);
        _exit(127);
    }
    if (child < 0 || wait4(child, &status, 0, &usage) < 0) return -1;
    *wall = now() - begun;
    *processor = microseconds(usage.ru_utime) + microseconds(usage.ru_stime);
    return WIFSIGNALED(status) ? 1000 + WTERMSIG(status) : WEXITSTATUS(status);
}

static int compare(const void *one, const void *other) {
    double a = *(const double *)one, b = *(const double *)other;
    return (a > b) - (a < b);
}

int main(int count, char **arguments) {
    static double wall[MOST_RUNS], processor[MOST_RUNS];
    if (count < 7) {
        fprintf(stderr, "use: stopwatch RUNS LIMIT INPUT OUTPUT ERRORS PROGRAM ARGUMENTS..\n");
        return 2;
    }
    int runs = atoi(arguments[1]), status = 0;
    if (runs < 1 || runs > MOST_RUNS) return 2;
    for (int number = 0; number < runs; number++) {
        status = run(arguments + 3, (unsigned)atoi(arguments[2]), &wall[number], &processor[number]);
        if (status < 0 || status >= 1000) runs = number + 1;
    }
    qsort(wall, (size_t)runs, sizeof wall[0], compare);
    qsort(processor, (size_t)runs, sizeof processor[0], compare);
    printf("%.0f %.0f %.0f %d\n", wall[runs / 2], wall[0], processor[runs / 2], status);
    return 0;
}
