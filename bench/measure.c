/* Runs a program and says what it took: measure FILE PROGRAM [WORDS..]. It adds a line to
   FILE: seconds of the clock, seconds of the processor, peak memory in KiB. The status is
   the program's. The peak counts this program too, which is smaller than any that it runs. */
#define _DEFAULT_SOURCE
#include <stdio.h>
#include <sys/resource.h>
#include <sys/time.h>
#include <sys/wait.h>
#include <time.h>
#include <unistd.h>

static double seconds(struct timeval t)
{
    return (double)t.tv_sec + (double)t.tv_usec / 1e6;
}

int main(int count, char **argument)
{
    struct timespec began, ended;
    struct rusage used;
    FILE *file;
    pid_t child;
    int status;

    if (count < 3) {
        fputs("usage: measure FILE PROGRAM [WORDS..]\n", stderr);
        return 2;
    }
    clock_gettime(CLOCK_MONOTONIC, &began);
    child = fork();
    if (child == 0) {
        execv(argument[2], &argument[2]);
        _exit(127);
    }
    if (child < 0 || wait4(child, &status, 0, &used) != child)
        return 2;
    clock_gettime(CLOCK_MONOTONIC, &ended);
    file = fopen(argument[1], "a");
    if (file == NULL)
        return 2;
    fprintf(file, "%.6f %.6f %ld\n",
            (double)(ended.tv_sec - began.tv_sec) + (double)(ended.tv_nsec - began.tv_nsec) / 1e9,
            seconds(used.ru_utime) + seconds(used.ru_stime), used.ru_maxrss);
    if (fclose(file) != 0)
        return 2;
    return WIFEXITED(status) ? WEXITSTATUS(status) : 128 + WTERMSIG(status);
}
