/* Runs a program and reports its time and memory: launch REPORT PROGRAM [ARGUMENT..]
 *
 * The program has the standard input and output of this process. This process writes one line to REPORT: nanoseconds of
 * wall time, microseconds of processor time (user and system), and the peak of resident memory in KiB. It exits with
 * the status of the program.
 *
 * Linux includes the memory of the starting process in a program's peak. If a large process (such as an interpreter)
 * starts the program, no peak below the size of that process can be measured. This process is as small as a C program
 * can be. Without arguments it ends at once, so that running it under itself reports the lowest measurable peak.
 */
#define _DEFAULT_SOURCE
#include <stdio.h>
#include <sys/resource.h>
#include <sys/wait.h>
#include <time.h>
#include <unistd.h>

static long long microseconds(struct timeval time)
{
    return time.tv_sec * 1000000LL + time.tv_usec;
}

static long long now(void)
{
    struct timespec time;
    clock_gettime(CLOCK_MONOTONIC, &time);
    return time.tv_sec * 1000000000LL + time.tv_nsec;
}

int main(int count, char **words)
{
    if (count < 3)
        return 0;
    long long start = now();
    pid_t child = fork();
    if (child == 0) {
        execvp(words[2], words + 2);
        perror(words[2]);
        _exit(127);
    }
    int status;
    struct rusage used;
    if (child < 0 || wait4(child, &status, 0, &used) < 0) {
        perror("launch");
        return 126;
    }
    long long wall = now() - start;
    FILE *report = fopen(words[1], "w");
    if (!report) {
        perror(words[1]);
        return 126;
    }
    fprintf(report, "%lld %lld %ld\n", wall, microseconds(used.ru_utime) + microseconds(used.ru_stime), used.ru_maxrss);
    if (fclose(report) != 0) {
        perror(words[1]);
        return 126;
    }
    return WIFEXITED(status) ? WEXITSTATUS(status) : 128 + WTERMSIG(status);
}
