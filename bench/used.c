/* Runs a command, and writes to standard error its user time in seconds and the most memory that it had, in kilobytes: a process that Python starts counts
   Python's own pages as its memory. */
#include <stdio.h>
#include <stdlib.h>
#include <sys/resource.h>
#include <sys/wait.h>
#include <unistd.h>

int main(int count, char **words)
{
    struct rusage used;
    int status = 0;
    pid_t child = count > 1 ? fork() : -1;
    if (child == 0) {
        execv(words[1], words + 1);
        _exit(127);
    }
    if (child < 0 || wait4(child, &status, 0, &used) != child || !WIFEXITED(status)) {
        return 127;
    }
    fprintf(stderr, "%.6f %ld\n", (double)used.ru_utime.tv_sec + (double)used.ru_utime.tv_usec / 1e6, used.ru_maxrss);
    return WEXITSTATUS(status);
}
