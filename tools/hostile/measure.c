/* Runs a command, and writes to the file REPORT how it ended: `exit` and its status, or `signal`
 * and its number; after that the processor seconds that it took, and how many kilobytes of memory
 * it had at most.
 *
 *   measure REPORT SECONDS COMMAND [ARGUMENT ..]
 *
 * A command that takes longer than SECONDS is ended by a signal (SIGALRM). The library that
 * MEASURE_PRELOAD names is loaded before it. A write to a closed pipe is a signal to it, as it is
 * at a terminal, whatever this process was started with.
 */
#include <signal.h>
#include <stdio.h>
#include <stdlib.h>
#include <sys/resource.h>
#include <sys/time.h>
#include <sys/wait.h>
#include <unistd.h>

static double seconds(struct timeval time)
{
    return time.tv_sec + time.tv_usec / 1e6;
}

int main(int count, char **words)
{
    const char *library = getenv("MEASURE_PRELOAD");
    struct rusage usage;
    int status;
    pid_t child;
    FILE *report;

    if (count < 4)
        return 2;
    child = fork();
    if (child == 0) {
        if (library)
            setenv("LD_PRELOAD", library, 1);
        signal(SIGPIPE, SIG_DFL);
        signal(SIGALRM, SIG_DFL);
        alarm(atoi(words[2]));
        execv(words[3], words + 3);
        _exit(127);
    }
    if (child < 0 || wait4(child, &status, 0, &usage) != child)
        return 1;
    report = fopen(words[1], "w");
    if (!report)
        return 1;
    if (WIFEXITED(status))
        fprintf(report, "exit %d", WEXITSTATUS(status));
    else
        fprintf(report, "signal %d", WTERMSIG(status));
    fprintf(report, " %.2f %ld\n", seconds(usage.ru_utime) + seconds(usage.ru_stime),
            usage.ru_maxrss);
    return fclose(report) != 0;
}
