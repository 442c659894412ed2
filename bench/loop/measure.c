/* measure PROGRAM WORD..: runs the program, with its addresses at fixed places where the system allows it, and writes to the file that MEASURE names the processor
   time in microseconds, the most memory in kilobytes, and the exit status. (A small process starts it, so that the memory is the program's and not a script's.) */
#define _GNU_SOURCE
#include <stdio.h>
#include <stdlib.h>
#include <sys/personality.h>
#include <sys/resource.h>
#include <sys/wait.h>
#include <unistd.h>

int main(int count, char **words) {
    const char *name = getenv("MEASURE");
    if (count < 2 || !name) return 125;
    pid_t child = fork();
    if (child < 0) return 125;
    if (!child) {
        personality(ADDR_NO_RANDOMIZE);
        const char *preload = getenv("MEASURE_PRELOAD");
        if (preload) setenv("LD_PRELOAD", preload, 1);
        execv(words[1], words + 1);
        _exit(126);
    }
    int status;
    struct rusage usage;
    if (wait4(child, &status, 0, &usage) != child) return 125;
    FILE *file = fopen(name, "w");
    if (!file) return 125;
    fprintf(file, "%lld %ld %d\n", (usage.ru_utime.tv_sec + usage.ru_stime.tv_sec) * 1000000LL + usage.ru_utime.tv_usec + usage.ru_stime.tv_usec, usage.ru_maxrss,
            WIFEXITED(status) ? WEXITSTATUS(status) : 128 + WTERMSIG(status));
    return fclose(file) ? 125 : 0;
}
