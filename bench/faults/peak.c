/* peak FACTS LIMIT PROGRAM WORD..: runs a program with so many KiB of address space (0: no limit), and writes to the file FACTS its
 * status as a shell shows it, its processor time in microseconds and its greatest memory in KiB.
 *
 * The system counts the memory of the process that calls exec as memory of the program, too. This process is small, so the peak
 * is the program's own, and not that of the script that measures it. */
#include <stdio.h>
#include <stdlib.h>
#include <sys/resource.h>
#include <sys/wait.h>
#include <unistd.h>

static long microseconds(struct timeval time)
{
    return time.tv_sec * 1000000L + time.tv_usec;
}

int main(int count, char **words)
{
    struct rusage used;
    int status;
    pid_t child;

    if (count < 4) {
        fputs("peak FACTS LIMIT PROGRAM WORD..\n", stderr);
        return 2;
    }
    child = fork();
    if (child == 0) {
        rlim_t bytes = strtoul(words[2], NULL, 10) << 10;
        struct rlimit limit = {bytes, bytes};
        if (bytes && setrlimit(RLIMIT_AS, &limit))
            _exit(126);
        execvp(words[3], words + 3);
        _exit(127);
    }
    if (child < 0 || wait4(child, &status, 0, &used) != child)
        return 126;
    FILE *facts = fopen(words[1], "w");
    if (!facts)
        return 126;
    status = WIFEXITED(status) ? WEXITSTATUS(status) : 128 + WTERMSIG(status);
    fprintf(facts, "%d %ld %ld\n", status, microseconds(used.ru_utime) + microseconds(used.ru_stime), used.ru_maxrss);
    return fclose(facts) ? 126 : 0;
}
