/*
 * Runs a program some times on the file that is standard input, with what it writes thrown away, and prints the least
 * seconds of the processor that a run took, and the most memory that one held, in KB.
 *
 *   spend TIMES PROGRAM [ARGUMENTS] < FILE
 *
 * That memory is at least this program's own, about 1 MB, since the system counts from before the other is loaded.
 */
#define _DEFAULT_SOURCE

#include <fcntl.h>
#include <stdio.h>
#include <stdlib.h>
#include <sys/resource.h>
#include <sys/wait.h>
#include <unistd.h>

static double seconds(struct timeval t)
{
    return (double)t.tv_sec + (double)t.tv_usec / 1e6;
}

static void become(char **words)
{
    int nowhere = open("/dev/null", O_WRONLY);

    if (nowhere >= 0 && dup2(nowhere, STDOUT_FILENO) >= 0)
        execv(words[0], words);
    _exit(127);
}

/* One run from the start of the file: whether it ended well, and what it spent. */
static int run(char **words, struct rusage *spent)
{
    int status = -1;

    lseek(STDIN_FILENO, 0, SEEK_SET);
    pid_t child = fork();
    if (child == 0)
        become(words);
    return child > 0 && wait4(child, &status, 0, spent) == child && status == 0;
}

int main(int argc, char **argv)
{
    long times = argc > 2 ? strtol(argv[1], NULL, 10) : 0;
    double least = 1e9;
    long most = 0;

    for (long i = 0; i < times; i++) {
        struct rusage spent;
        if (!run(argv + 2, &spent)) {
            fprintf(stderr, "spend: %s did not end well\n", argv[2]);
            return 1;
        }
        double t = seconds(spent.ru_utime) + seconds(spent.ru_stime);
        least = t < least ? t : least;
        most = spent.ru_maxrss > most ? spent.ru_maxrss : most;
    }
    printf("%.3f %ld\n", least, most);
    return 0;
}
