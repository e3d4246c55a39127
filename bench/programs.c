/*
 * Times two programs from their start to their end: programs OURS PEER TEXT. Each is run 200 times, by turns, with the text as its
 * standard input; the medians are printed. Most of such a time is the system's, which starts and ends a program.
 */
#define _POSIX_C_SOURCE 200809L

#include <fcntl.h>
#include <spawn.h>
#include <stdio.h>
#include <stdlib.h>
#include <sys/wait.h>
#include <time.h>

#define RUNS 200

static double microseconds(void)
{
    struct timespec now;
    clock_gettime(CLOCK_MONOTONIC, &now);
    return (double)now.tv_sec * 1e6 + (double)now.tv_nsec / 1e3;
}

static void fail(const char *program)
{
    fprintf(stderr, "programs: cannot run %s\n", program);
    exit(EXIT_FAILURE);
}

/* Microseconds from the start of a program to its end. */
static double time_of(char *program, const char *text)
{
    char *words[] = {program, NULL}, *environment[] = {NULL};
    posix_spawn_file_actions_t actions;
    pid_t started;
    int status;
    posix_spawn_file_actions_init(&actions);
    posix_spawn_file_actions_addopen(&actions, 0, text, O_RDONLY, 0);
    posix_spawn_file_actions_addopen(&actions, 1, "/dev/null", O_WRONLY, 0);
    double began = microseconds();
    if (posix_spawn(&started, program, &actions, NULL, words, environment) != 0 || waitpid(started, &status, 0) != started ||
        status != 0)
        fail(program);
    double took = microseconds() - began;
    posix_spawn_file_actions_destroy(&actions);
    return took;
}

static int by_size(const void *one, const void *other)
{
    double difference = *(const double *)one - *(const double *)other;
    return (difference > 0) - (difference < 0);
}

static double median(double *times)
{
    qsort(times, RUNS, sizeof times[0], by_size);
    return (times[RUNS / 2 - 1] + times[RUNS / 2]) / 2;
}

int main(int count, char **words)
{
    static double ours[RUNS], peers[RUNS];
    if (count != 4) {
        fprintf(stderr, "usage: programs OURS PEER TEXT\n");
        return 2;
    }
    for (int run = 0; run < RUNS; run++) {
        ours[run] = time_of(words[1], words[3]);
        peers[run] = time_of(words[2], words[3]);
    }
    double one = median(ours), other = median(peers);
    printf("%-12s %7s %12.1f %12.1f %8.2f   medians of %d runs, start and end included\n", "program", "", one, other, one / other,
           RUNS);
    return EXIT_SUCCESS;
}
