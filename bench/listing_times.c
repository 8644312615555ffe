/*
 * The proved listing program beside the plain one, on the same file, output
 * thrown away: processor time of each (user and system) for a line, the least
 * of several repetitions in which the programs take turns. The better
 * compiler's program counts and is named.
 *
 *     listing_times FILE LABEL PROVED COMPILER PROGRAM [COMPILER PROGRAM]
 */
#define _DEFAULT_SOURCE
#include "fastest.h"

#include <fcntl.h>
#include <stdio.h>
#include <stdlib.h>
#include <sys/resource.h>
#include <sys/wait.h>
#include <unistd.h>

enum { REPETITIONS = 11, MAX_PROGRAMS = 3 };

static void fail(const char *what)
{
    perror(what);
    exit(1);
}

static void become(const char *program, const char *file)
{
    int in = open(file, O_RDONLY), out = open("/dev/null", O_WRONLY);
    if (in < 0 || out < 0 || dup2(in, STDIN_FILENO) < 0 || dup2(out, STDOUT_FILENO) < 0)
        _exit(126);
    execl(program, program, (char *)NULL);
    _exit(127);
}

static double seconds(struct timeval t)
{
    return (double)t.tv_sec + 1e-6 * (double)t.tv_usec;
}

/* Processor time of one run. */
static double run(const char *program, const char *file)
{
    struct rusage used;
    int status;
    pid_t child = fork();
    if (child < 0)
        fail("fork");
    if (child == 0)
        become(program, file);
    if (wait4(child, &status, 0, &used) < 0)
        fail("wait4");
    if (status != 0) {
        fprintf(stderr, "%s failed\n", program);
        exit(1);
    }
    return seconds(used.ru_utime) + seconds(used.ru_stime);
}

static double count_lines(const char *file)
{
    static char text[1 << 16];
    double count = 0;
    size_t length;
    FILE *in = fopen(file, "rb");
    if (!in)
        fail(file);
    while ((length = fread(text, 1, sizeof text, in)) > 0)
        for (size_t i = 0; i < length; i++)
            count += text[i] == '\n';
    fclose(in);
    return count;
}

int main(int argc, char **argv)
{
    static double times[MAX_PROGRAMS][REPETITIONS];
    double taken[MAX_PROGRAMS];
    int programs = (argc - 2) / 2, best = 1;
    if (argc % 2 || programs < 2 || programs > MAX_PROGRAMS)
        return 2;
    for (int r = -1; r < REPETITIONS; r++) /* the first one warms up */
        for (int p = 0; p < programs; p++)
            times[p][r < 0 ? 0 : r] = run(argv[3 + 2 * p], argv[1]);
    for (int p = 0; p < programs; p++) {
        taken[p] = fastest(times[p], REPETITIONS) * 1e9 / count_lines(argv[1]);
        best = p > 1 && taken[p] < taken[best] ? p : best;
    }
    printf("listing, %s pairs: %.0f ns a line proved, %.0f ns plain C (%s), proved/plain %.2f; lower is"
           " better\n", argv[2], taken[0], taken[best], argv[2 + 2 * best],
           taken[0] / taken[best]);
    return 0;
}
