// Measures a conversation: the time of a line there and back through two pipes, lines a second when many are written at once,
// and the memory that the process keeps while it ticks.
//
//     cc -O2 -o /tmp/measure tools/talk/measure.c && /tmp/measure FLEET MAP ROBOTS_LINE [TICKS]
//
// ROBOTS_LINE as "robots 0 1 2". TICKS: how many ticks the memory is looked at for (1,000,000 where it is not given).
#include <stdio.h>
#include <stdlib.h>
#include <string.h>
#include <sys/wait.h>
#include <time.h>
#include <unistd.h>

static double now(void) {
    struct timespec t;
    clock_gettime(CLOCK_MONOTONIC, &t);
    return t.tv_sec + t.tv_nsec * 1e-9;
}

static int by_value(const void *a, const void *b) {
    double x = *(const double *)a, y = *(const double *)b;
    return (x > y) - (x < y);
}

static long kept_kib(pid_t pid) {
    char path[64], line[256];
    snprintf(path, sizeof path, "/proc/%d/status", pid);
    FILE *status = fopen(path, "r");
    long kib = -1;
    while (status && fgets(line, sizeof line, status))
        if (sscanf(line, "VmRSS: %ld", &kib) == 1) break;
    if (status) fclose(status);
    return kib;
}

int main(int argc, char **argv) {
    if (argc < 4) return fprintf(stderr, "usage: measure FLEET MAP ROBOTS_LINE [TICKS]\n"), 2;
    long ticks = argc > 4 ? atol(argv[4]) : 1000000;
    int in[2], out[2];
    if (pipe(in) || pipe(out)) return perror("pipe"), 1;
    pid_t pid = fork();
    if (!pid) {
        dup2(in[0], 0), dup2(out[1], 1);
        close(in[1]), close(out[0]);
        execl(argv[1], argv[1], "talk", "--roll", argv[2], (char *)0);
        _exit(127);
    }
    close(in[0]), close(out[1]);
    FILE *to = fdopen(in[1], "w"), *from = fdopen(out[0], "r");
    char line[65536];
    fprintf(to, "%s\nlook\n", argv[3]), fflush(to);
    if (!fgets(line, sizeof line, from)) return fprintf(stderr, "no answer\n"), 1;

    enum { ROUNDS = 100000 };
    static double times[ROUNDS];
    for (int i = 0; i < ROUNDS; i++) {
        double before = now();
        fputs("collect 0\n", to), fflush(to);
        if (!fgets(line, sizeof line, from)) return 1;
        times[i] = now() - before;
    }
    qsort(times, ROUNDS, sizeof *times, by_value);
    printf("a line there and back: median %.1f us, 99th percentile %.1f us\n", times[ROUNDS / 2] * 1e6, times[ROUNDS / 100 * 99] * 1e6);

    enum { LINES = 1000000 };
    double before = now();
    pid_t writer = fork();
    if (!writer) {
        for (int i = 0; i < LINES; i++) fputs("collect 0\n", to);
        fflush(to);
        _exit(0);
    }
    for (int i = 0; i < LINES; i++)
        if (!fgets(line, sizeof line, from)) return 1;
    waitpid(writer, 0, 0);
    printf("written at once: %.0f lines a second\n", LINES / (now() - before));

    long first = -1, most = 0, last = 0;
    before = now();
    for (long done = 0; done < ticks; done += 10000) {
        fputs("tick 10000\nlook\n", to), fflush(to);
        while (fgets(line, sizeof line, from) && strncmp(line, "look", 4)) {}
        last = kept_kib(pid);
        if (first < 0 && done >= 200000) first = last;
        if (last > most) most = last;
    }
    printf("%ld ticks: %.0f a second; memory after 210,000 ticks %ld KiB, at most %ld, at the end %ld\n", ticks, ticks / (now() - before), first, most, last);
    fputs("quit\n", to), fflush(to);
    fclose(to);
    waitpid(pid, 0, 0);
    return 0;
}
