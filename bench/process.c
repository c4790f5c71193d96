// Runs a command and reports what it took: process INPUT COMMAND..
//
// The command has INPUT as its standard input, and what it prints is dropped. Printed are its seconds, those of processor time (user and
// kernel), the most memory that it held, in KB, and its status. It is a program of its own and small, since what runs a command counts in
// the command's memory.
#include <fcntl.h>
#include <spawn.h>
#include <stdio.h>
#include <sys/resource.h>
#include <sys/wait.h>
#include <time.h>

extern char **environ;

static double now(void) {
    struct timespec time;
    clock_gettime(CLOCK_MONOTONIC, &time);
    return time.tv_sec + time.tv_nsec * 1e-9;
}

static double seconds(struct timeval time) { return time.tv_sec + time.tv_usec * 1e-6; }

int main(int count, char **words) {
    posix_spawn_file_actions_t files;
    struct rusage usage;
    pid_t child;
    int status;
    if (count < 3) return 2;
    posix_spawn_file_actions_init(&files);
    posix_spawn_file_actions_addopen(&files, 0, words[1], O_RDONLY, 0);
    posix_spawn_file_actions_addopen(&files, 1, "/dev/null", O_WRONLY, 0);
    posix_spawn_file_actions_addopen(&files, 2, "/dev/null", O_WRONLY, 0);
    double start = now();
    if (posix_spawnp(&child, words[2], &files, NULL, words + 2, environ)) return 1;
    if (wait4(child, &status, 0, &usage) != child) return 1;
    double spent = now() - start;
    // A status below 0 is the signal that ended it.
    printf("%.6f %.6f %ld %d\n", spent, seconds(usage.ru_utime) + seconds(usage.ru_stime), usage.ru_maxrss,
           WIFEXITED(status) ? WEXITSTATUS(status) : -WTERMSIG(status));
    return 0;
}
