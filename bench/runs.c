/* Runs a program for each line `STATUS PROGRAM WORDS..` of standard input, and prints the microseconds that each run
   took from its start to its end. What the program prints, on either output, is thrown away. It is to end with that
   exit status. */
#define _GNU_SOURCE
#include <fcntl.h>
#include <spawn.h>
#include <stdio.h>
#include <stdlib.h>
#include <string.h>
#include <sys/wait.h>
#include <time.h>
#include <unistd.h>

enum { MOST_WORDS = 16, LINE_BYTES = 4096 };

static _Noreturn void fail(const char *text) {
    fprintf(stderr, "runs: %s\n", text);
    exit(1);
}

/* The words of the line, which are at least two. */
static void cut_words(char *line, char **words) {
    int count = 0;
    for (char *word = strtok(line, " \n"); word != NULL; word = strtok(NULL, " \n")) {
        if (count == MOST_WORDS)
            fail("a line has too many words");
        words[count++] = word;
    }
    if (count < 2)
        fail("a line is not STATUS PROGRAM WORDS..");
    words[count] = NULL;
}

static double now(void) {
    struct timespec time;
    if (clock_gettime(CLOCK_MONOTONIC, &time) != 0)
        fail("there is no clock");
    return 1e6 * (double)time.tv_sec + 1e-3 * (double)time.tv_nsec;
}

static void run(char **words, const posix_spawn_file_actions_t *actions, int status) {
    pid_t process;
    int ending;
    if (posix_spawnp(&process, words[0], actions, NULL, words, environ) != 0 || waitpid(process, &ending, 0) != process)
        fail("a program can't be run");
    if (!WIFEXITED(ending) || WEXITSTATUS(ending) != status)
        fail("a run ended with another exit status");
}

int main(void) {
    char line[LINE_BYTES], *words[MOST_WORDS + 1];
    posix_spawn_file_actions_t actions;
    if (posix_spawn_file_actions_init(&actions) != 0 ||
        posix_spawn_file_actions_addopen(&actions, STDOUT_FILENO, "/dev/null", O_WRONLY, 0) != 0 ||
        posix_spawn_file_actions_addopen(&actions, STDERR_FILENO, "/dev/null", O_WRONLY, 0) != 0)
        fail("what is printed can't be thrown away");
    while (fgets(line, sizeof line, stdin) != NULL) {
        cut_words(line, words);
        double start = now();
        run(words + 1, &actions, atoi(words[0]));
        printf("%.1f\n", now() - start);
    }
    if (ferror(stdin) || fclose(stdout) != 0)
        fail("a list can't be read or written");
    return 0;
}
