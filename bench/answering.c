// A host for measures. It starts PROGRAM, says what stands on its standard input, which has at most 4,096 bytes, answers
// each line that begins with two spaces, the device `out` and the word `print` by `ok`, up to a line that begins with
// `  done`, and ends the conversation. It writes how many lines it answered, how many microseconds the whole took by the
// clock, and how many of the processor's time the program did.
//
// Usage: answering PROGRAM
#define _DEFAULT_SOURCE
#include <stdio.h>
#include <stdlib.h>
#include <string.h>
#include <sys/resource.h>
#include <sys/time.h>
#include <sys/wait.h>
#include <unistd.h>

static void fail(const char *words) {
    fprintf(stderr, "answering: %s\n", words);
    exit(1);
}

static void say(int to, const char *bytes, size_t size) {
    if (write(to, bytes, size) != (ssize_t)size) {
        fail("nothing can be said");
    }
}

static long long microseconds(struct timeval time) { return time.tv_sec * 1000000LL + time.tv_usec; }

int main(int count, char **words) {
    char said[4096], line[4096];
    int in[2], out[2], status;
    struct rusage used;
    struct timeval start, end;
    size_t size = fread(said, 1, sizeof said, stdin);
    if (count != 2 || pipe(in) != 0 || pipe(out) != 0) {
        fail("usage: answering PROGRAM");
    }
    gettimeofday(&start, NULL);
    pid_t program = fork();
    if (program == 0) {
        if (dup2(in[0], 0) == 0 && dup2(out[1], 1) == 1 && close(in[1]) == 0 && close(out[0]) == 0) {
            execl(words[1], words[1], (char *)NULL);
        }
        _exit(127);
    }
    FILE *from = fdopen(out[0], "r");
    if (program < 0 || !from || close(in[0]) != 0 || close(out[1]) != 0) {
        fail("the program cannot be started");
    }
    say(in[1], said, size);
    long answered = 0;
    while (fgets(line, sizeof line, from) && strncmp(line, "  done", 6) != 0) {
        if (strncmp(line, "  out print ", 12) == 0) {
            say(in[1], "ok\n", 3);
            answered++;
        }
    }
    close(in[1]);
    if (wait4(program, &status, 0, &used) != program || !WIFEXITED(status) || WEXITSTATUS(status) != 0) {
        fail("the program did not end well");
    }
    gettimeofday(&end, NULL);
    printf("%ld %lld %lld\n", answered, microseconds(end) - microseconds(start),
           microseconds(used.ru_utime) + microseconds(used.ru_stime));
    return 0;
}
