// Runs a definition of guests' modules by capi, on devices of this machine, and ends with the status of capi: host.py in C.
//
// Usage: host CAPI FOLDER MODULE.DEFINITION
// FOLDER has the modules, NAME.cap, the host's rules, and for its devices `numbers` and `hits`, with a number a line.
#define _POSIX_C_SOURCE 200809L
#include <dirent.h>
#include <errno.h>
#include <signal.h>
#include <stdarg.h>
#include <stdio.h>
#include <stdlib.h>
#include <string.h>
#include <sys/wait.h>
#include <unistd.h>

// how many bytes a text has at most, a line of an answer, a path, and a name
enum { TEXT = 65536, LINE = 4096, PATH = 4096, NAME = 200 };

static const char letters[] = "ABCDEFGHIJKLMNOPQRSTUVWXYZabcdefghijklmnopqrstuvwxyz";
static const char behind[] = "ABCDEFGHIJKLMNOPQRSTUVWXYZabcdefghijklmnopqrstuvwxyz0123456789_";
static const char reserved[] = " import def rec fun val if then else box unbox boundary exit repeat true false unit cap "
                               "Unit Bool Int Str Any Console File Counter Exit Box ";

static const char *folder;
static FILE *to, *from, *numbers, *kept;
static pid_t capi;

static _Noreturn void fail(const char *words) {
    fprintf(stderr, "host: %s\n", words);
    exit(1);
}

// Ends with the status of capi, which is none of its own where an answer was cut off and it tells no reason.
static _Noreturn void end(int cut_off) {
    int status;
    fclose(to);
    fclose(from);
    if (waitpid(capi, &status, 0) != capi || !WIFEXITED(status)) {
        fail("capi was ended");
    }
    if (cut_off && WEXITSTATUS(status) == 0) {
        fail("the answer was cut off");
    }
    exit(WEXITSTATUS(status));
}

static void say(const char *form, ...) {
    va_list words;
    va_start(words, form);
    if (vfprintf(to, form, words) < 0) {
        end(1);
    }
    va_end(words);
}

static void flush(void) {
    if (fflush(to) != 0) {
        end(1);
    }
}

// A name goes into a line. With a line feed in it the rest would be lines, too, perhaps rules that allow everything, and a
// line that is none ends the conversation: so nothing is said but what is a name of the language, in ASCII.
static const char *name(const char *word) {
    char spaced[NAME + 3];
    size_t size = strlen(word);
    if (size == 0 || size > NAME || !strchr(letters, word[0]) || strspn(word, behind) != size) {
        fail("no name");
    }
    snprintf(spaced, sizeof spaced, " %s ", word);
    if (strstr(reserved, spaced)) {
        fail("a reserved word is no name");
    }
    return word;
}

static FILE *opened(const char *file, const char *mode) {
    char path[PATH];
    int size = snprintf(path, sizeof path, "%s/%s", folder, file);
    return size < 0 || size >= PATH ? NULL : fopen(path, mode);
}

// The text of a file, with a line feed at its end, and how many lines it has.
static const char *text_of(const char *file, unsigned long *lines) {
    static char text[TEXT + 2];
    FILE *stream = opened(file, "rb");
    size_t size = stream ? fread(text, 1, TEXT + 1, stream) : 0;
    if (!stream || ferror(stream) || fclose(stream) != 0 || size > TEXT || memchr(text, 0, size)) {
        fail("a text cannot be read, or is too long, or has a byte 0");
    }
    if (size == 0 || text[size - 1] != '\n') {
        text[size++] = '\n';
    }
    text[size] = 0;
    *lines = 0;
    for (const char *at = text; *at; at++) {
        *lines += *at == '\n';
    }
    return text;
}

// A line of a terminal or a file. What is beyond ASCII is escaped: it may turn the lines of a terminal around.
static int shown(FILE *stream, const char *line) {
    for (; *line; line++) {
        unsigned char byte = (unsigned char)*line;
        if (fprintf(stream, byte < 32 || byte > 126 ? "\\x%02x" : "%c", byte) < 0) {
            return 0;
        }
    }
    return fputc('\n', stream) != EOF && fflush(stream) == 0;
}

// Whether a number of 64 bits stands in the next line of a stream, or nothing, which is 0.
static int is_read(FILE *stream, long long *number) {
    char line[32], *rest;
    clearerr(stream);
    if (!fgets(line, sizeof line, stream)) {
        *number = 0;
        return !ferror(stream);
    }
    errno = 0;
    *number = strtoll(line, &rest, 10);
    return errno == 0 && rest != line && *rest == '\n';
}

static int is_counted(long long *count) {
    FILE *hits = opened("hits", "a+");
    int done = hits && fseek(hits, 0, SEEK_SET) == 0 && is_read(hits, count) && *count < 1LL << 62;
    done = hits && fclose(hits) == 0 && done;
    hits = done ? opened("hits", "w") : NULL;
    done = hits && fprintf(hits, "%lld\n", ++*count) > 0;
    return hits && fclose(hits) == 0 && done;
}

// Carries out the operation of a line and answers it, if it is one. What cannot be carried out stops the run.
static int operated(const char *line) {
    long long number = 0;
    int done, gives = 0;
    if (strncmp(line, "  out print ", 12) == 0) {
        done = shown(stdout, line + 12);
    } else if (strncmp(line, "  out say ", 10) == 0) {
        done = shown(stdout, line + 10);
    } else if (strncmp(line, "  data write ", 13) == 0) {
        done = shown(kept, line + 13);
    } else if (strcmp(line, "  data read") == 0) {
        done = gives = is_read(numbers, &number);
    } else if (strcmp(line, "  hits tick") == 0) {
        done = gives = is_counted(&number);
    } else {
        return 0;
    }
    if (gives) {
        say("%lld\n", number);
    } else {
        say(done ? "ok\n" : "stop\n");
    }
    flush();
    return 1;
}

// Hears the answer to the command that begins so, up to its empty line, and shows what it tells besides operations.
static void hear(const char *command, int is_live) {
    char line[LINE];
    flush();
    while (fgets(line, sizeof line, from)) {
        size_t size = strlen(line);
        if (size == 1 && line[0] == '\n') {
            return;
        }
        if (size == 0 || line[size - 1] != '\n') {
            break;
        }
        line[size - 1] = 0;
        if (!(is_live && operated(line)) && strcmp(line, command) != 0 && !shown(stderr, line)) {
            fail("nothing can be shown");
        }
    }
    end(1);
}

static int is_module(const struct dirent *file) {
    const char *ending = strrchr(file->d_name, '.');
    return ending && strcmp(ending, ".cap") == 0;
}

static void start(char *program) {
    int in[2], out[2];
    if (pipe(in) != 0 || pipe(out) != 0 || signal(SIGPIPE, SIG_IGN) == SIG_ERR || (capi = fork()) < 0) {
        fail("capi cannot be started");
    }
    if (capi == 0) {
        char *words[] = {program, NULL};
        if (dup2(in[0], 0) == 0 && dup2(out[1], 1) == 1 && close(in[0]) == 0 && close(in[1]) == 0 && close(out[0]) == 0
            && close(out[1]) == 0) {
            execv(program, words);
        }
        _exit(127);
    }
    to = close(in[0]) == 0 ? fdopen(in[1], "w") : NULL;
    from = close(out[1]) == 0 ? fdopen(out[0], "r") : NULL;
    if (!to || !from) {
        fail("capi cannot be talked to");
    }
}

int main(int count, char **words) {
    struct dirent **files;
    unsigned long lines;
    char command[2 * NAME + 16], *dot = count == 4 ? strchr(words[3], '.') : NULL;
    int modules;
    if (!dot) {
        fail("usage: host CAPI FOLDER MODULE.DEFINITION");
    }
    *dot = 0;
    folder = words[2];
    numbers = opened("numbers", "r");
    kept = opened("numbers", "a");
    modules = scandir(folder, &files, is_module, alphasort);
    if (!numbers || !kept || modules < 0) {
        fail("the folder cannot be read");
    }
    if (fseek(numbers, -1, SEEK_END) == 0 && fgetc(numbers) != '\n') {
        fail("the last line of numbers lacks its line feed");
    }
    rewind(numbers);
    start(words[1]);
    say("capc 1\ndevice out console\ndevice data file\ndevice hits counter\n");
    for (int at = 0; at < modules; at++) {
        char *module = files[at]->d_name;
        const char *text = text_of(module, &lines);
        *strrchr(module, '.') = 0;
        snprintf(command, sizeof command, "put %s", name(module));
        say("%s %lu\n%s", command, lines, text);
        hear(command, 0);
        free(files[at]);
    }
    free(files);
    say("check\n");
    hear("check", 0);
    const char *rules = text_of("rules", &lines);
    snprintf(command, sizeof command, "policy %lu", lines);
    say("%s\n%s", command, rules);
    hear(command, 0);
    snprintf(command, sizeof command, "live %s.%s", name(words[3]), name(dot + 1));
    say("%s 100000\n", command);
    hear(command, 1);
    end(0);
}
