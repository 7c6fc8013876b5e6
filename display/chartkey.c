/* chartkey.c: runs chartkey, the one parser of papers. */
#define _POSIX_C_SOURCE 200809L
#include "chartkey.h"
#include "numbers.h"
#include "say.h"
#include <errno.h>
#include <fcntl.h>
#include <spawn.h>
#include <stdlib.h>
#include <string.h>
#include <sys/wait.h>
#include <unistd.h>

enum { MOST_PATH = 4096, LONGEST_PLACE = 32 };
extern char **environ;

/* ---- running it */

/* Where chartkey is; `path` has room for it. */
static const char *found(char path[MOST_PATH]) {
    static const char *const places[] = { "/chartkey", "/../../chartkey" };
    const char *named = getenv("CHARTKEY");
    if (named && *named) return named;
    ssize_t length = readlink("/proc/self/exe", path, MOST_PATH - LONGEST_PLACE);
    path[length > 0 ? length : 0] = 0;
    char *folder_end = strrchr(path, '/');
    for (size_t k = 0; folder_end && k < sizeof places / sizeof *places; k++) {
        strcpy(folder_end, places[k]);
        if (access(path, X_OK) == 0) return path;
    }
    return "chartkey";
}

/* Starts the program with its output in the pipe and its input from the text, or from nothing. 0, or why it could not. */
static int start(const char *program, char *const words[], const int pipe_ends[2], FILE *text, pid_t *process) {
    posix_spawn_file_actions_t files;
    int why = posix_spawn_file_actions_init(&files);
    if (why) return why;
    if (text) {
        if (lseek(fileno(text), 0, SEEK_SET) < 0) why = errno;
        if (!why) why = posix_spawn_file_actions_adddup2(&files, fileno(text), STDIN_FILENO);
    } else {
        why = posix_spawn_file_actions_addopen(&files, STDIN_FILENO, "/dev/null", O_RDONLY, 0);
    }
    if (!why) why = posix_spawn_file_actions_adddup2(&files, pipe_ends[1], STDOUT_FILENO);
    if (!why) why = posix_spawn_file_actions_addclose(&files, pipe_ends[0]);
    if (!why) why = posix_spawn_file_actions_addclose(&files, pipe_ends[1]);
    if (!why) why = posix_spawnp(process, program, &files, NULL, words, environ);
    posix_spawn_file_actions_destroy(&files);
    return why;
}

int start_chartkey(chartkey_run *run, const char *form, const char *paper, FILE *text) {
    char path[MOST_PATH];
    const char *program = found(path);
    char *words[] = { (char *)program, (char *)form, "--", (char *)(paper ? paper : "-"), NULL };
    int ends[2];
    if (pipe(ends) != 0) {
        say("error: cannot start chartkey: %s", strerror(errno));
        return FAILED;
    }
    int why = start(program, words, ends, text, &run->process);
    close(ends[1]);
    run->output = why ? NULL : fdopen(ends[0], "rb");
    if (run->output) return WELL;
    close(ends[0]);
    say("error: a paper is read by chartkey, and %s cannot be run: %s; set CHARTKEY to where it is", program, strerror(why ? why : errno));
    return FAILED;
}

int end_chartkey(chartkey_run *run) {
    int status = 0;
    pid_t ended;
    fclose(run->output);
    do ended = waitpid(run->process, &status, 0);
    while (ended < 0 && errno == EINTR);
    if (ended > 0 && WIFEXITED(status)) return WEXITSTATUS(status);
    say("error: chartkey was ended by signal %d", ended > 0 && WIFSIGNALED(status) ? WTERMSIG(status) : 0);
    return FAILED;
}

/* ---- title and id out of its JSON */

/* A character of UTF-8 below 65,536; the place after it. */
static char *put_character(char *to, unsigned code) {
    if (code < 0x80) {
        *to++ = (char)code;
    } else if (code < 0x800) {
        *to++ = (char)(0xC0 | code >> 6);
        *to++ = (char)(0x80 | (code & 0x3F));
    } else {
        *to++ = (char)(0xE0 | code >> 12);
        *to++ = (char)(0x80 | (code >> 6 & 0x3F));
        *to++ = (char)(0x80 | (code & 0x3F));
    }
    return to;
}

/* The text of a JSON string from its first quote on, in its own place; null if it is none, or no line of text. */
static char *unquoted(char *at) {
    if (*at++ != '"') return NULL;
    char *text = at, *to = at;
    for (; *at && *at != '"'; at++) {
        if (*at != '\\') {
            *to++ = *at;
        } else if (*++at == 'u') {
            char digits[5] = { 0 };
            for (int k = 0; k < 4 && at[1]; k++) digits[k] = *++at;
            to = put_character(to, (unsigned)strtoul(digits, NULL, 16));
        } else if (strchr("\"\\/", *at) && *at) {
            *to++ = *at;
        } else {
            return NULL;
        }
    }
    if (*at != '"') return NULL;
    *to = 0;
    return is_text(text) ? text : NULL;
}

/* A line of the JSON: its key and value stand on a line of their own, and no string has a line feed inside. */
static void take_name(char *line, const char *key, char **name) {
    size_t length = strlen(key);
    if (*name || strncmp(line, key, length) != 0) return;
    char *text = unquoted(line + length);
    if (text) *name = strdup(text);
}

void read_names(FILE *json, char **title, char **id) {
    char *line = NULL;
    size_t room = 0;
    while (getline(&line, &room, json) > 0) {
        take_name(line, " \"title\": ", title);
        take_name(line, " \"id\": ", id);
    }
    free(line);
}
