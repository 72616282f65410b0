/* A host in C: prints as JSON what a script is made of, or why it is refused.
 *
 * usage: host parse|names|tokens FILE
 *
 * The status is 0 for an accepted script, 1 for a refused one, and 2 where there is no answer. */
#include <errno.h>
#include <stdio.h>
#include <stdlib.h>
#include <string.h>

#include "rhai_parser.h"

/* Reads a whole file. Returns null, and says why, if it cannot. */
static char *read_file(const char *name, size_t *length) {
    FILE *file = fopen(name, "rb");
    char *text = NULL;
    size_t room = 0, got = 1;
    for (*length = 0; file && got; *length += got) {
        if (*length == room) {
            char *more = realloc(text, room = 2 * room + 4096);
            if (!more) break;
            text = more;
        }
        got = fread(text + *length, 1, room - *length, file);
    }
    if (!file || got || ferror(file)) {
        fprintf(stderr, "host: %s: %s\n", name, strerror(errno));
        free(text);
        text = NULL;
    }
    if (file) fclose(file);
    return text;
}

static uint32_t ask(const char *what, rhai_engine *engine, const char *text, size_t length, rhai_answer *answer) {
    if (!strcmp(what, "tokens")) return rhai_tokens(engine, text, length, answer);
    if (!strcmp(what, "names")) return rhai_names(engine, text, length, RHAI_SCRIPT, answer);
    return rhai_parse(engine, text, length, RHAI_SCRIPT, answer);
}

/* Prints an answer, and returns the exit status. */
static int print(uint32_t status, const rhai_answer *answer) {
    switch (status) {
        case RHAI_OK:
        case RHAI_REFUSED:
            if (fwrite(answer->text, 1, answer->length, stdout) != answer->length || putchar('\n') == EOF) return 2;
            return (int)status;
        case RHAI_NOT_UTF8:
            fprintf(stderr, "host: not UTF-8 after %zu bytes\n", answer->length);
            return 2;
        default:
            fprintf(stderr, "host: no answer, status %u\n", (unsigned)status);
            return 2;
    }
}

int main(int count, char **words) {
    if (count != 3) {
        fprintf(stderr, "usage: host parse|names|tokens FILE\n");
        return 2;
    }
    size_t length;
    char *text = read_file(words[2], &length);
    if (!text) return 2;
    rhai_engine engine;
    rhai_answer answer;
    rhai_engine_new(&engine); /* without memory there is none, and the next call says so */
    int status = print(ask(words[1], &engine, text, length, &answer), &answer);
    rhai_free(&answer);
    rhai_engine_free(&engine);
    free(text);
    return status;
}
