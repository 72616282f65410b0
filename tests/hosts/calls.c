/* Calls of the library for C that no host should make, and calls without memory.
 *
 * usage: calls arguments       prints what calls with odd arguments and with each option return
 *        calls refuse FILE     makes each call on a script with each of its allocations refused
 *
 * It is linked with --wrap=malloc and --wrap=realloc. The status is 1 if a call without memory tells anything else than
 * that memory ran out, or the same as with memory. */
#include <stdio.h>
#include <stdlib.h>
#include <string.h>

#include "rhai_parser.h"

/* The allocation that is refused, counted from 1 at the next one; 0 for none. */
static size_t refused;

void *__real_malloc(size_t size);
void *__real_realloc(void *at, size_t size);
void *__wrap_malloc(size_t size);
void *__wrap_realloc(void *at, size_t size);

static int is_refused(void) { return refused && !--refused; }

void *__wrap_malloc(size_t size) { return is_refused() ? NULL : __real_malloc(size); }

void *__wrap_realloc(void *at, size_t size) { return is_refused() ? NULL : __real_realloc(at, size); }

/* Prints a status. */
static void show(const char *what, uint32_t status) { printf("%s: %u\n", what, (unsigned)status); }

/* Prints a status and an answer, and frees that. */
static void tell(const char *what, uint32_t status, rhai_answer *answer) {
    printf("%s: %u %zu %.*s\n", what, (unsigned)status, answer->length, answer->text ? (int)answer->length : 1,
           answer->text ? answer->text : "-");
    rhai_free(answer);
}

static uint32_t parse(rhai_engine *engine, const char *text, rhai_answer *answer) {
    return rhai_parse(engine, text, strlen(text), RHAI_SCRIPT, answer);
}

/* Prints the status of a script under a new engine, and once an option has a value. */
static void option(const char *what, uint32_t number, size_t value, const char *text) {
    rhai_engine engine;
    rhai_answer answer;
    rhai_engine_new(&engine);
    uint32_t before = parse(&engine, text, &answer);
    rhai_free(&answer);
    uint32_t set = rhai_engine_set(&engine, number, value);
    uint32_t after = parse(&engine, text, &answer);
    rhai_free(&answer);
    rhai_engine_free(&engine);
    printf("%s: %u %u %u\n", what, (unsigned)before, (unsigned)set, (unsigned)after);
}

static void options(void) {
    option("depth of a script", RHAI_SCRIPT_DEPTH, 2, "((((1))))");
    option("depth of a function", RHAI_FUNCTION_DEPTH, 2, "fn f() { ((((1)))) }");
    option("functions", RHAI_FUNCTIONS, 0, "fn f() { }");
    option("array", RHAI_ARRAY_SIZE, 1, "[1, 2]");
    option("map", RHAI_MAP_SIZE, 1, "#{a: 1, b: 2}");
    option("string", RHAI_STRING_SIZE, 1, "\"ab\"");
    option("language", RHAI_LANGUAGE, 191 - RHAI_LOOPING, "loop { }");
    option("language, too large", RHAI_LANGUAGE, 256, "loop { }");
    option("doc comments", RHAI_DOC_COMMENTS, 0, "/// a\nlet x = 1;");
    option("doc comments, too large", RHAI_DOC_COMMENTS, 2, "/// a\nlet x = 1;");
    option("no option", 8, 0, "1");
}

/* Names from outside, with strict variables. */
static void names(void) {
    rhai_engine engine;
    rhai_answer answer;
    rhai_engine_new(&engine);
    rhai_engine_set(&engine, RHAI_LANGUAGE, 255);
    show("unknown constant", parse(&engine, "x", &answer));
    rhai_free(&answer);
    show("unknown module", parse(&engine, "m::f()", &answer));
    rhai_free(&answer);
    show("add a constant", rhai_engine_add_constant(&engine, "x", 1));
    show("add a module", rhai_engine_add_module(&engine, "m", 1));
    show("known constant", parse(&engine, "x", &answer));
    rhai_free(&answer);
    show("known module", parse(&engine, "m::f()", &answer));
    rhai_free(&answer);
    show("constant of no name", rhai_engine_add_constant(&engine, NULL, 0));
    show("constant at null", rhai_engine_add_constant(&engine, NULL, 1));
    show("constant not UTF-8", rhai_engine_add_constant(&engine, "\xff", 1));
    show("module at null", rhai_engine_add_module(&engine, NULL, 1));
    show("module not UTF-8", rhai_engine_add_module(&engine, "\xff", 1));
    rhai_engine_free(&engine);
}

static void nulls(void) {
    rhai_engine none = {NULL};
    rhai_answer answer;
    show("engine at null", rhai_engine_new(NULL));
    show("set at null", rhai_engine_set(NULL, RHAI_SCRIPT_DEPTH, 1));
    show("constant, engine at null", rhai_engine_add_constant(NULL, "x", 1));
    show("module, engine at null", rhai_engine_add_module(NULL, "x", 1));
    tell("parse, engine at null", rhai_parse(NULL, "1", 1, RHAI_SCRIPT, &answer), &answer);
    tell("names, engine at null", rhai_names(NULL, "1", 1, RHAI_SCRIPT, &answer), &answer);
    tell("tokens, engine at null", rhai_tokens(NULL, "1", 1, &answer), &answer);
    show("set, no engine", rhai_engine_set(&none, RHAI_SCRIPT_DEPTH, 1));
    show("constant, no engine", rhai_engine_add_constant(&none, "x", 1));
    show("module, no engine", rhai_engine_add_module(&none, "x", 1));
    tell("parse, no engine", rhai_parse(&none, "1", 1, RHAI_SCRIPT, &answer), &answer);
    tell("tokens, no engine", rhai_tokens(&none, "1", 1, &answer), &answer);
    rhai_engine_free(NULL);
    rhai_engine_free(&none);
    rhai_free(NULL);
}

static void texts(void) {
    rhai_engine engine;
    rhai_answer answer;
    show("new engine", rhai_engine_new(&engine));
    show("answer at null", rhai_parse(&engine, "1", 1, RHAI_SCRIPT, NULL));
    tell("text at null", rhai_parse(&engine, NULL, 1, RHAI_SCRIPT, &answer), &answer);
    tell("length too large", rhai_parse(&engine, "1", SIZE_MAX, RHAI_SCRIPT, &answer), &answer);
    tell("no kind", rhai_parse(&engine, "1", 1, 2, &answer), &answer);
    tell("not UTF-8", rhai_parse(&engine, "a\xff", 2, RHAI_SCRIPT, &answer), &answer);
    tell("names, not UTF-8", rhai_names(&engine, "ab\xff", 3, RHAI_SCRIPT, &answer), &answer);
    tell("tokens, not UTF-8", rhai_tokens(&engine, "abc\xff", 4, &answer), &answer);
    tell("empty script", rhai_parse(&engine, NULL, 0, RHAI_SCRIPT, &answer), &answer);
    tell("names of nothing", rhai_names(&engine, NULL, 0, RHAI_SCRIPT, &answer), &answer);
    tell("empty expression", rhai_parse(&engine, NULL, 0, RHAI_EXPRESSION, &answer), &answer);
    tell("tokens of nothing", rhai_tokens(&engine, NULL, 0, &answer), &answer);
    show("statement as a script", rhai_parse(&engine, "let x;", 6, RHAI_SCRIPT, &answer));
    rhai_free(&answer);
    show("statement as an expression", rhai_parse(&engine, "let x;", 6, RHAI_EXPRESSION, &answer));
    rhai_free(&answer);
    show("whole text", rhai_parse(&engine, "1(", 2, RHAI_SCRIPT, &answer));
    rhai_free(&answer);
    show("front of the text", rhai_parse(&engine, "1(", 1, RHAI_SCRIPT, &answer));
    rhai_free(&answer);
    rhai_free(&answer);
    rhai_engine_free(&engine);
    rhai_engine_free(&engine);
    show("freed engine", rhai_engine_set(&engine, RHAI_SCRIPT_DEPTH, 1));
}

/* A call on a script, by its number. */
static uint32_t call(int number, rhai_engine *engine, const char *text, size_t length, rhai_answer *answer) {
    switch (number) {
        case 0: return rhai_parse(engine, text, length, RHAI_SCRIPT, answer);
        case 1: return rhai_names(engine, text, length, RHAI_SCRIPT, answer);
        default: return rhai_tokens(engine, text, length, answer);
    }
}

/* Whether there is no answer, or the same. */
static int is_well(uint32_t status, const rhai_answer *got, uint32_t wanted, const rhai_answer *answer) {
    if (status == RHAI_NO_MEMORY) return !got->held && !got->text && !got->length;
    return status == wanted && got->length == answer->length && !memcmp(got->text, answer->text, got->length);
}

/* Makes a call with each allocation refused, until none is. Returns how many calls told something wrong. */
static int refuse(int number, rhai_engine *engine, const char *text, size_t length) {
    rhai_answer answer, got;
    size_t allocations = 0, without = 0;
    uint32_t wanted = call(number, engine, text, length, &answer);
    int wrong = wanted > RHAI_REFUSED, left = 0;
    do {
        refused = ++allocations;
        uint32_t status = call(number, engine, text, length, &got);
        left = refused != 0;
        refused = 0;
        wrong += !is_well(status, &got, wanted, &answer);
        without += status == RHAI_NO_MEMORY;
        rhai_free(&got);
    } while (!left);
    printf("call %d: status %u, %zu allocations, %zu refusals told\n", number, (unsigned)wanted, allocations - 1,
           without);
    rhai_free(&answer);
    return wrong;
}

/* Makes an engine with names, with each allocation refused. Returns how many calls told something wrong. */
static int refuse_engine(void) {
    rhai_engine engine;
    int wrong = 0;
    for (size_t number = 1; number < 12; number++) {
        refused = number;
        uint32_t made = rhai_engine_new(&engine);
        uint32_t constant = rhai_engine_add_constant(&engine, "x", 1);
        uint32_t module = rhai_engine_add_module(&engine, "m", 1);
        refused = 0;
        if (made == RHAI_NO_MEMORY)
            wrong += engine.held || constant != RHAI_BAD_ARGUMENT || module != RHAI_BAD_ARGUMENT;
        else
            wrong += made || (constant && constant != RHAI_NO_MEMORY) || (module && module != RHAI_NO_MEMORY);
        rhai_engine_free(&engine);
    }
    return wrong;
}

static int refuse_all(const char *name) {
    static char text[1 << 16];
    FILE *file = fopen(name, "rb");
    size_t length = file ? fread(text, 1, sizeof text, file) : 0;
    if (file) fclose(file);
    rhai_engine engine;
    rhai_engine_new(&engine);
    int wrong = refuse_engine() + !length;
    for (int number = 0; number < 3; number++) wrong += refuse(number, &engine, text, length);
    rhai_engine_free(&engine);
    printf("%d wrong\n", wrong);
    return wrong != 0;
}

int main(int count, char **words) {
    if (count == 3 && !strcmp(words[1], "refuse")) return refuse_all(words[2]);
    printf("version: %u\n", (unsigned)rhai_version());
    nulls();
    texts();
    options();
    names();
    return 0;
}
