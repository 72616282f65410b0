/* The parser of Rhai 1.27.0 for hosts in C, and in all that calls C.
 *
 * A call takes a script as bytes, and gives its answer as JSON (docs/JSON.md):
 *
 *     rhai_engine engine;
 *     rhai_answer answer;
 *     if (rhai_engine_new(&engine) == RHAI_OK) {
 *         rhai_engine_set(&engine, RHAI_SCRIPT_DEPTH, 32);
 *         switch (rhai_parse(&engine, text, length, RHAI_SCRIPT, &answer)) {
 *             case RHAI_OK: .. the tree is the answer.length bytes from answer.text on ..
 *             case RHAI_REFUSED: .. and here they say why ..
 *             default: .. no answer ..
 *         }
 *         rhai_free(&answer);
 *         rhai_engine_free(&engine);
 *     }
 *
 * Each call but rhai_version returns one of the statuses below, or nothing. The pointers that it is given may be null:
 * the status is then RHAI_BAD_ARGUMENT, unless it says otherwise. The text of a script, or a name, is `length` bytes
 * that may be read; it need not end in a zero byte, and with length 0 it may be null. It is not part of an engine or of
 * an answer.
 *
 * An engine or an answer is set by the call that makes it, and is freed once. A host neither changes nor copies it, and
 * keeps it on the thread that made it. Several threads may have engines and answers of their own, as the library keeps
 * nothing between calls. It allocates by malloc, realloc and free. Not from a signal handler.
 *
 * Where a limit on depth is 0, a script that nests deeply enough overflows the stack.
 *
 * Link librhai_c.a and the kit's liblibc_c.a. A host that cannot read C links rhai_parser.c too, which has the calls of
 * this header as functions; or it makes those that end in _at, which ask that no pointer is null, not even with length
 * 0, and that an engine or answer that is to be made is all zero bytes, or was made before.
 */
#ifndef RHAI_PARSER_H
#define RHAI_PARSER_H

#include <stddef.h>
#include <stdint.h>

#ifndef RHAI_API
#define RHAI_API static inline
#endif

#ifdef __cplusplus
extern "C" {
#endif

/* How a call ended. */
enum rhai_status {
    RHAI_OK = 0,          /* the script is accepted, or the call did what it was to do */
    RHAI_REFUSED = 1,     /* the script is refused, and the answer says why */
    RHAI_NOT_UTF8 = 2,    /* the script, or the name, is not UTF-8 */
    RHAI_NO_MEMORY = 3,   /* memory ran out; nothing changed, and there is no answer */
    RHAI_BAD_ARGUMENT = 4 /* a null pointer, no engine, or a kind, an option or a value that does not exist */
};

/* What a text is read as. */
enum rhai_kind { RHAI_SCRIPT = 0, RHAI_EXPRESSION = 1 };

/* The options of an engine. */
enum rhai_option {
    RHAI_SCRIPT_DEPTH = 0,   /* how deeply a script may nest outside functions; 0 is no limit; at first 64 */
    RHAI_FUNCTION_DEPTH = 1, /* how deeply a function may nest; 0 is no limit; at first 32 */
    RHAI_FUNCTIONS = 2,      /* how many functions and closures a script may have; at first SIZE_MAX */
    RHAI_ARRAY_SIZE = 3,     /* how many items an array literal may have; 0 is no limit; at first 0 */
    RHAI_MAP_SIZE = 4,       /* how many properties an object map literal may have; 0 is no limit; at first 0 */
    RHAI_STRING_SIZE = 5,    /* the greatest length of a string in bytes; 0 is no limit; at first 0 */
    RHAI_LANGUAGE = 6,       /* a sum of bits of enum rhai_language; at first all but RHAI_STRICT_VAR */
    RHAI_DOC_COMMENTS = 7    /* 1: doc comments join their functions, and are tokens; 0: they do not; at first 1 */
};

/* The bits of RHAI_LANGUAGE. */
enum rhai_language {
    RHAI_IF_EXPR = 1,     /* `if` may be an expression */
    RHAI_SWITCH_EXPR = 2, /* `switch` may be an expression */
    RHAI_LOOP_EXPR = 4,   /* loops may be expressions */
    RHAI_STMT_EXPR = 8,   /* blocks may be expressions */
    RHAI_ANON_FN = 16,    /* there may be closures */
    RHAI_LOOPING = 32,    /* there may be loops */
    RHAI_STRICT_VAR = 64, /* all variables and modules have to be known */
    RHAI_SHADOWING = 128  /* a variable may be defined once more */
};

/* What scripts are read under. `held` is the library's, or null. */
typedef struct rhai_engine {
    void *held;
} rhai_engine;

/* What a call tells of a text: `length` bytes of JSON from `text` on, without a zero byte at the end. Without an answer
 * `text` is null, and `length` 0; but for RHAI_NOT_UTF8 it is the number of bytes before the first wrong one. `held` is
 * the library's, or null. */
typedef struct rhai_answer {
    void *held;
    const char *text;
    size_t length;
} rhai_answer;

/* The version of Rhai: 10000 * major + 100 * minor + patch. */
uint32_t rhai_version(void);

/* The library's own calls. The contract of each is proved; the calls below test their pointers, and make these. */
uint32_t rhai_engine_new_at(rhai_engine *engine);
void rhai_engine_free_at(rhai_engine *engine);
uint32_t rhai_engine_set_at(rhai_engine *engine, uint32_t option, size_t value);
uint32_t rhai_engine_add_constant_at(rhai_engine *engine, const uint8_t *name, size_t length);
uint32_t rhai_engine_add_module_at(rhai_engine *engine, const uint8_t *name, size_t length);
uint32_t rhai_parse_at(rhai_engine *engine, const uint8_t *text, size_t length, uint32_t kind, rhai_answer *answer);
uint32_t rhai_names_at(rhai_engine *engine, const uint8_t *text, size_t length, uint32_t kind, rhai_answer *answer);
uint32_t rhai_tokens_at(rhai_engine *engine, const uint8_t *text, size_t length, rhai_answer *answer);
void rhai_free_at(rhai_answer *answer);

/* Whether a text may be read, and where: a null pointer with length 0 is replaced. */
static inline int rhai_may_read(const char **text, size_t length) {
    if (!*text && !length) *text = "";
    return *text && length <= PTRDIFF_MAX;
}

/* Leaves no answer. Returns whether there is a place for one. */
static inline int rhai_may_answer(rhai_answer *answer) {
    rhai_answer none = {NULL, NULL, 0};
    if (answer) *answer = none;
    return answer != NULL;
}

/* Makes an engine with the options above. What `engine` was before is not looked at. RHAI_NO_MEMORY: there is none, and
 * every call with it returns RHAI_BAD_ARGUMENT. */
RHAI_API uint32_t rhai_engine_new(rhai_engine *engine) {
    if (!engine) return RHAI_BAD_ARGUMENT;
    engine->held = NULL;
    return rhai_engine_new_at(engine);
}

/* Frees an engine, if there is one, and leaves none. */
RHAI_API void rhai_engine_free(rhai_engine *engine) {
    if (engine) rhai_engine_free_at(engine);
}

/* Gives an option, one of enum rhai_option, a value. RHAI_BAD_ARGUMENT: there is no such option, or it has no such
 * value, and nothing changes. */
RHAI_API uint32_t rhai_engine_set(rhai_engine *engine, uint32_t option, size_t value) {
    if (!engine) return RHAI_BAD_ARGUMENT;
    return rhai_engine_set_at(engine, option, value);
}

/* Lets scripts know a constant of this name, which matters with RHAI_STRICT_VAR. Where it returns another status than
 * RHAI_OK, nothing changes. */
RHAI_API uint32_t rhai_engine_add_constant(rhai_engine *engine, const char *name, size_t length) {
    if (!engine || !rhai_may_read(&name, length)) return RHAI_BAD_ARGUMENT;
    return rhai_engine_add_constant_at(engine, (const uint8_t *)name, length);
}

/* Lets scripts find a module of this name without importing it, which matters with RHAI_STRICT_VAR. Where it returns
 * another status than RHAI_OK, nothing changes. */
RHAI_API uint32_t rhai_engine_add_module(rhai_engine *engine, const char *name, size_t length) {
    if (!engine || !rhai_may_read(&name, length)) return RHAI_BAD_ARGUMENT;
    return rhai_engine_add_module_at(engine, (const uint8_t *)name, length);
}

/* The tree of a text, or why it is refused. `kind` is one of enum rhai_kind. The engine stays as it is, and what
 * `answer` was before is not looked at. */
RHAI_API uint32_t rhai_parse(rhai_engine *engine, const char *text, size_t length, uint32_t kind, rhai_answer *answer) {
    if (!rhai_may_answer(answer) || !engine || !rhai_may_read(&text, length)) return RHAI_BAD_ARGUMENT;
    return rhai_parse_at(engine, (const uint8_t *)text, length, kind, answer);
}

/* Which names each function of a text needs, or why the text is refused; the arguments are those of rhai_parse. */
RHAI_API uint32_t rhai_names(rhai_engine *engine, const char *text, size_t length, uint32_t kind, rhai_answer *answer) {
    if (!rhai_may_answer(answer) || !engine || !rhai_may_read(&text, length)) return RHAI_BAD_ARGUMENT;
    return rhai_names_at(engine, (const uint8_t *)text, length, kind, answer);
}

/* The tokens of a text. It is never refused, since what cannot be read is a token too. The arguments are those of
 * rhai_parse. */
RHAI_API uint32_t rhai_tokens(rhai_engine *engine, const char *text, size_t length, rhai_answer *answer) {
    if (!rhai_may_answer(answer) || !engine || !rhai_may_read(&text, length)) return RHAI_BAD_ARGUMENT;
    return rhai_tokens_at(engine, (const uint8_t *)text, length, answer);
}

/* Frees an answer, if there is one, and leaves none. */
RHAI_API void rhai_free(rhai_answer *answer) {
    if (answer) rhai_free_at(answer);
}

#ifdef __cplusplus
}
#endif

#endif
