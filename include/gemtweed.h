/* Gemtweed for C: the proved fold of BTOR2 models, from libgemtweed.a (x86-64 Linux; ./build_library writes
 * target/staticlib/libgemtweed.a). docs/FORMAT.md says what words, names, modes, results and refusals are.
 *
 *     cc -I include program.c target/staticlib/libgemtweed.a
 *
 * What is proved holds for a caller who keeps these rules:
 *   - A pointer has, for the length beside it, elements that may be read, and for result, scratch and out also written. A length counts
 *     elements: 64-bit words, or bytes for names, substitute and out.
 *   - Each pointer is aligned for its elements (8 bytes for words) and not null, also where its length is 0.
 *   - result, scratch and out overlap no other buffer of the call. words, names and substitute may overlap one another.
 *   - No other thread writes to a buffer during the call, or reads result, scratch or out. Calls on other buffers may run at the same time.
 *   - The stack has room. A node is visited by visiting its operands, so each node of a chain takes stack; 2 MiB are enough for every table
 *     (measured: docs/PERFORMANCE.md, "Stack"). Labels need no such room.
 *
 * No call keeps a pointer, allocates, or reads or writes anything else. Each call ends.
 */
#ifndef GEMTWEED_H
#define GEMTWEED_H

#include <stddef.h>
#include <stdint.h>

#ifdef __cplusplus
extern "C" {
#endif

/* The words of a node, and the mode above which none is taken. */
#define GEMTWEED_ROW_WIDTH 6
#define GEMTWEED_HIGHEST_MODE 7

/* The limits of the sections. */
#define GEMTWEED_MOST_NODES 4096
#define GEMTWEED_MOST_ENTRIES 1024 /* of each list: sequentials, initial bad states, sequential bad states */
#define GEMTWEED_MOST_INPUTS 4096
#define GEMTWEED_MOST_REPLIES 16384
#define GEMTWEED_MOST_NAMES 4096
#define GEMTWEED_LONGEST_NAME 64

/* The room, in words, of each node, of each bad entry, and of a table without any. */
#define GEMTWEED_NODE_ROOM 22
#define GEMTWEED_BAD_ROOM 5
#define GEMTWEED_LEAST_ROOM 22

/* What a mode adds up. */
enum { GEMTWEED_MINIMISE = 1, GEMTWEED_TERMINATE = 2, GEMTWEED_ONE_QUERY = 4 };

/* Sorts, the second word of a node. */
enum { GEMTWEED_BIT = 1, GEMTWEED_WORD = 2, GEMTWEED_MEMORY = 3, GEMTWEED_BYTE = 11 };
#define GEMTWEED_BYTES(count) (GEMTWEED_BYTE - 1 + (count)) /* 1 to 7 */

/* Kinds, the first word of a node. */
enum {
    GEMTWEED_CONST = 1,
    GEMTWEED_READ = 2,
    GEMTWEED_WRITE = 3,
    GEMTWEED_ADD = 4,
    GEMTWEED_SUB = 5,
    GEMTWEED_MUL = 6,
    GEMTWEED_DIVU = 7,
    GEMTWEED_DIV = 8,
    GEMTWEED_REM = 9,
    GEMTWEED_SLL = 10,
    GEMTWEED_SRL = 11,
    GEMTWEED_ULT = 12,
    GEMTWEED_EXT = 13,
    GEMTWEED_ITE = 14,
    GEMTWEED_EQ = 15,
    GEMTWEED_AND = 16,
    GEMTWEED_OR = 17,
    GEMTWEED_NOT = 18,
    GEMTWEED_STATE = 19,
    GEMTWEED_NEXT = 20,
    GEMTWEED_INPUT = 21,
    GEMTWEED_BAD = 22
};

/* Kinds of questions, and replies. */
enum {
    GEMTWEED_ASKED_ALWAYS_TRUE = 1,
    GEMTWEED_ASKED_ALWAYS_FALSE,
    GEMTWEED_ASKED_ALWAYS_EQUAL,
    GEMTWEED_ASKED_SATISFIABLE,
    GEMTWEED_ASKED_ALL_ALWAYS_FALSE
};
enum { GEMTWEED_REPLY_NO = 0, GEMTWEED_REPLY_YES = 1, GEMTWEED_REPLY_SATISFIABLE = 2 };

/* The tally: the last five words of the result, in this order; and the verdicts. */
enum {
    GEMTWEED_TALLY_INPUTS_TAKEN = 0,
    GEMTWEED_TALLY_REPLIES_TAKEN,
    GEMTWEED_TALLY_WRITES_LOOKED_AT,
    GEMTWEED_TALLY_UNSETTLED_PASSED, /* if this is not 0, values are not promised */
    GEMTWEED_TALLY_VERDICT,
    GEMTWEED_TALLY_FIGURES
};
enum {
    GEMTWEED_VERDICT_NOT_ONE_QUERY = 0,
    GEMTWEED_VERDICT_FOUND,
    GEMTWEED_VERDICT_NOT_FOUND,
    GEMTWEED_VERDICT_ALL_REMOVED
};

/* The number of an answer. 9 is not used. */
enum {
    GEMTWEED_ACCEPTED = 0,
    GEMTWEED_REFUSED_SHORT = 1,           /* a section is short, or something is left over; or a mode is too high (section 0) */
    GEMTWEED_REFUSED_OVER_LIMIT,          /* a count or a name's length */
    GEMTWEED_REFUSED_MALFORMED,           /* an unknown kind or sort, a word that must be 0, or a name rule broken */
    GEMTWEED_REFUSED_OPERAND_NOT_BEFORE,  /* its node */
    GEMTWEED_REFUSED_SORTS,               /* a node's sorts do not fit, or its number; or an operand is a Next, a Bad or no State */
    GEMTWEED_REFUSED_ENTRY,               /* past the table, of the wrong kind, or a Next whose state has no init */
    GEMTWEED_REFUSED_SECOND_SEQUENTIAL,   /* for one state */
    GEMTWEED_REFUSED_MEMORY_INPUT,        /* a memory State would take an input */
    GEMTWEED_REFUSED_INPUT_TOO_WIDE = 10, /* for its state */
    GEMTWEED_REFUSED_REPLY,               /* one that its question cannot have */
    GEMTWEED_REFUSED_NO_ROOM,             /* in result (position 0), else in scratch (1) */
    GEMTWEED_REFUSED_ALWAYS_TRUE,         /* a bad state, under terminate */
    GEMTWEED_REFUSED_SATISFIABLE = 14     /* a bad state, under terminate */
};

/* What a fold answers. number 0: accepted, and the result has so many words. Else a refusal, one of those above, with its section and position. */
typedef struct {
    uint64_t number;
    uint64_t section;
    uint64_t position;
    uint64_t words;
} gemtweed_answer;

/* The words that result and scratch each need for so many nodes, sequentials, bad entries of both lists together, and inputs. */
#define GEMTWEED_ROOM(nodes, sequentials, bads, inputs) \
    (GEMTWEED_NODE_ROOM * (nodes) + GEMTWEED_BAD_ROOM * (bads) + (sequentials) + (inputs) + GEMTWEED_LEAST_ROOM)

/* A fold: inputs and replies of the table both count. mode is a sum of those above, or 0. After an accepted call result has the
 * nine result sections and zeros after them; after a refusal it is all zeros. scratch is all zeros after every call. What the two held
 * before does not matter. */
gemtweed_answer gemtweed_optimize_model_impl(
    uint64_t mode,
    const uint64_t *words, size_t words_len,
    const uint8_t *names, size_t names_len,
    uint64_t *result, size_t result_len,
    uint64_t *scratch, size_t scratch_len);

/* The same as though the table had no inputs (section 5 is judged all the same). */
gemtweed_answer gemtweed_optimize_model_with_solver(
    uint64_t mode,
    const uint64_t *words, size_t words_len,
    const uint8_t *names, size_t names_len,
    uint64_t *result, size_t result_len,
    uint64_t *scratch, size_t scratch_len);

/* The same at mode 0, as though the table had no replies. */
gemtweed_answer gemtweed_optimize_model_with_input(
    const uint64_t *words, size_t words_len,
    const uint8_t *names, size_t names_len,
    uint64_t *result, size_t result_len,
    uint64_t *scratch, size_t scratch_len);

/* The label of a node: its name, or the substitute for a node past the table, without a name, or where nodes or names are refused as 1 or 2.
 * Answers the label's length. The label is copied to the front of out, if it has room for all of it; the other bytes of out stay. */
uint64_t gemtweed_label(
    const uint64_t *words, size_t words_len,
    const uint8_t *names, size_t names_len,
    const uint8_t *substitute, size_t substitute_len,
    uint64_t node,
    uint8_t *out, size_t out_len);

#ifdef __cplusplus
}
#endif

#endif
