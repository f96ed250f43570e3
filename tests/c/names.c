/* The names of gemtweed.h: each kind computes what it is called, each sort, limit and mode is tried at its own value, a constant made for an
 * And or an Or has its sort, each refusal is drawn, and what is asked and tallied has its name. Prints how many checks there were, and each
 * that fails. */
#include "gemtweed.h"
#include <stdio.h>
#include <string.h>

enum { ROOM = GEMTWEED_ROOM(GEMTWEED_MOST_NODES, GEMTWEED_MOST_ENTRIES, 2 * GEMTWEED_MOST_ENTRIES, GEMTWEED_MOST_INPUTS) };

static uint64_t words[1 << 16], result[ROOM], scratch[ROOM];
static uint8_t names[2 + (GEMTWEED_MOST_NAMES + 1) * (1 + GEMTWEED_LONGEST_NAME)];
static size_t words_len, names_len;
static int checks, failed;

static void check(int holds, const char *what, uint64_t which)
{
    checks++;
    if (holds)
        return;
    failed++;
    printf("wrong: %s, %llu\n", what, (unsigned long long)which);
}

static gemtweed_answer fold_in(size_t room, uint64_t mode)
{
    return gemtweed_optimize_model_impl(mode, words, words_len, names, names_len, result, room, scratch, room);
}

static gemtweed_answer fold(uint64_t mode)
{
    return fold_in(ROOM, mode);
}

static uint64_t tally(gemtweed_answer answer, int place)
{
    if (answer.number != GEMTWEED_ACCEPTED)
        return UINT64_MAX;
    return result[answer.words - GEMTWEED_TALLY_FIGURES + (size_t)place];
}

static void put_names(unsigned count, unsigned length)
{
    names[0] = (uint8_t)(count & 255);
    names[1] = (uint8_t)(count >> 8);
    names_len = 2;
    for (unsigned name = 0; name < count; name++) {
        names[names_len] = (uint8_t)length;
        memset(names + names_len + 1, 'x', length);
        names_len += 1 + length;
    }
}

static void put(uint64_t count, const uint64_t *given)
{
    memcpy(words + words_len, given, count * sizeof *given);
    words_len += count;
}

static void row(uint64_t kind, uint64_t sort, uint64_t a, uint64_t b, uint64_t c, uint64_t name)
{
    const uint64_t given[GEMTWEED_ROW_WIDTH] = {kind, sort, a, b, c, name};
    put(GEMTWEED_ROW_WIDTH, given);
}

/* A section of so many entries from the first on, each so much above the one before. */
static void entries(uint64_t count, uint64_t first, uint64_t step)
{
    words[words_len++] = count;
    for (uint64_t at = 0; at < count; at++)
        words[words_len++] = first + step * at;
}

/* The rows with one initial bad state, and nothing else. */
static gemtweed_answer fold_bad(uint64_t bad)
{
    entries(0, 0, 0);
    entries(1, bad, 0);
    for (int section = 4; section <= 6; section++)
        entries(0, 0, 0);
    return fold(0);
}

/* Whether a node of two constants, of a bit and of a memory with one write has this value: a bad state that it has stays, and is true. */
static void computes(uint64_t kind, uint64_t sort, uint64_t a, uint64_t b, uint64_t c, uint64_t value)
{
    enum { NODES = 9 };
    words[0] = NODES;
    words_len = 1;
    row(GEMTWEED_CONST, GEMTWEED_WORD, (uint64_t)-100, 0, 0, 0);
    row(GEMTWEED_CONST, GEMTWEED_WORD, 7, 0, 0, 0);
    row(GEMTWEED_CONST, GEMTWEED_BIT, 1, 0, 0, 0);
    row(GEMTWEED_STATE, GEMTWEED_MEMORY, 0, 0, 0, 0);
    row(GEMTWEED_WRITE, GEMTWEED_MEMORY, 3, 1, 0, 0);
    row(kind, sort, a, b, c, 0);
    row(GEMTWEED_CONST, sort, value, 0, 0, 0);
    row(GEMTWEED_EQ, GEMTWEED_BIT, 5, 6, 0, 0);
    row(GEMTWEED_BAD, GEMTWEED_BIT, 7, 0, 0, 0);
    gemtweed_answer answer = fold_bad(NODES - 1);
    check(answer.number == GEMTWEED_ACCEPTED && result[1 + GEMTWEED_ROW_WIDTH * (NODES - 1) + 2] == NODES + 1, "kind", kind);
}

static void kinds(void)
{
    const uint64_t left = (uint64_t)-100, right = 7;
    put_names(0, 0);
    computes(GEMTWEED_CONST, GEMTWEED_WORD, 5, 0, 0, 5);
    computes(GEMTWEED_READ, GEMTWEED_WORD, 4, 1, 0, left);
    computes(GEMTWEED_ADD, GEMTWEED_WORD, 0, 1, 0, left + right);
    computes(GEMTWEED_SUB, GEMTWEED_WORD, 0, 1, 0, left - right);
    computes(GEMTWEED_MUL, GEMTWEED_WORD, 0, 1, 0, left * right);
    computes(GEMTWEED_DIVU, GEMTWEED_WORD, 0, 1, 0, left / right);
    computes(GEMTWEED_DIV, GEMTWEED_WORD, 0, 1, 0, (uint64_t)(-100 / 7));
    computes(GEMTWEED_REM, GEMTWEED_WORD, 0, 1, 0, left % right);
    computes(GEMTWEED_SLL, GEMTWEED_WORD, 0, 1, 0, left << right);
    computes(GEMTWEED_SRL, GEMTWEED_WORD, 0, 1, 0, left >> right);
    computes(GEMTWEED_ULT, GEMTWEED_BIT, 1, 0, 0, 1);
    computes(GEMTWEED_EXT, GEMTWEED_WORD, 2, GEMTWEED_BIT, 0, 1);
    computes(GEMTWEED_ITE, GEMTWEED_WORD, 2, 0, 1, left);
    computes(GEMTWEED_EQ, GEMTWEED_BIT, 0, 1, 0, 0);
    computes(GEMTWEED_AND, GEMTWEED_WORD, 0, 1, 0, left & right);
    computes(GEMTWEED_OR, GEMTWEED_WORD, 0, 1, 0, left | right);
    computes(GEMTWEED_NOT, GEMTWEED_WORD, 0, 0, 0, ~left);
}

/* Tables of one node, and no list. */
static void draws_alone(uint64_t number, uint64_t kind, uint64_t sort, uint64_t a, uint64_t name)
{
    words[0] = 1;
    words_len = 1;
    row(kind, sort, a, 0, 0, name);
    for (int section = 2; section <= 6; section++)
        entries(0, 0, 0);
    check(fold(0).number == number, "sort", sort);
}

static void sorts(void)
{
    put_names(1, 1);
    draws_alone(GEMTWEED_ACCEPTED, GEMTWEED_CONST, GEMTWEED_BIT, 1, 0);
    draws_alone(GEMTWEED_REFUSED_SORTS, GEMTWEED_CONST, GEMTWEED_BIT, 2, 0);
    draws_alone(GEMTWEED_ACCEPTED, GEMTWEED_CONST, GEMTWEED_WORD, UINT64_MAX, 0);
    draws_alone(GEMTWEED_REFUSED_SORTS, GEMTWEED_CONST, GEMTWEED_MEMORY, 0, 0);
    draws_alone(GEMTWEED_ACCEPTED, GEMTWEED_INPUT, GEMTWEED_MEMORY, 0, 1);
    draws_alone(GEMTWEED_REFUSED_MALFORMED, GEMTWEED_INPUT, GEMTWEED_MEMORY, 0, 0);
    for (int bytes = 1; bytes <= 7; bytes++) {
        uint64_t above = (uint64_t)1 << 8 * bytes;
        draws_alone(GEMTWEED_ACCEPTED, GEMTWEED_CONST, GEMTWEED_BYTES(bytes), above - 1, 0);
        draws_alone(GEMTWEED_REFUSED_SORTS, GEMTWEED_CONST, GEMTWEED_BYTES(bytes), above, 0);
    }
    draws_alone(GEMTWEED_REFUSED_MALFORMED, GEMTWEED_CONST, GEMTWEED_BYTES(8), 0, 0);
}

/* The one constant made for a node of two constants of a sort has this number, and the node's sort. */
static void makes(uint64_t kind, uint64_t sort, uint64_t left, uint64_t right, uint64_t number)
{
    enum { NODES = 5 };
    const uint64_t *constants = result + 1 + GEMTWEED_ROW_WIDTH * NODES;
    words[0] = NODES;
    words_len = 1;
    row(GEMTWEED_CONST, sort, left, 0, 0, 0);
    row(GEMTWEED_CONST, sort, right, 0, 0, 0);
    row(kind, sort, 0, 1, 0, 0);
    row(GEMTWEED_EQ, GEMTWEED_BIT, 2, 0, 0, 0);
    row(GEMTWEED_BAD, GEMTWEED_BIT, 3, 0, 0, 0);
    gemtweed_answer answer = fold_bad(NODES - 1);
    check(answer.number == GEMTWEED_ACCEPTED && constants[0] == 3, "made for kind", kind);
    check(constants[5] == sort && constants[6] == number, "made of sort", sort);
}

static void made(void)
{
    put_names(0, 0);
    makes(GEMTWEED_AND, GEMTWEED_BYTES(1), 3, 5, 1);
    makes(GEMTWEED_AND, GEMTWEED_WORD, 3, 5, 1);
    makes(GEMTWEED_OR, GEMTWEED_WORD, 3, 5, 7);
    for (int bytes = 1; bytes <= 7; bytes++) {
        uint64_t top = ((uint64_t)1 << 8 * bytes) - 1;
        makes(GEMTWEED_AND, GEMTWEED_BYTES(bytes), top - 1, 2, 2);
        makes(GEMTWEED_OR, GEMTWEED_BYTES(bytes), top - 1, 1, top);
    }
}

/* So many entries in sections 1 to 6. Node 0 is a bit 0, node 1 a Bad on it; Nexts of states with an init follow, then Consts. */
static void put_sections(const unsigned *counts)
{
    words[0] = counts[0];
    words_len = 1;
    row(GEMTWEED_CONST, GEMTWEED_BIT, 0, 0, 0, 0);
    row(GEMTWEED_BAD, GEMTWEED_BIT, 0, 0, 0, 0);
    for (unsigned pair = 0; pair < counts[1]; pair++) {
        row(GEMTWEED_STATE, GEMTWEED_BIT, 0, 1, 0, 0);
        row(GEMTWEED_NEXT, GEMTWEED_BIT, 2 + 2 * pair, 0, 0, 0);
    }
    for (unsigned node = 2 + 2 * counts[1]; node < counts[0]; node++)
        row(GEMTWEED_CONST, GEMTWEED_BIT, 0, 0, 0, 0);
    entries(counts[1], 3, 2);
    entries(counts[2], 1, 0);
    entries(counts[3], 1, 0);
    entries(counts[4], 0, 0);
    entries(counts[5], 0, 0);
}

static void limits(void)
{
    unsigned counts[] = {
        GEMTWEED_MOST_NODES, GEMTWEED_MOST_ENTRIES, GEMTWEED_MOST_ENTRIES, GEMTWEED_MOST_ENTRIES, GEMTWEED_MOST_INPUTS, GEMTWEED_MOST_REPLIES,
    };
    put_sections(counts);
    put_names(GEMTWEED_MOST_NAMES, GEMTWEED_LONGEST_NAME);
    check(fold(0).number == GEMTWEED_ACCEPTED, "all limits", 0);
    check(fold_in(ROOM - 1, 0).number == GEMTWEED_REFUSED_NO_ROOM, "room", ROOM);
    for (unsigned section = 1; section <= 6; section++) {
        counts[section - 1]++;
        put_sections(counts);
        gemtweed_answer answer = fold(0);
        check(answer.number == GEMTWEED_REFUSED_OVER_LIMIT && answer.section == section, "limit of section", section);
        counts[section - 1]--;
    }
    put_sections(counts);
    put_names(GEMTWEED_MOST_NAMES + 1, 0);
    check(fold(0).number == GEMTWEED_REFUSED_OVER_LIMIT, "most names", GEMTWEED_MOST_NAMES);
    put_names(1, GEMTWEED_LONGEST_NAME + 1);
    check(fold(0).number == GEMTWEED_REFUSED_OVER_LIMIT, "longest name", GEMTWEED_LONGEST_NAME);
}

#define ROW(kind, sort, a, b, c) kind, sort, a, b, c, 0
#define CONST(sort, number) ROW(GEMTWEED_CONST, sort, number, 0, 0)
#define STATE(sort) ROW(GEMTWEED_STATE, sort, 0, 0, 0)
#define WITH_INIT(sort, init) ROW(GEMTWEED_STATE, sort, init, 1, 0)
#define NEXT(sort, state, next) ROW(GEMTWEED_NEXT, sort, state, next, 0)
#define BAD(condition) ROW(GEMTWEED_BAD, GEMTWEED_BIT, condition, 0, 0)
#define ALL_MODES (GEMTWEED_MINIMISE + GEMTWEED_TERMINATE + GEMTWEED_ONE_QUERY)
#define CASE(number, mode, ...) \
    {number, mode, sizeof(uint64_t[]){__VA_ARGS__} / sizeof(uint64_t), (const uint64_t[]){__VA_ARGS__}}

/* docs/DIFFERENCES.md has most of these as the smallest inputs of their refusals. */
static const struct {
    uint64_t number, mode, length;
    const uint64_t *words;
} cases[] = {
    CASE(GEMTWEED_ACCEPTED, ALL_MODES, 0, 0, 0, 0, 0, 0),
    CASE(GEMTWEED_ACCEPTED, GEMTWEED_HIGHEST_MODE, 0, 0, 0, 0, 0, 0),
    CASE(GEMTWEED_REFUSED_SHORT, GEMTWEED_HIGHEST_MODE + 1, 0, 0, 0, 0, 0, 0),
    CASE(GEMTWEED_REFUSED_SHORT, 0, 0, 0, 0, 0, 0),
    CASE(GEMTWEED_REFUSED_OVER_LIMIT, 0, GEMTWEED_MOST_NODES + 1),
    CASE(GEMTWEED_REFUSED_MALFORMED, 0, 1, ROW(GEMTWEED_BAD + 1, GEMTWEED_BIT, 0, 0, 0), 0, 0, 0, 0, 0),
    CASE(GEMTWEED_REFUSED_OPERAND_NOT_BEFORE, 0, 1, ROW(GEMTWEED_NOT, GEMTWEED_BIT, 0, 0, 0), 0, 0, 0, 0, 0),
    CASE(GEMTWEED_REFUSED_SORTS, 0, 2, CONST(GEMTWEED_WORD, 5), BAD(0), 0, 1, 1, 0, 0, 0),
    CASE(GEMTWEED_REFUSED_ENTRY, 0, 1, CONST(GEMTWEED_WORD, 0), 0, 0, 1, 0, 0, 0),
    CASE(GEMTWEED_REFUSED_SECOND_SEQUENTIAL, 0,
        3, STATE(GEMTWEED_WORD), WITH_INIT(GEMTWEED_WORD, 0), NEXT(GEMTWEED_WORD, 1, 0), 2, 2, 2, 0, 0, 0, 0),
    CASE(GEMTWEED_REFUSED_MEMORY_INPUT, 0,
        3, STATE(GEMTWEED_MEMORY), WITH_INIT(GEMTWEED_MEMORY, 0), NEXT(GEMTWEED_MEMORY, 1, 0), 1, 2, 0, 0, 1, 0, 0),
    CASE(GEMTWEED_REFUSED_INPUT_TOO_WIDE, 0, 2, STATE(GEMTWEED_BIT), BAD(0), 0, 1, 1, 0, 1, 2, 0),
    CASE(GEMTWEED_REFUSED_REPLY, 0, 2, STATE(GEMTWEED_BIT), BAD(0), 0, 1, 1, 0, 0, 1, GEMTWEED_REPLY_SATISFIABLE + 1),
    CASE(GEMTWEED_REFUSED_ALWAYS_TRUE, GEMTWEED_TERMINATE, 2, CONST(GEMTWEED_BIT, 1), BAD(0), 0, 1, 1, 0, 0, 0),
    CASE(GEMTWEED_ACCEPTED, GEMTWEED_MINIMISE, 2, CONST(GEMTWEED_BIT, 1), BAD(0), 0, 1, 1, 0, 0, 0),
    CASE(GEMTWEED_REFUSED_SATISFIABLE, GEMTWEED_TERMINATE,
        2, STATE(GEMTWEED_BIT), BAD(0), 0, 1, 1, 0, 0, 1, GEMTWEED_REPLY_SATISFIABLE),
    CASE(GEMTWEED_ACCEPTED, GEMTWEED_TERMINATE, 2, STATE(GEMTWEED_BIT), BAD(0), 0, 1, 1, 0, 0, 1, GEMTWEED_REPLY_YES),
};

static void refusals(void)
{
    put_names(0, 0);
    for (size_t at = 0; at < sizeof cases / sizeof cases[0]; at++) {
        words_len = 0;
        put(cases[at].length, cases[at].words);
        check(fold(cases[at].mode).number == cases[at].number, "case", at);
    }
}

/* A Bad on whether an Ite is its first branch, listed so often, every reply the same: which kinds of questions are asked, how many entries are
 * kept, and the verdict. */
static void asks(uint64_t mode, uint64_t listed, uint64_t reply, unsigned asked, uint64_t kept, uint64_t verdict)
{
    static const size_t widths[] = {GEMTWEED_ROW_WIDTH, 2, 2, 1, 1, 1, 1};
    const uint64_t *at = result;
    uint64_t bads_kept = 0;
    unsigned seen = 0;
    words[0] = 6;
    words_len = 1;
    row(GEMTWEED_STATE, GEMTWEED_WORD, 0, 0, 0, 0);
    row(GEMTWEED_STATE, GEMTWEED_WORD, 0, 0, 0, 0);
    row(GEMTWEED_STATE, GEMTWEED_BIT, 0, 0, 0, 0);
    row(GEMTWEED_ITE, GEMTWEED_WORD, 2, 0, 1, 0);
    row(GEMTWEED_EQ, GEMTWEED_BIT, 3, 0, 0, 0);
    row(GEMTWEED_BAD, GEMTWEED_BIT, 4, 0, 0, 0);
    entries(0, 0, 0);
    entries(listed, 5, 0);
    entries(0, 0, 0);
    entries(0, 0, 0);
    entries(8, reply, 0);
    gemtweed_answer answer = fold(mode);
    for (int section = 1; section <= 7; section++) {
        if (section == 5)
            bads_kept = *at;
        at += 1 + widths[section - 1] * (size_t)*at;
    }
    for (uint64_t question = 0; question < *at; question++)
        seen |= 1u << at[1 + 4 * question];
    check(answer.number == GEMTWEED_ACCEPTED && seen == asked, "questions in mode", mode);
    check(tally(answer, GEMTWEED_TALLY_REPLIES_TAKEN) == *at, "replies taken in mode", mode);
    check(bads_kept == kept && tally(answer, GEMTWEED_TALLY_VERDICT) == verdict, "verdict in mode", mode);
}

static void questions(void)
{
    enum { NO = GEMTWEED_REPLY_NO, YES = GEMTWEED_REPLY_YES, MAYBE = GEMTWEED_REPLY_SATISFIABLE };
    enum { NONE = GEMTWEED_VERDICT_NOT_ONE_QUERY, ONE_QUERY = GEMTWEED_ONE_QUERY };
    const unsigned always_true = 1u << GEMTWEED_ASKED_ALWAYS_TRUE, always_false = 1u << GEMTWEED_ASKED_ALWAYS_FALSE;
    const unsigned equal = 1u << GEMTWEED_ASKED_ALWAYS_EQUAL, satisfiable = 1u << GEMTWEED_ASKED_SATISFIABLE;
    asks(0, 1, MAYBE, satisfiable, 1, NONE);
    asks(0, 1, YES, satisfiable, 0, NONE);
    asks(GEMTWEED_MINIMISE, 1, NO, always_true | always_false | equal | satisfiable, 1, NONE);
    asks(GEMTWEED_MINIMISE, 1, YES, equal, 1, NONE);
    asks(ONE_QUERY, 1, NO, always_false, 1, GEMTWEED_VERDICT_FOUND);
    asks(ONE_QUERY, 1, YES, always_false, 1, GEMTWEED_VERDICT_NOT_FOUND);
    asks(ONE_QUERY, 2, NO, 1u << GEMTWEED_ASKED_ALL_ALWAYS_FALSE, 2, GEMTWEED_VERDICT_FOUND);
    asks(ONE_QUERY, 0, NO, 0, 0, GEMTWEED_VERDICT_ALL_REMOVED);
}

/* A Read at 7 goes past a Write at a State, which it cannot know, to one at 7; the State of the first table takes an input. */
static void tallies(void)
{
    static const uint64_t input_taken[] = {2, STATE(GEMTWEED_BIT), BAD(0), 0, 1, 1, 0, 1, 1, 0};
    static const uint64_t write_passed[] = {
        8, STATE(GEMTWEED_MEMORY), STATE(GEMTWEED_WORD), CONST(GEMTWEED_WORD, 7),
        ROW(GEMTWEED_WRITE, GEMTWEED_MEMORY, 0, 2, 2),
        ROW(GEMTWEED_WRITE, GEMTWEED_MEMORY, 3, 1, 2),
        ROW(GEMTWEED_READ, GEMTWEED_WORD, 4, 2, 0),
        ROW(GEMTWEED_EQ, GEMTWEED_BIT, 5, 1, 0),
        BAD(6), 0, 1, 7, 0, 0, 0,
    };
    words_len = 0;
    put(sizeof input_taken / sizeof *input_taken, input_taken);
    check(tally(fold(0), GEMTWEED_TALLY_INPUTS_TAKEN) == 1, "inputs taken", 1);
    words_len = 0;
    put(sizeof write_passed / sizeof *write_passed, write_passed);
    gemtweed_answer answer = fold(0);
    check(tally(answer, GEMTWEED_TALLY_WRITES_LOOKED_AT) == 2, "writes looked at", 2);
    check(tally(answer, GEMTWEED_TALLY_UNSETTLED_PASSED) == 1, "unsettled writes passed", 1);
}

int main(void)
{
    kinds();
    sorts();
    made();
    limits();
    refusals();
    questions();
    tallies();
    printf("%d checks, %d wrong\n", checks, failed);
    return failed != 0;
}
