/* Folds the worked example of docs/FORMAT.md and prints it in the text form; then a refusal, and two labels. */
#include "gemtweed.h"
#include <inttypes.h>
#include <stdio.h>

enum { ROOM = GEMTWEED_ROOM(4, 0, 1, 1) };

/* State "hold-end" without an init; Const 12; whether the one is below the other; a Bad on that. */
static const uint64_t words[] = {
    4,
    GEMTWEED_STATE, GEMTWEED_WORD, 0, 0, 0, 1,
    GEMTWEED_CONST, GEMTWEED_WORD, 12, 0, 0, 0,
    GEMTWEED_ULT, GEMTWEED_BIT, 0, 1, 0, 0,
    GEMTWEED_BAD, GEMTWEED_BIT, 2, 0, 0, 0,
    0,
    1, 3,
    0,
    1, 12,
    0,
};

static const uint8_t names[] = {1, 0, 8, 'h', 'o', 'l', 'd', '-', 'e', 'n', 'd'};

static uint64_t result[ROOM], scratch[ROOM];

enum { WORDS = sizeof words / sizeof words[0] };

static void print_sections(const uint64_t *at)
{
    static const size_t widths[] = {GEMTWEED_ROW_WIDTH, 2, 2, 1, 1, 1, 1, 4, 1};
    puts("accepted");
    for (size_t section = 0; section < 9; section++) {
        size_t left = widths[section] * (size_t)*at;
        printf("%" PRIu64, *at++);
        while (left-- > 0)
            printf(" %" PRIu64, *at++);
        putchar('\n');
    }
}

static void print_answer(gemtweed_answer answer)
{
    if (answer.number == GEMTWEED_ACCEPTED)
        print_sections(result);
    else
        printf("refused %" PRIu64 " %" PRIu64 " %" PRIu64 "\n", answer.number, answer.section, answer.position);
}

static void print_label(uint64_t node)
{
    static const uint8_t substitute[] = "no name";
    uint8_t label[GEMTWEED_LONGEST_NAME];
    uint64_t length = gemtweed_label(words, WORDS, names, sizeof names, substitute, 7, node, label, sizeof label);
    printf("node %" PRIu64 ": %.*s\n", node, (int)length, (const char *)label);
}

int main(void)
{
    print_answer(gemtweed_optimize_model_impl(0, words, WORDS, names, sizeof names, result, ROOM, scratch, ROOM));
    print_answer(gemtweed_optimize_model_with_input(words, WORDS, names, sizeof names, result, ROOM - 1, scratch, ROOM));
    print_label(0);
    print_label(1);
    return 0;
}
