/* A host in C: the README's full adder through every call, and the smallest map on which a run is stuck. Prints what the calls give. */
#include "peeriewick.h"
#include <stdio.h>
#include <string.h>

enum { GATES = 8 };

static const uint8_t map[68] = {
    12, 0, 8, 0, 44, 0, 10, 0, 64, 0, 1, 0, /* contents */
    PEERIEWICK_KIND_INPUT, 0, 0, 0,         /* gates 0 to 7: kind, fan-in, first child position */
    PEERIEWICK_KIND_INPUT, 0, 0, 0,
    PEERIEWICK_KIND_INPUT, 0, 0, 0,
    PEERIEWICK_KIND_XOR, 2, 0, 0,
    PEERIEWICK_KIND_AND, 2, 2, 0,
    PEERIEWICK_KIND_AND, 2, 4, 0,
    PEERIEWICK_KIND_XOR, 2, 6, 0,
    PEERIEWICK_KIND_OR, 2, 8, 0,
    0, 0, 1, 0, 0, 0, 1, 0, 2, 0, 3, 0, 2, 0, 3, 0, 4, 0, 5, 0, /* children */
    7, 0, 1, 0,                                                 /* gate 7 is to be 1 */
};
static const uint8_t start[GATES] = {0, 0, 1, 1, 0, 1, 0, 1};
static const uint8_t row[3] = {1, 0, 1};
static const uint8_t tape[4] = {0, 0, PEERIEWICK_ENTRY_DOWN, 0}; /* draw 0, down, option 0 */

/* An input and its NOT, both coded 0: no state shows that. */
enum { STUCK_GATES = 2 };

static const uint8_t stuck_map[30] = {
    12, 0, 2, 0, 20, 0, 1, 0, 22, 0, 2, 0, /* contents */
    PEERIEWICK_KIND_INPUT, 0, 0, 0,        /* gates 0 and 1 */
    PEERIEWICK_KIND_NOT, 1, 0, 0,
    0, 0,                   /* the child of gate 1 */
    0, 0, 0, 0, 1, 0, 0, 0, /* both are to be 0 */
};

static void show(const char *what, const uint8_t *bytes, size_t count)
{
    printf("%s", what);
    for (size_t i = 0; i < count; i++)
        printf(" %u", bytes[i]);
    printf("\n");
}

/* What a run returned and its numbers, which are read only where it was accepted. Each ending has its own line: only after Found is there an answer. */
static void show_run(const char *what, uint8_t number, const size_t *n)
{
    printf("%s %u: ", what, number);
    if (number != PEERIEWICK_ACCEPTED) {
        printf("refused\n");
        return;
    }
    switch (n[PEERIEWICK_RUN_ENDING]) {
    case PEERIEWICK_FOUND:
        printf("found, moves %zu, flips %zu\n", n[PEERIEWICK_RUN_MOVES], n[PEERIEWICK_RUN_FLIPS]);
        break;
    case PEERIEWICK_SPENT:
        printf("spent, moves %zu, flips %zu, front %zu\n", n[PEERIEWICK_RUN_MOVES], n[PEERIEWICK_RUN_FLIPS], n[PEERIEWICK_RUN_FRONT]);
        break;
    case PEERIEWICK_STUCK:
        printf("stuck, moves %zu, flips %zu\n", n[PEERIEWICK_RUN_MOVES], n[PEERIEWICK_RUN_FLIPS]);
        break;
    }
}

/* Check, children, evaluate, mark and survey on the adder. */
static void show_state(void)
{
    size_t n[PEERIEWICK_NUMBERS] = {0, 0, 0, 0};
    uint8_t out[GATES] = {0};
    uint8_t number = peeriewick_check(map, sizeof map, n, PEERIEWICK_NUMBERS);
    printf("check %u: %zu gates, %zu inputs, %zu children, %zu code\n", number, n[PEERIEWICK_CHECK_GATES],
           n[PEERIEWICK_CHECK_INPUTS], n[PEERIEWICK_CHECK_CHILDREN], n[PEERIEWICK_CHECK_CODES]);

    peeriewick_children(map, sizeof map, 5, n, PEERIEWICK_NUMBERS);
    printf("children of gate 5: %zu bytes from byte %zu on\n", n[PEERIEWICK_CHILDREN_LENGTH], n[PEERIEWICK_CHILDREN_PLACE]);

    number = peeriewick_evaluate(map, sizeof map, row, sizeof row, out, sizeof out);
    printf("evaluate %u:", number);
    show("", out, GATES);

    number = peeriewick_mark(map, sizeof map, out, sizeof out, n, PEERIEWICK_NUMBERS);
    printf("mark %u: %zu\n", number, n[PEERIEWICK_MARK_YES]);
    number = peeriewick_mark(map, sizeof map, start, sizeof start, n, PEERIEWICK_NUMBERS);
    printf("mark of the start %u: %zu\n", number, n[PEERIEWICK_MARK_YES]);

    number = peeriewick_survey(map, sizeof map, start, sizeof start, out, sizeof out, n, PEERIEWICK_NUMBERS);
    printf("survey %u: front %zu, interest %zu:", number, n[PEERIEWICK_SURVEY_FRONT], n[PEERIEWICK_SURVEY_INTEREST]);
    show("", out, GATES);
}

/* Move and run on the adder, and a call that is refused. */
static void show_search(void)
{
    size_t n[PEERIEWICK_NUMBERS] = {0, 0, 0, 0};
    uint8_t work[GATES] = {0}, answer[GATES] = {0}, configuration[GATES];
    memcpy(configuration, start, GATES);
    uint8_t number = peeriewick_move(map, sizeof map, configuration, sizeof configuration, tape, sizeof tape,
                                     work, sizeof work, n, PEERIEWICK_NUMBERS);
    printf("move %u: gate %zu, %zu turned:", number, n[PEERIEWICK_MOVE_GATE], n[PEERIEWICK_MOVE_TURNED]);
    show("", configuration, GATES);

    memcpy(configuration, start, GATES);
    number = peeriewick_run(map, sizeof map, configuration, sizeof configuration, tape, sizeof tape,
                            work, sizeof work, answer, sizeof answer, n, PEERIEWICK_NUMBERS);
    show_run("run", number, n);
    if (number == PEERIEWICK_ACCEPTED && n[PEERIEWICK_RUN_ENDING] == PEERIEWICK_FOUND)
        show("its answer:", answer, GATES);

    number = peeriewick_run(map, sizeof map - 1, configuration, sizeof configuration, NULL, 0, work, sizeof work,
                            answer, sizeof answer, NULL, 0);
    show_run("run on a map that is cut off", number, NULL);
}

/* Export of the adder, and a call that is refused as its memory is a byte too short. */
static void show_export(void)
{
    static uint8_t text[PEERIEWICK_TEXT];
    size_t n[PEERIEWICK_NUMBERS] = {0, 0, 0, 0};
    uint8_t number = peeriewick_export(map, sizeof map, text, sizeof text, n, PEERIEWICK_NUMBERS);
    if (number != PEERIEWICK_ACCEPTED) {
        printf("export %u: refused\n", number);
        return;
    }
    size_t length = n[PEERIEWICK_EXPORT_LENGTH];
    printf("export %u: %zu bytes\n", number, length);
    fwrite(text, 1, length, stdout);

    number = peeriewick_export(map, sizeof map, text, length - 1, NULL, 0);
    printf("export to a byte less: %u\n", number);
}

/* The map that is stuck: by a move, by a run, and by a run without an entry, which is spent. */
static void show_stuck(void)
{
    size_t n[PEERIEWICK_NUMBERS] = {0, 0, 0, 0};
    uint8_t configuration[STUCK_GATES] = {0, 0}, work[STUCK_GATES] = {0}, answer[STUCK_GATES] = {0};
    uint8_t number = peeriewick_move(stuck_map, sizeof stuck_map, configuration, sizeof configuration, tape, sizeof tape,
                                     work, sizeof work, n, PEERIEWICK_NUMBERS);
    printf("stuck move %u: gate %zu, %zu turned:", number, n[PEERIEWICK_MOVE_GATE], n[PEERIEWICK_MOVE_TURNED]);
    show("", configuration, STUCK_GATES);

    number = peeriewick_run(stuck_map, sizeof stuck_map, configuration, sizeof configuration, tape, sizeof tape,
                            work, sizeof work, answer, sizeof answer, n, PEERIEWICK_NUMBERS);
    show_run("stuck run", number, n);
    show("its survey:", work, STUCK_GATES);

    number = peeriewick_run(stuck_map, sizeof stuck_map, configuration, sizeof configuration, NULL, 0,
                            work, sizeof work, answer, sizeof answer, n, PEERIEWICK_NUMBERS);
    show_run("the same without an entry", number, n);
}

int main(void)
{
    show_state();
    show_search();
    show_stuck();
    show_export();
    return 0;
}
