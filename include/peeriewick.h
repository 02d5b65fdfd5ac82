/* Peeriewick for C hosts: its calls, proved in Rattle.
 *
 * `./archives` makes a static library for each service level in target/staticlib; link with one of them:
 *     libpeeriewick_state.a     check, children, evaluate, mark, export
 *     libpeeriewick_survey.a    and survey
 *     libpeeriewick_search.a    and move and run
 *
 * docs/FORMAT.md has the bytes of maps, rows, configurations, tapes, surveys and texts. Two-byte numbers have the lower byte first.
 *
 * A lent buffer is a pointer and a length in elements; `NULL, 0` is an empty one. Buffers that a call writes must not overlap any other
 * buffer of that call. Any bytes may be given, and output, text, work and answer memory and `numbers` may hold anything before a call. No call allocates or keeps anything
 * between calls: calls may run at the same time, on the same map too, as long as none writes what another reads or writes. A call takes less than 6 KiB of
 * stack, and of the C library memset alone.
 *
 * Each call but peeriewick_children returns the number that it is refused with, or 0. Other numbers of the answer go into
 * `numbers`, at the places named before each call, as many as it has places for; `NULL, 0` where none is wanted. A refused call leaves every buffer
 * as it was, `numbers` too: read that only after a return of 0. An accepted one writes what is said below into the first elements of a buffer,
 * and leaves its surplus as it was. */
#ifndef PEERIEWICK_H
#define PEERIEWICK_H

#include <stddef.h>
#include <stdint.h>

#ifdef __cplusplus
extern "C" {
#endif

/* The most gates of a map: output, work and answer memory of this size is always long enough. (A row or configuration has exactly its length.) */
#define PEERIEWICK_GATES 1024

/* The most bytes of a text: text memory of this size is always long enough. */
#define PEERIEWICK_TEXT 141716

/* The most numbers that a call puts into `numbers`: this many places are enough for each. */
#define PEERIEWICK_NUMBERS 4

/* The kind of a gate: the first byte of its record in a map. */
enum {
    PEERIEWICK_KIND_INPUT = 0,
    PEERIEWICK_KIND_NOT = 1,
    PEERIEWICK_KIND_AND = 2,
    PEERIEWICK_KIND_OR = 3,
    PEERIEWICK_KIND_XOR = 4,
    PEERIEWICK_KIND_VOTER = 5 /* 1 where at least two of its three children are */
};

/* The kind of a tape entry: its third byte. */
enum {
    PEERIEWICK_ENTRY_GREEDY = 0,
    PEERIEWICK_ENTRY_DOWN = 1,
    PEERIEWICK_ENTRY_UP = 2
};

/* A gate's byte in a survey is the sum of those that hold. */
enum {
    PEERIEWICK_IN_CONE = 1,
    PEERIEWICK_IN_FRONT = 2,
    PEERIEWICK_IN_INTEREST = 4
};

/* What a call returns: 0, or the number of the first test that fails. No call gives 8. */
enum {
    PEERIEWICK_ACCEPTED = 0,
    PEERIEWICK_REFUSED_CONTENTS = 1,    /* the map is shorter than 12 bytes */
    PEERIEWICK_REFUSED_GATES = 2,       /* it has no gate or more than 1,024 */
    PEERIEWICK_REFUSED_OFFSETS = 3,     /* an offset or the length isn't what the counts give */
    PEERIEWICK_REFUSED_KINDS = 4,       /* a kind is above 5 or a fan-in isn't allowed for its kind */
    PEERIEWICK_REFUSED_POSITIONS = 5,   /* a first child position or the child count is wrong */
    PEERIEWICK_REFUSED_CHILDREN = 6,    /* a child isn't below its gate or doesn't ascend */
    PEERIEWICK_REFUSED_CODES = 7,       /* a code's gate is past the last or doesn't ascend, or its value or zero byte is wrong */
    PEERIEWICK_REFUSED_LENGTH = 9,      /* the row or configuration has the wrong length */
    PEERIEWICK_REFUSED_VALUES = 10,     /* it has a byte above 1 */
    PEERIEWICK_REFUSED_START = 11,      /* a coded gate's value isn't its code */
    PEERIEWICK_REFUSED_TAPE = 12,       /* the tape's length isn't a multiple of 4 or is above 65,532; a lent entry isn't 4 bytes */
    PEERIEWICK_REFUSED_ENTRIES = 13,    /* an entry, even one never reached, has a kind above 2 */
    PEERIEWICK_REFUSED_MEMORY = 14,     /* output, work or answer memory is shorter than the gate count */
    PEERIEWICK_REFUSED_FRONT = 15,      /* the front is empty */
    PEERIEWICK_REFUSED_TEXT = 16        /* the text memory is shorter than the text */
};

/* Checks a map. Numbers: the counts of gates, inputs, children and codes. Refused with 1 to 7. */
enum {
    PEERIEWICK_CHECK_GATES = 0,
    PEERIEWICK_CHECK_INPUTS = 1,
    PEERIEWICK_CHECK_CHILDREN = 2,
    PEERIEWICK_CHECK_CODES = 3
};
uint8_t peeriewick_check(const uint8_t *map, size_t map_len,
                         size_t *numbers, size_t numbers_len);

/* Where in the map the children of a gate stand, two bytes each. It is never refused. Numbers: the place of the first byte, the length in bytes. The
 * length is 0 for an input, a gate past the end or a map that check refuses; the place is then 0 too, but for an input of an accepted map, where it
 * is the place at which its children would stand. */
enum {
    PEERIEWICK_CHILDREN_PLACE = 0,
    PEERIEWICK_CHILDREN_LENGTH = 1
};
void peeriewick_children(const uint8_t *map, size_t map_len, size_t gate,
                         size_t *numbers, size_t numbers_len);

/* Writes the value of every gate for a row. `row`: exactly one byte 0 or 1 for each input, by gate number. `out`: room for a byte per gate, written. Refused with
 * 1 to 7, 9, 10 and 14. */
uint8_t peeriewick_evaluate(const uint8_t *map, size_t map_len,
                            const uint8_t *row, size_t row_len,
                            uint8_t *out, size_t out_len);

/* Does the configuration obey every gate and show every code? `configuration`: exactly a byte 0 or 1 for each gate. Numbers: 1 for yes, 0 for no. Refused
 * with 1 to 7, 9 and 10. */
enum {
    PEERIEWICK_MARK_YES = 0
};
uint8_t peeriewick_mark(const uint8_t *map, size_t map_len,
                        const uint8_t *configuration, size_t configuration_len,
                        size_t *numbers, size_t numbers_len);

/* Writes the map as DIMACS CNF, for clause solvers: `p cnf`, the counts of gates and of clauses, and then a clause a line. Gate g is variable g + 1. Values of the variables satisfy the clauses
 * exactly where mark says yes to the configuration in which gate g is 1 where variable g + 1 is true and else 0; a variable that a solver leaves out may have either value. So they are
 * unsatisfiable exactly where no state shows the codes. `text`: room for the whole text, written: PEERIEWICK_TEXT bytes are always enough, and a refused call doesn't say how many are. Each line ends with
 * a line feed, and no zero byte stands behind the last: the number alone says where the text ends. Numbers: the text's length. Refused with 1 to 7 and 16. */
enum {
    PEERIEWICK_EXPORT_LENGTH = 0
};
uint8_t peeriewick_export(const uint8_t *map, size_t map_len,
                          uint8_t *text, size_t text_len,
                          size_t *numbers, size_t numbers_len);

/* Writes where each gate stands in a search. `configuration`: exactly a byte 0 or 1 for each gate, with the codes kept. `out`: room for a byte per gate, written: 1 in the
 * cone, plus 2 in the front, plus 4 interesting. Numbers: the sizes of front and interest set, the second without NOT gates. Refused with 1 to 7, 9 to 11 and 14. */
enum {
    PEERIEWICK_SURVEY_FRONT = 0,
    PEERIEWICK_SURVEY_INTEREST = 1
};
uint8_t peeriewick_survey(const uint8_t *map, size_t map_len,
                          const uint8_t *configuration, size_t configuration_len,
                          uint8_t *out, size_t out_len,
                          size_t *numbers, size_t numbers_len);

/* Does one tape entry. `configuration`: exactly a byte 0 or 1 for each gate, with the codes kept; it becomes the new one. `entry`: exactly 4 bytes: draw (two bytes, the lower
 * first), kind (0 greedy, 1 down, 2 up), option. `work`: room for a byte per gate, written: the survey of the new configuration. Where the drawn gate is coded and each of its
 * options would turn a coded gate the move is stuck: the configuration stays as it was, and `work` gets its survey. Numbers: the drawn gate, how many values were turned (0 to 8, 0 exactly
 * where it is stuck). Refused with 1 to 7 and 9 to 15. */
enum {
    PEERIEWICK_MOVE_GATE = 0,
    PEERIEWICK_MOVE_TURNED = 1
};
uint8_t peeriewick_move(const uint8_t *map, size_t map_len,
                        uint8_t *configuration, size_t configuration_len,
                        const uint8_t *entry, size_t entry_len,
                        uint8_t *work, size_t work_len,
                        size_t *numbers, size_t numbers_len);

/* How a run ends: the first of its numbers. Stuck comes only where no state shows the codes; Spent says nothing of that. */
enum {
    PEERIEWICK_SPENT = 0, /* the tape is used up */
    PEERIEWICK_FOUND = 1, /* the front is empty */
    PEERIEWICK_STUCK = 2  /* the next entry draws a coded gate, each of whose options would turn a coded gate */
};

/* Does the tape's entries until the front is empty (Found), the tape is used up (Spent) or an entry is stuck as a move is (Stuck; that entry is undone and not counted). The front is tested
 * before each entry and after the last: an empty one is Found, on an empty tape too. `configuration`: as for move; it becomes the last one. `tape`: entries of 4 bytes, at most 65,532 bytes. `work`: room
 * for a byte per gate, written: the survey of the last configuration. `answer`: room for a byte per gate; Found writes the values of all gates in a state that shows the codes (the
 * state itself is the bytes at the inputs), Spent and Stuck leave it as it was. Numbers: the ending, moves (at most 16,383), flips (at most 131,064), the front's size for Spent, 0 for
 * Found and for Stuck. Refused with 1 to 7 and 9 to 14. */
enum {
    PEERIEWICK_RUN_ENDING = 0,
    PEERIEWICK_RUN_MOVES = 1,
    PEERIEWICK_RUN_FLIPS = 2,
    PEERIEWICK_RUN_FRONT = 3
};
uint8_t peeriewick_run(const uint8_t *map, size_t map_len,
                       uint8_t *configuration, size_t configuration_len,
                       const uint8_t *tape, size_t tape_len,
                       uint8_t *work, size_t work_len,
                       uint8_t *answer, size_t answer_len,
                       size_t *numbers, size_t numbers_len);

#ifdef __cplusplus
}
#endif

#endif
