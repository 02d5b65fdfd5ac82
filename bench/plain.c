/* Written plainly on the lent bytes: nothing is kept between entries of a tape, and nothing is worked out that a call does not need. */
#include "plain.h"

#include <stdbool.h>
#include <string.h>

enum { MAX_GATES = 1024, MAX_FAN_IN = 8, MAX_TAPE = 65532 };
enum { CONTENTS_SIZE = 12, GATE_SIZE = 4, CHILD_SIZE = 2, CODE_SIZE = 4, ENTRY_SIZE = 4 };
enum { INPUT, NOT, AND, OR, XOR, VOTER };
enum { GREEDY, DOWN, UP };
enum { CONE = 1, FRONT = 2, INTEREST = 4 };
enum ending { SPENT, FOUND, STUCK };

/* The bodies of a lent map and how many records each has. */
struct map {
    const uint8_t *gates, *children, *codes;
    size_t gate_count, child_count, code_count;
};

/* ---- Reading the map. What is called for every gate or child of a pass is inline. ---- */

static inline size_t read_u16(const uint8_t *bytes)
{
    return (size_t)bytes[0] | (size_t)bytes[1] << 8;
}

static inline unsigned kind_of(const struct map *map, size_t gate)
{
    return map->gates[GATE_SIZE * gate];
}

static inline size_t fan_in_of(const struct map *map, size_t gate)
{
    return map->gates[GATE_SIZE * gate + 1];
}

static inline size_t first_of(const struct map *map, size_t gate)
{
    return read_u16(map->gates + GATE_SIZE * gate + 2);
}

/* The bytes of a gate's children. */
static inline const uint8_t *children_of(const struct map *map, size_t gate)
{
    return map->children + CHILD_SIZE * first_of(map, gate);
}

static inline size_t child_at(const uint8_t *children, size_t place)
{
    return read_u16(children + CHILD_SIZE * place);
}

static inline size_t code_gate(const struct map *map, size_t code)
{
    return read_u16(map->codes + CODE_SIZE * code);
}

static inline uint8_t code_value(const struct map *map, size_t code)
{
    return map->codes[CODE_SIZE * code + 2];
}

static size_t input_count(const struct map *map)
{
    size_t inputs = 0;
    for (size_t gate = 0; gate < map->gate_count; gate++)
        inputs += kind_of(map, gate) == INPUT;
    return inputs;
}

/* One byte per gate: is it coded? */
static void flag_codes(const struct map *map, uint8_t *coded)
{
    memset(coded, 0, map->gate_count);
    for (size_t code = 0; code < map->code_count; code++)
        coded[code_gate(map, code)] = 1;
}

/* ---- Tests 1 to 7 ---- */

static inline bool fan_in_allowed(unsigned kind, size_t fan_in)
{
    static const uint8_t least[] = { [INPUT] = 0, [NOT] = 1, [AND] = 2, [OR] = 2, [XOR] = 2, [VOTER] = 3 };
    static const uint8_t most[] = { [INPUT] = 0, [NOT] = 1, [AND] = 8, [OR] = 8, [XOR] = 2, [VOTER] = 3 };
    return kind <= VOTER && fan_in >= least[kind] && fan_in <= most[kind];
}

static bool kinds_hold(const struct map *map)
{
    for (size_t gate = 0; gate < map->gate_count; gate++)
        if (!fan_in_allowed(kind_of(map, gate), fan_in_of(map, gate)))
            return false;
    return true;
}

static bool positions_hold(const struct map *map)
{
    size_t total = 0;
    for (size_t gate = 0; gate < map->gate_count; gate++) {
        if (first_of(map, gate) != total)
            return false;
        total += fan_in_of(map, gate);
    }
    return total == map->child_count;
}

static bool children_ascend(const struct map *map, size_t gate)
{
    const uint8_t *children = children_of(map, gate);
    size_t fan_in = fan_in_of(map, gate);
    size_t least = 0;
    for (size_t i = 0; i < fan_in; i++) {
        size_t child = child_at(children, i);
        if (child < least || child >= gate)
            return false;
        least = child + 1;
    }
    return true;
}

static bool children_hold(const struct map *map)
{
    for (size_t gate = 0; gate < map->gate_count; gate++)
        if (!children_ascend(map, gate))
            return false;
    return true;
}

static bool codes_hold(const struct map *map)
{
    size_t least = 0;
    for (size_t code = 0; code < map->code_count; code++) {
        size_t gate = code_gate(map, code);
        if (gate < least || gate >= map->gate_count)
            return false;
        if (code_value(map, code) > 1 || map->codes[CODE_SIZE * code + 3] != 0)
            return false;
        least = gate + 1;
    }
    return true;
}

/* Fills in the map's bodies where its contents are right, else gives 1, 2 or 3. */
static uint8_t open_contents(struct map *map, const uint8_t *bytes, size_t len)
{
    if (len < CONTENTS_SIZE)
        return 1;
    map->gate_count = read_u16(bytes + 2);
    map->child_count = read_u16(bytes + 6);
    map->code_count = read_u16(bytes + 10);
    if (map->gate_count == 0 || map->gate_count > MAX_GATES)
        return 2;
    size_t children = CONTENTS_SIZE + GATE_SIZE * map->gate_count;
    size_t codes = children + CHILD_SIZE * map->child_count;
    if (read_u16(bytes) != CONTENTS_SIZE || read_u16(bytes + 4) != children || read_u16(bytes + 8) != codes
        || len != codes + CODE_SIZE * map->code_count)
        return 3;
    map->gates = bytes + CONTENTS_SIZE;
    map->children = bytes + children;
    map->codes = bytes + codes;
    return 0;
}

/* Each test goes over the whole map before the next, so that the lowest number that holds is given. */
static uint8_t open_map(struct map *map, const uint8_t *bytes, size_t len)
{
    uint8_t declined = open_contents(map, bytes, len);
    if (declined)
        return declined;
    if (!kinds_hold(map))
        return 4;
    if (!positions_hold(map))
        return 5;
    if (!children_hold(map))
        return 6;
    if (!codes_hold(map))
        return 7;
    return 0;
}

/* ---- Tests 9 to 13 ---- */

static bool any_above_one(const uint8_t *bytes, size_t len)
{
    for (size_t i = 0; i < len; i++)
        if (bytes[i] > 1)
            return true;
    return false;
}

static bool keeps_codes(const struct map *map, const uint8_t *values)
{
    for (size_t code = 0; code < map->code_count; code++)
        if (values[code_gate(map, code)] != code_value(map, code))
            return false;
    return true;
}

static uint8_t test_configuration(const struct map *map, const uint8_t *values, size_t len)
{
    if (len != map->gate_count)
        return 9;
    if (any_above_one(values, len))
        return 10;
    if (!keeps_codes(map, values))
        return 11;
    return 0;
}

static uint8_t test_tape(const uint8_t *tape, size_t len)
{
    if (len % ENTRY_SIZE != 0 || len > MAX_TAPE)
        return 12;
    for (size_t place = 0; place < len; place += ENTRY_SIZE)
        if (tape[place + 2] > UP)
            return 13;
    return 0;
}

/* ---- Values ---- */

/* Does some child have this value? */
static inline bool some_child_is(const uint8_t *children, size_t fan_in, const uint8_t *values, uint8_t value)
{
    for (size_t i = 0; i < fan_in; i++)
        if (values[child_at(children, i)] == value)
            return true;
    return false;
}

/* The value that the children of a gate give it. An input keeps its own. A voter is no case of the switch: with a fifth, gcc makes a table of jumps, which costs
 * maps without voters more. */
static inline uint8_t given_value(const struct map *map, size_t gate, const uint8_t *values)
{
    const uint8_t *children = children_of(map, gate);
    size_t fan_in = fan_in_of(map, gate);
    switch (kind_of(map, gate)) {
    case NOT:
        return !values[child_at(children, 0)];
    case AND:
        return !some_child_is(children, fan_in, values, 0);
    case OR:
        return some_child_is(children, fan_in, values, 1);
    case XOR:
        return values[child_at(children, 0)] ^ values[child_at(children, 1)];
    default:
        if (kind_of(map, gate) == VOTER)
            return values[child_at(children, 0)] + values[child_at(children, 1)] + values[child_at(children, 2)] >= 2;
        return values[gate];
    }
}

/* Works out all gates from the inputs' values, which stand in their places. Children stand below their parents, so one pass upward is enough. */
static void evaluate_gates(const struct map *map, uint8_t *values)
{
    for (size_t gate = 0; gate < map->gate_count; gate++)
        values[gate] = given_value(map, gate, values);
}

/* ---- Cone, front and interest set ---- */

/* AND at 0, OR at 1 and a voter: the children with the gate's value justify it, and the others have no part in that. */
static inline bool only_equal_justify(unsigned kind, uint8_t value)
{
    switch (kind) {
    case AND:
        return value == 0;
    case OR:
        return value == 1;
    case VOTER:
        return true;
    default:
        return false;
    }
}

/* Puts the children that justify this justified gate into the cone. */
static void extend_cone(const struct map *map, size_t gate, const uint8_t *values, uint8_t *marks)
{
    const uint8_t *children = children_of(map, gate);
    size_t fan_in = fan_in_of(map, gate);
    bool only_equal = only_equal_justify(kind_of(map, gate), values[gate]);
    for (size_t i = 0; i < fan_in; i++) {
        size_t child = child_at(children, i);
        if (!only_equal || values[child] == values[gate])
            marks[child] = CONE;
    }
}

/* Marks cone and front, and returns the front's size. All parents of a gate stand above it, so one pass downward gives the least set. */
static size_t mark_cone(const struct map *map, const uint8_t *values, uint8_t *marks)
{
    size_t front = 0;
    memset(marks, 0, map->gate_count);
    for (size_t code = 0; code < map->code_count; code++)
        marks[code_gate(map, code)] = CONE;
    for (size_t gate = map->gate_count; gate-- > 0;) {
        if (!marks[gate])
            continue;
        if (given_value(map, gate, values) == values[gate]) {
            extend_cone(map, gate, values, marks);
        } else {
            marks[gate] |= FRONT;
            front++;
        }
    }
    return front;
}

/* Adds the interest set to the marks of cone and front, and returns its size, which leaves NOT gates out. */
static size_t mark_interest(const struct map *map, uint8_t *marks)
{
    size_t interest = 0;
    for (size_t gate = map->gate_count; gate-- > 0;) {
        if (!(marks[gate] & (FRONT | INTEREST)))
            continue;
        const uint8_t *children = children_of(map, gate);
        size_t fan_in = fan_in_of(map, gate);
        marks[gate] |= INTEREST;
        interest += kind_of(map, gate) != NOT;
        for (size_t i = 0; i < fan_in; i++)
            marks[child_at(children, i)] |= INTEREST;
    }
    return interest;
}

/* ---- Options and moves ---- */

/* The gate at this place of the front, by rising gate number. The front must have more gates than that. */
static size_t front_gate(const uint8_t *marks, size_t place)
{
    size_t gate = 0;
    while (!(marks[gate] & FRONT) || place-- > 0)
        gate++;
    return gate;
}

/* AND at 1 and OR at 0: every child must have the gate's value. */
static inline bool all_children_must_agree(unsigned kind, uint8_t value)
{
    return (kind == AND && value == 1) || (kind == OR && value == 0);
}

/* The children of a voter that each of its options sets, in the order of the options. */
enum { VOTER_OPTIONS = 3 };
static const uint8_t voter_pairs[VOTER_OPTIONS][2] = { { 0, 1 }, { 0, 2 }, { 1, 2 } };

/* A coded child that has the gate's value is not turned, and so keeps no option from being left. */
static inline bool is_wrong_and_coded(size_t child, const uint8_t *coded, const uint8_t *values, uint8_t value)
{
    return coded[child] && values[child] != value;
}

static bool some_wrong_child_is_coded(const uint8_t *children, size_t fan_in, const uint8_t *coded, const uint8_t *values, uint8_t value)
{
    for (size_t i = 0; i < fan_in; i++)
        if (is_wrong_and_coded(child_at(children, i), coded, values, value))
            return true;
    return false;
}

static size_t pairs_left(const uint8_t *children, const uint8_t *coded, const uint8_t *values, uint8_t value, uint8_t *left)
{
    size_t count = 0;
    for (size_t i = 0; i < VOTER_OPTIONS; i++)
        if (!is_wrong_and_coded(child_at(children, voter_pairs[i][0]), coded, values, value)
            && !is_wrong_and_coded(child_at(children, voter_pairs[i][1]), coded, values, value))
            left[count++] = (uint8_t)i;
    return count;
}

/* The down options of a front gate that turn no coded gate: writes their places, and returns how many there are. The single option of an AND at 1 or an OR
 * at 0 has place 0; one coded child among those that it would turn puts it out. A voter's have those of its pairs, and the others that of the child turned. */
static size_t options_left(const struct map *map, size_t gate, const uint8_t *coded, const uint8_t *values, uint8_t *left)
{
    const uint8_t *children = children_of(map, gate);
    size_t fan_in = fan_in_of(map, gate);
    size_t count = 0;
    if (all_children_must_agree(kind_of(map, gate), values[gate])) {
        left[0] = 0;
        return !some_wrong_child_is_coded(children, fan_in, coded, values, values[gate]);
    }
    if (kind_of(map, gate) == VOTER)
        return pairs_left(children, coded, values, values[gate], left);
    for (size_t i = 0; i < fan_in; i++)
        if (!coded[child_at(children, i)])
            left[count++] = (uint8_t)i;
    return count;
}

/* Gives a child this value. Returns 1 where that turns it, else 0. */
static inline size_t set_child(size_t child, uint8_t value, uint8_t *values)
{
    size_t turned = values[child] != value;
    values[child] = value;
    return turned;
}

/* AND at 1 and OR at 0: turns the wrong children, and returns how many. */
static size_t turn_wrong_children(const struct map *map, size_t gate, uint8_t *values)
{
    const uint8_t *children = children_of(map, gate);
    size_t fan_in = fan_in_of(map, gate);
    size_t turned = 0;
    for (size_t i = 0; i < fan_in; i++)
        turned += set_child(child_at(children, i), values[gate], values);
    return turned;
}

/* A voter: turns the wrong ones of a pair of its children, and returns how many: 1 or 2, as at most one child of a front gate is right. */
static size_t turn_pair(const struct map *map, size_t gate, const uint8_t *pair, uint8_t *values)
{
    const uint8_t *children = children_of(map, gate);
    return set_child(child_at(children, pair[0]), values[gate], values) + set_child(child_at(children, pair[1]), values[gate], values);
}

/* Does a down option of a front gate. Returns how many values it turned. */
static size_t turn_option(const struct map *map, size_t gate, size_t option, uint8_t *values)
{
    if (all_children_must_agree(kind_of(map, gate), values[gate]))
        return turn_wrong_children(map, gate, values);
    if (kind_of(map, gate) == VOTER)
        return turn_pair(map, gate, voter_pairs[option], values);
    values[child_at(children_of(map, gate), option)] ^= 1;
    return 1;
}

/* The size that the interest set would have after this option, worked out on a copy. */
static size_t interest_after(const struct map *map, size_t gate, size_t option, const uint8_t *values)
{
    uint8_t trial[MAX_GATES], marks[MAX_GATES];
    memcpy(trial, values, map->gate_count);
    turn_option(map, gate, option, trial);
    mark_cone(map, trial, marks);
    return mark_interest(map, marks);
}

/* Of the options left with the smallest interest set after the move, the one at choice modulo their number. */
static size_t greedy_option(const struct map *map, size_t gate, const uint8_t *left, size_t options, size_t choice, const uint8_t *values)
{
    size_t best[MAX_FAN_IN];
    size_t ties = 0;
    size_t smallest = MAX_GATES + 1;
    for (size_t i = 0; i < options; i++) {
        size_t interest = interest_after(map, gate, left[i], values);
        if (interest < smallest) {
            smallest = interest;
            ties = 0;
        }
        if (interest == smallest)
            best[ties++] = left[i];
    }
    return best[choice % ties];
}

/* Does one entry on the drawn gate. Returns how many values it turned: none where it is stuck. */
static size_t do_entry(const struct map *map, const uint8_t *entry, size_t gate, const uint8_t *coded, uint8_t *values)
{
    unsigned kind = entry[2];
    size_t choice = entry[3];
    uint8_t left[MAX_FAN_IN];
    bool upward = kind == UP && !coded[gate];
    size_t options = upward ? 0 : options_left(map, gate, coded, values, left);
    if (options == 0 && coded[gate])
        return 0;
    if (options == 0) {
        values[gate] ^= 1;
        return 1;
    }
    size_t option = left[choice % options];
    if (kind == GREEDY && options > 1)
        option = greedy_option(map, gate, left, options, choice, values);
    return turn_option(map, gate, option, values);
}

/* ---- Clauses as text ---- */

/* DIMACS numbers variables from 1; a literal is its variable's number, below 0 where it is negated. */
static inline int variable_of(size_t gate)
{
    return (int)gate + 1;
}

static inline int child_variable(const uint8_t *children, size_t place)
{
    return variable_of(child_at(children, place));
}

/* Of a number below 100,000; neither a variable nor a count of clauses is above. */
static inline size_t digits_of(unsigned number)
{
    return 1 + (number >= 10) + (number >= 100) + (number >= 1000) + (number >= 10000);
}

/* The clauses of a gate: how many, in how many of them each child stands, and how many minus signs they have. */
struct shape {
    size_t clauses, per_child, minus_signs;
};

static inline struct shape shape_of(unsigned kind, size_t fan_in)
{
    switch (kind) {
    case NOT:
        return (struct shape){ 2, 2, 2 };
    case AND:
        return (struct shape){ fan_in + 1, 2, 2 * fan_in };
    case OR:
        return (struct shape){ fan_in + 1, 2, fan_in + 1 };
    case XOR:
        return (struct shape){ 4, 4, 6 };
    case VOTER:
        return (struct shape){ 6, 4, 9 };
    default:
        return (struct shape){ 0, 0, 0 };
    }
}

/* How many clauses and bytes a text has. */
struct measure {
    size_t clauses, bytes;
};

/* The gate stands in each of its clauses. A blank follows each literal, and the end of a clause has two bytes. */
static inline void measure_gate(const struct map *map, size_t gate, struct measure *measure)
{
    const uint8_t *children = children_of(map, gate);
    size_t fan_in = fan_in_of(map, gate);
    struct shape shape = shape_of(kind_of(map, gate), fan_in);
    size_t child_bytes = 0;
    for (size_t i = 0; i < fan_in; i++)
        child_bytes += digits_of(child_variable(children, i)) + 1;
    measure->clauses += shape.clauses;
    measure->bytes += shape.clauses * (digits_of(variable_of(gate)) + 3) + shape.per_child * child_bytes + shape.minus_signs;
}

static const char HEAD[] = "p cnf ";
enum { HEAD_SIZE = sizeof HEAD - 1 };

static struct measure measure_text(const struct map *map)
{
    struct measure measure = { map->code_count, 0 };
    for (size_t gate = 0; gate < map->gate_count; gate++)
        measure_gate(map, gate, &measure);
    for (size_t code = 0; code < map->code_count; code++)
        measure.bytes += digits_of(variable_of(code_gate(map, code))) + 3 + !code_value(map, code);
    measure.bytes += HEAD_SIZE + digits_of(map->gate_count) + 1 + digits_of(measure.clauses) + 1;
    return measure;
}

/* What writes takes the place to write at, and returns the one behind what it wrote. */
static inline uint8_t *put_number(uint8_t *text, unsigned number)
{
    if (number >= 10000)
        *text++ = (uint8_t)('0' + number / 10000);
    if (number >= 1000)
        *text++ = (uint8_t)('0' + number / 1000 % 10);
    if (number >= 100)
        *text++ = (uint8_t)('0' + number / 100 % 10);
    if (number >= 10)
        *text++ = (uint8_t)('0' + number / 10 % 10);
    *text++ = (uint8_t)('0' + number % 10);
    return text;
}

/* Without a jump for the sign: where there is none, the first digit is written over it. */
static inline uint8_t *put_literal(uint8_t *text, int literal)
{
    bool negated = literal < 0;
    *text = '-';
    text = put_number(text + negated, (unsigned)(negated ? -literal : literal));
    *text++ = ' ';
    return text;
}

static inline uint8_t *end_clause(uint8_t *text)
{
    *text++ = '0';
    *text++ = '\n';
    return text;
}

static inline uint8_t *put_pair(uint8_t *text, int first, int second)
{
    text = put_literal(text, first);
    text = put_literal(text, second);
    return end_clause(text);
}

static inline uint8_t *put_triple(uint8_t *text, int first, int second, int third)
{
    text = put_literal(text, first);
    text = put_literal(text, second);
    text = put_literal(text, third);
    return end_clause(text);
}

/* A clause of the first literal and each child, with this sign. */
static inline uint8_t *put_each(uint8_t *text, int first, const uint8_t *children, size_t fan_in, int sign)
{
    for (size_t i = 0; i < fan_in; i++)
        text = put_pair(text, first, sign * child_variable(children, i));
    return text;
}

/* One clause of the first literal and all children, with this sign. */
static inline uint8_t *put_all(uint8_t *text, int first, const uint8_t *children, size_t fan_in, int sign)
{
    text = put_literal(text, first);
    for (size_t i = 0; i < fan_in; i++)
        text = put_literal(text, sign * child_variable(children, i));
    return end_clause(text);
}

/* A clause of the first literal and each pair of a voter's children, with this sign. */
static inline uint8_t *put_voter_pairs(uint8_t *text, int first, const uint8_t *children, int sign)
{
    for (size_t i = 0; i < VOTER_OPTIONS; i++)
        text = put_triple(text, first, sign * child_variable(children, voter_pairs[i][0]), sign * child_variable(children, voter_pairs[i][1]));
    return text;
}

static inline uint8_t *put_xor(uint8_t *text, int gate, int a, int b)
{
    text = put_triple(text, -gate, a, b);
    text = put_triple(text, -gate, -a, -b);
    text = put_triple(text, gate, a, -b);
    return put_triple(text, gate, -a, b);
}

/* The clauses that negate the gate come first. */
static inline uint8_t *put_gate(uint8_t *text, const struct map *map, size_t gate)
{
    const uint8_t *children = children_of(map, gate);
    size_t fan_in = fan_in_of(map, gate);
    int variable = variable_of(gate);
    switch (kind_of(map, gate)) {
    case NOT:
        text = put_pair(text, -variable, -child_variable(children, 0));
        return put_pair(text, variable, child_variable(children, 0));
    case AND:
        text = put_each(text, -variable, children, fan_in, 1);
        return put_all(text, variable, children, fan_in, -1);
    case OR:
        text = put_all(text, -variable, children, fan_in, 1);
        return put_each(text, variable, children, fan_in, -1);
    case XOR:
        return put_xor(text, variable, child_variable(children, 0), child_variable(children, 1));
    case VOTER:
        text = put_voter_pairs(text, -variable, children, 1);
        return put_voter_pairs(text, variable, children, -1);
    default:
        return text;
    }
}

static inline uint8_t *put_code(uint8_t *text, const struct map *map, size_t code)
{
    int variable = variable_of(code_gate(map, code));
    text = put_literal(text, code_value(map, code) ? variable : -variable);
    return end_clause(text);
}

static uint8_t *put_head(uint8_t *text, size_t variables, size_t clauses)
{
    memcpy(text, HEAD, HEAD_SIZE);
    text = put_number(text + HEAD_SIZE, variables);
    *text++ = ' ';
    text = put_number(text, clauses);
    *text++ = '\n';
    return text;
}

static void write_text(const struct map *map, size_t clauses, uint8_t *text)
{
    text = put_head(text, map->gate_count, clauses);
    for (size_t gate = 0; gate < map->gate_count; gate++)
        text = put_gate(text, map, gate);
    for (size_t code = 0; code < map->code_count; code++)
        text = put_code(text, map, code);
}

/* ---- Calls ---- */

/* Writes as many of the answer's numbers as there are places for. */
static void put_numbers(size_t *numbers, size_t numbers_len, const size_t *source, size_t count)
{
    for (size_t i = 0; i < count && i < numbers_len; i++)
        numbers[i] = source[i];
}

uint8_t plain_check(const uint8_t *map, size_t map_len,
                    size_t *numbers, size_t numbers_len)
{
    struct map m;
    uint8_t declined = open_map(&m, map, map_len);
    if (declined)
        return declined;
    size_t answer[4] = { m.gate_count, input_count(&m), m.child_count, m.code_count };
    put_numbers(numbers, numbers_len, answer, 4);
    return 0;
}

uint8_t plain_evaluate(const uint8_t *map, size_t map_len,
                       const uint8_t *row, size_t row_len,
                       uint8_t *out, size_t out_len)
{
    struct map m;
    uint8_t declined = open_map(&m, map, map_len);
    if (declined)
        return declined;
    if (row_len != input_count(&m))
        return 9;
    if (any_above_one(row, row_len))
        return 10;
    if (out_len < m.gate_count)
        return 14;
    for (size_t gate = 0; gate < m.gate_count; gate++)
        out[gate] = kind_of(&m, gate) == INPUT ? *row++ : given_value(&m, gate, out);
    return 0;
}

uint8_t plain_survey(const uint8_t *map, size_t map_len,
                     const uint8_t *configuration, size_t configuration_len,
                     uint8_t *out, size_t out_len,
                     size_t *numbers, size_t numbers_len)
{
    struct map m;
    uint8_t declined = open_map(&m, map, map_len);
    if (!declined)
        declined = test_configuration(&m, configuration, configuration_len);
    if (declined)
        return declined;
    if (out_len < m.gate_count)
        return 14;
    size_t front = mark_cone(&m, configuration, out);
    size_t interest = mark_interest(&m, out);
    size_t answer[2] = { front, interest };
    put_numbers(numbers, numbers_len, answer, 2);
    return 0;
}

/* Inputs in the cone keep their values, all others are 0, and the other gates are evaluated. */
static void write_answer(const struct map *map, const uint8_t *values, const uint8_t *marks, uint8_t *answer)
{
    for (size_t gate = 0; gate < map->gate_count; gate++)
        answer[gate] = marks[gate] & CONE ? values[gate] : 0;
    evaluate_gates(map, answer);
}

/* What a run has done so far. */
struct progress {
    size_t place, flips, front;
    bool stuck;
};

static enum ending ending_of(const struct progress *run)
{
    if (run->front == 0)
        return FOUND;
    return run->stuck ? STUCK : SPENT;
}

/* Does entries until the front is empty, the tape is used up or the drawn gate is stuck. The marks are then those of the last cone and front. */
static struct progress do_tape(const struct map *map, const uint8_t *tape, size_t tape_len, uint8_t *values, uint8_t *marks)
{
    uint8_t coded[MAX_GATES];
    flag_codes(map, coded);
    struct progress run = { 0, 0, mark_cone(map, values, marks), false };
    while (run.front > 0 && run.place < tape_len) {
        const uint8_t *entry = tape + run.place;
        size_t gate = front_gate(marks, read_u16(entry) % run.front);
        size_t turned = do_entry(map, entry, gate, coded, values);
        if (turned == 0) {
            run.stuck = true;
            break;
        }
        run.flips += turned;
        run.front = mark_cone(map, values, marks);
        run.place += ENTRY_SIZE;
    }
    return run;
}

uint8_t plain_run(const uint8_t *map, size_t map_len,
                  uint8_t *configuration, size_t configuration_len,
                  const uint8_t *tape, size_t tape_len,
                  uint8_t *work, size_t work_len,
                  uint8_t *answer, size_t answer_len,
                  size_t *numbers, size_t numbers_len)
{
    struct map m;
    uint8_t declined = open_map(&m, map, map_len);
    if (!declined)
        declined = test_configuration(&m, configuration, configuration_len);
    if (!declined)
        declined = test_tape(tape, tape_len);
    if (declined)
        return declined;
    if (work_len < m.gate_count || answer_len < m.gate_count)
        return 14;
    struct progress run = do_tape(&m, tape, tape_len, configuration, work);
    mark_interest(&m, work);
    enum ending ending = ending_of(&run);
    if (ending == FOUND)
        write_answer(&m, configuration, work, answer);
    size_t result[4] = { ending, run.place / ENTRY_SIZE, run.flips, ending == SPENT ? run.front : 0 };
    put_numbers(numbers, numbers_len, result, 4);
    return 0;
}

uint8_t plain_export(const uint8_t *map, size_t map_len,
                     uint8_t *text, size_t text_len,
                     size_t *numbers, size_t numbers_len)
{
    struct map m;
    uint8_t declined = open_map(&m, map, map_len);
    if (declined)
        return declined;
    struct measure measure = measure_text(&m);
    if (text_len < measure.bytes)
        return 16;
    write_text(&m, measure.clauses, text);
    put_numbers(numbers, numbers_len, &measure.bytes, 1);
    return 0;
}
