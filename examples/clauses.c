/* A clause solver beside the engine: writes a map as clauses, and has the engine judge what the solver answers.
 *
 *     clauses MAP          writes the map in the file MAP (the map's bytes alone) to standard output, as DIMACS CNF
 *     clauses MAP MODEL    reads the solver's answer from the file MODEL and prints one line: `YES row`, with the inputs' values in gate order,
 *                          or `NO`, as mark says of it; or `UNSATISFIABLE`, where the solver says that no state satisfies the map
 *
 * MODEL is what minisat writes to its second file (`minisat CNF MODEL`) or what picosat prints (`picosat CNF >MODEL`). YES and NO are the engine's
 * word, UNSATISFIABLE is the solver's. The exit status is 0 after each of these lines, 1 where a call is refused, and 2 where anything else fails. */
#include "peeriewick.h"
#include <errno.h>
#include <stdio.h>
#include <stdlib.h>
#include <string.h>

enum { MOST_MAP = 24516, MOST_ANSWER = 1 << 20, RECORDS = 12, RECORD = 4 };

/* A byte more than there may be, so that a longer file doesn't pass for its beginning. */
static uint8_t map[MOST_MAP + 1];
static char answer[MOST_ANSWER + 1];
static uint8_t text[PEERIEWICK_TEXT], configuration[PEERIEWICK_GATES];

static void fail(const char *what, const char *why)
{
    fprintf(stderr, "clauses: %s: %s\n", what, why);
    exit(2);
}

static void must_be_accepted(const char *call, uint8_t number)
{
    if (number != PEERIEWICK_ACCEPTED) {
        fprintf(stderr, "clauses: %s is refused with %u\n", call, number);
        exit(1);
    }
}

/* Reads as much of a file as there is room for and returns its length. */
static size_t read_file(const char *path, void *bytes, size_t room)
{
    FILE *file = fopen(path, "rb");
    size_t length = file == NULL ? 0 : fread(bytes, 1, room, file);
    if (file == NULL || ferror(file))
        fail(path, strerror(errno));
    fclose(file);
    return length;
}

/* The next line that is neither empty nor a comment: of `from`, or of what is left where that is NULL. At the end "". */
static const char *next_line(char *from)
{
    const char *line = strtok(from, "\n");
    while (line != NULL && line[0] == 'c')
        line = strtok(NULL, "\n");
    return line != NULL ? line : "";
}

/* Sets the gates that a line of literals names. Returns whether it ends with the 0 behind the last literal. */
static int take_literals(const char *path, const char *line, long gates)
{
    long literal;
    do {
        char *end;
        errno = 0;
        literal = strtol(line, &end, 10);
        if (end == line || errno != 0 || (*end != '\0' && (*end != ' ' || literal == 0)) || literal < -gates || literal > gates)
            fail(path, "a word is no literal of the map, or behind the 0");
        if (literal != 0)
            configuration[labs(literal) - 1] = literal > 0;
        line = end;
    } while (*line != '\0');
    return literal == 0;
}

/* Makes the configuration that the answer is: a gate that it leaves out stays at 0. Returns whether there is one. */
static int read_answer(const char *path, long gates)
{
    size_t length = read_file(path, answer, sizeof answer);
    if (length > MOST_ANSWER || strlen(answer) != length)
        fail(path, "it is too long, or no text");
    const char *line = next_line(answer);
    int none = strcmp(line, "UNSAT") == 0 || strcmp(line, "s UNSATISFIABLE") == 0;
    int bare = strcmp(line, "SAT") == 0; /* minisat has no v before its literals */
    if (!none && !bare && strcmp(line, "s SATISFIABLE") != 0)
        fail(path, "it is no answer of minisat or picosat");
    int ended = none;
    while (*(line = next_line(NULL)) != '\0') {
        if (ended || (!bare && strncmp(line, "v ", 2) != 0))
            fail(path, "a line has no literals, or is behind the last");
        ended = take_literals(path, bare ? line : line + 2, gates);
    }
    if (!ended)
        fail(path, "there is no 0 behind the literals");
    return !none;
}

static void judge(size_t map_len, const char *path)
{
    size_t n[PEERIEWICK_NUMBERS];
    must_be_accepted("check", peeriewick_check(map, map_len, n, PEERIEWICK_NUMBERS));
    size_t gates = n[PEERIEWICK_CHECK_GATES];
    if (!read_answer(path, (long)gates)) {
        puts("UNSATISFIABLE");
        return;
    }
    must_be_accepted("mark", peeriewick_mark(map, map_len, configuration, gates, n, PEERIEWICK_NUMBERS));
    if (n[PEERIEWICK_MARK_YES] == 0) {
        puts("NO");
        return;
    }
    fputs("YES ", stdout);
    for (size_t gate = 0; gate < gates; gate++)
        if (map[RECORDS + RECORD * gate] == PEERIEWICK_KIND_INPUT)
            putchar('0' + configuration[gate]);
    puts("");
}

int main(int argc, char **argv)
{
    if (argc != 2 && argc != 3)
        fail("usage", "clauses MAP [MODEL]");
    size_t map_len = read_file(argv[1], map, sizeof map), n[PEERIEWICK_NUMBERS];
    if (argc == 3) {
        judge(map_len, argv[2]);
    } else {
        must_be_accepted("export", peeriewick_export(map, map_len, text, sizeof text, n, PEERIEWICK_NUMBERS));
        fwrite(text, 1, n[PEERIEWICK_EXPORT_LENGTH], stdout);
    }
    if (fflush(stdout) != 0 || ferror(stdout))
        fail("standard output", "it can't be written");
    return 0;
}
