/*
 * host.c: a client of skeleton.h, for C99 and C++.
 *
 *     host PLATE [A B]
 *
 * It reads a plate, searches it under a growing budget, as a controller does that stops early and goes on, and prints what each
 * search found. Then it asks for a certificate of the pair (A, B); if no pair is given, of the first inner edge that is not impossible.
 *
 * A plate is a text as the listing program reads it. Its first line, the budget, is skipped; each further line is a mark, `x y`.
 *
 * The exit status is 0; 1 if the library refuses or the plate cannot be read; 2 if the arguments are wrong.
 */
#include <errno.h>
#include <inttypes.h>
#include <stdio.h>
#include <stdlib.h>
#include <string.h>
#include "skeleton.h"

/* The most marks that are read: more than the library takes, so that its refusal is seen. */
#define MOST_READ 1000

/* On plates of at most so many marks the certain edges are named; on larger ones they are counted. */
#define SMALL 8

struct plate {
    int32_t marks[2 * MOST_READ];
    size_t n;
    uint8_t *status;
    size_t pairs;
};

static int failed(const char *reason, const char *what)
{
    fprintf(stderr, "host: %s %s\n", reason, what);
    return 0;
}

static int refused(const char *call, uint32_t number, uint64_t detail)
{
    printf("%s refused %" PRIu32 ", detail %" PRIu64 "\n", call, number, detail);
    return 0;
}

/* Reads a number of 32 bits, and moves *text behind it. */
static int read_number(char **text, int32_t *number)
{
    char *end;
    long value;
    errno = 0;
    value = strtol(*text, &end, 10);
    if (end == *text || errno == ERANGE || value < INT32_MIN || value > INT32_MAX)
        return 0;
    *text = end;
    *number = (int32_t)value;
    return 1;
}

/* Reads a line that holds a mark and nothing else. */
static int read_mark(char *line, int32_t mark[2])
{
    if (!read_number(&line, &mark[0]) || !read_number(&line, &mark[1]))
        return 0;
    return line[strspn(line, " \r\n")] == '\0';
}

/* Reads a whole line; one without a line feed is whole at the end of the file alone. */
static int read_line(FILE *file, char *line, int room)
{
    return fgets(line, room, file) != NULL && (strchr(line, '\n') != NULL || feof(file));
}

static int read_lines(FILE *file, struct plate *plate)
{
    char line[80];
    char where[40];
    if (!read_line(file, line, sizeof line))
        return failed("the first line", "is missing or too long");
    for (plate->n = 0; read_line(file, line, sizeof line); plate->n++) {
        sprintf(where, "at line %lu", (unsigned long)plate->n + 2);
        if (plate->n == MOST_READ)
            return failed("too many marks", where);
        if (!read_mark(line, plate->marks + 2 * plate->n))
            return failed("not a mark, `x y`,", where);
    }
    return feof(file) ? 1 : failed("the plate has a line that is too long,", "or cannot be read to its end");
}

static int read_plate(const char *path, struct plate *plate)
{
    int is_read;
    FILE *file = fopen(path, "r");
    if (file == NULL)
        return failed("cannot open", path);
    is_read = read_lines(file, plate);
    fclose(file);
    return is_read;
}

/* Makes a status byte for each pair; none for too many marks, which are refused before any search. */
static int make_status(struct plate *plate)
{
    plate->pairs = plate->n < 2 || plate->n > SKELETON_MOST_MARKS ? 0 : plate->n * (plate->n - 1) / 2;
    plate->status = (uint8_t *)malloc(plate->pairs);
    return plate->status != NULL || plate->pairs == 0 ? 1 : failed("no memory for", "the status bytes");
}

static size_t count(const struct plate *plate, uint8_t status)
{
    size_t pair, found = 0;
    for (pair = 0; pair < plate->pairs; pair++)
        found += plate->status[pair] == status;
    return found;
}

/* Pair numbers go up with b, then with a. */
static void print_certain(const struct plate *plate)
{
    size_t a, b, pair = 0;
    printf("  certain:");
    for (b = 1; b < plate->n; b++)
        for (a = 0; a < b; a++)
            if (plate->status[pair++] == SKELETON_CERTAIN)
                printf(" %lu-%lu", (unsigned long)a, (unsigned long)b);
    printf("\n");
}

static void print_stop(const struct plate *plate, const uint64_t *result)
{
    printf("%s after %" PRIu64 " examinations: %lu certain, %lu possible, %lu impossible\n",
           result[0] == SKELETON_DONE ? "done" : "paused", result[1], (unsigned long)count(plate, SKELETON_CERTAIN),
           (unsigned long)count(plate, SKELETON_POSSIBLE), (unsigned long)count(plate, SKELETON_IMPOSSIBLE));
    if (plate->n <= SMALL)
        print_certain(plate);
}

/*
 * Searches with budget 0, then with one examination a mark, then with twice as many each time. A search keeps nothing, so each starts
 * anew; but what is certain or impossible at one stop stays so at the next.
 */
static int search(struct plate *plate)
{
    uint64_t longest[SKELETON_LONGEST_BUDGET_ROOM];
    uint64_t result[SKELETON_SEARCH_ROOM];
    uint64_t budget = 0;
    uint32_t number = skeleton_longest_budget(plate->n, longest, SKELETON_LONGEST_BUDGET_ROOM);
    if (number != 0)
        return refused("skeleton_longest_budget", number, longest[0]);
    do {
        number = skeleton_search(plate->marks, 2 * plate->n, plate->status, plate->pairs, (uint32_t)budget, result,
                                 SKELETON_SEARCH_ROOM);
        if (number != 0)
            return refused("skeleton_search", number, result[0]);
        print_stop(plate, result);
        budget = budget == 0 ? plate->n : 2 * budget;
        if (budget > longest[0])
            budget = longest[0];
    } while (result[0] != SKELETON_DONE);
    return 1;
}

static uint32_t ask(const struct plate *plate, size_t a, size_t b, uint64_t *result)
{
    return skeleton_certificate(plate->marks, 2 * plate->n, plate->status, plate->pairs, a, b, result,
                                SKELETON_CERTIFICATE_ROOM);
}

static const char *status_word(const struct plate *plate, size_t a, size_t b)
{
    static const char *const words[3] = { "impossible", "possible", "certain" };
    uint64_t pair[SKELETON_PAIR_ROOM];
    return skeleton_pair(a, b, pair, SKELETON_PAIR_ROOM) == 0 ? words[plate->status[pair[0]]] : "no pair";
}

/* Prints the answer to a request that was not refused. */
static void print_answer(const struct plate *plate, size_t a, size_t b, const uint64_t *result)
{
    const unsigned long p = (unsigned long)a, q = (unsigned long)b;
    const unsigned long r = (unsigned long)result[1], s = (unsigned long)result[2];
    printf("pair %lu-%lu, %s: ", p, q, status_word(plate, a, b));
    if (result[0] == SKELETON_HULL)
        printf("a hull edge\n");
    else if (result[0] == SKELETON_NOT_EMPTY)
        printf("a third mark lies on it\n");
    else if (result[0] == SKELETON_NONE)
        printf("an inner edge without a certificate\n");
    else {
        printf("certified by the marks %lu and %lu\n", r, s);
        printf("  sides: %lu-%lu %lu-%lu %lu-%lu %lu-%lu\n", p, r, q, r, p, s, q, s);
        printf("  their pair numbers: %" PRIu64 " %" PRIu64 " %" PRIu64 " %" PRIu64 "\n", result[3], result[4], result[5],
               result[6]);
    }
}

/* Asks for the pair (a, b). */
static int ask_for(const struct plate *plate, size_t a, size_t b)
{
    uint64_t result[SKELETON_CERTIFICATE_ROOM];
    uint32_t number = ask(plate, a, b, result);
    if (number != 0)
        return refused("skeleton_certificate", number, result[0]);
    print_answer(plate, a, b, result);
    return 1;
}

/* Asks for the first inner edge that is not impossible. */
static int ask_for_first(const struct plate *plate)
{
    uint64_t result[SKELETON_CERTIFICATE_ROOM];
    uint32_t number;
    size_t a, b, pair = 0;
    for (b = 1; b < plate->n; b++)
        for (a = 0; a < b; a++) {
            if (plate->status[pair++] == SKELETON_IMPOSSIBLE)
                continue;
            number = ask(plate, a, b, result);
            if (number != 0)
                return refused("skeleton_certificate", number, result[0]);
            if (result[0] != SKELETON_HULL) {
                print_answer(plate, a, b, result);
                return 1;
            }
        }
    printf("there is no inner edge\n");
    return 1;
}

static int read_argument(char *text, size_t *mark)
{
    char *end = text;
    int32_t number;
    if (!read_number(&end, &number) || *end != '\0' || number < 0)
        return failed("not the number of a mark:", text);
    *mark = (size_t)number;
    return 1;
}

int main(int argc, char **argv)
{
    static struct plate plate;
    size_t a = 0, b = 0;
    int is_good;
    if (argc != 2 && argc != 4) {
        fprintf(stderr, "usage: host PLATE [A B]\n");
        return 2;
    }
    if (argc == 4 && !(read_argument(argv[2], &a) && read_argument(argv[3], &b)))
        return 2;
    if (skeleton_version() != SKELETON_VERSION) {
        failed("the library's version is not", "that of the header");
        return 1;
    }
    if (!read_plate(argv[1], &plate) || !make_status(&plate))
        return 1;
    printf("%lu marks\n", (unsigned long)plate.n);
    is_good = search(&plate) && (argc == 4 ? ask_for(&plate, a, b) : ask_for_first(&plate));
    free(plate.status);
    return is_good ? 0 : 1;
}
