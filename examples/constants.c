/*
 * constants.c: holds every constant of skeleton.h to the rules and to what the library shows, for C99 and C++.
 *
 * It prints a line for each constant that does not hold, then how many hold. The exit status is 0 if all do, else 1.
 */
#include <inttypes.h>
#include <stdio.h>
#include <string.h>
#include "skeleton.h"

/* Lengths of this program alone: with one of the header's, a wrong constant would spoil more than itself. */
#define MARKS 200
#define PAIRS (MARKS * (MARKS - 1) / 2)
#define LONG_RESULT 16

static const int32_t kite[8] = { -3, 0, 0, -1, 3, 0, 0, 1 };
static const int32_t square[8] = { 0, 0, 2, 0, 2, 2, 0, 2 };
static const int32_t equal_marks[4] = { 1, 1, 1, 1 };
static const int32_t far_mark[2] = { 0, 10001 };

/* Marks on a line, as many as a call is told. */
static int32_t row[2 * MARKS];

static uint8_t status[PAIRS];
static uint64_t result[LONG_RESULT];
static int holding = 0, wrong = 0;

/* Holds a constant's value to that of the rules, and to the one that the library shows. */
static void hold(const char *name, uint64_t value, uint64_t rule, uint64_t shown)
{
    if (value == rule && value == shown) {
        holding++;
        return;
    }
    wrong++;
    printf("%s is %" PRIu64 ", by the rules %" PRIu64 ", and the library shows %" PRIu64 "\n", name, value, rule, shown);
}
#define HOLD(constant, rule, shown) hold(#constant, (uint64_t)(constant), rule, shown)

static size_t pairs_of(size_t n)
{
    return n * (n - 1) / 2;
}

static uint32_t search(const int32_t *marks, size_t n, uint32_t budget)
{
    return skeleton_search(marks, 2 * n, status, pairs_of(n), budget, result, LONG_RESULT);
}

/* A request in the set of all empty edges. */
static uint32_t request(const int32_t *marks, size_t n, size_t a, size_t b)
{
    memset(status, 1, sizeof status);
    return skeleton_certificate(marks, 2 * n, status, pairs_of(n), a, b, result, LONG_RESULT);
}

/* The first number of a result; if the call was refused, a number that no constant has. */
static uint64_t said(uint32_t number)
{
    return number == 0 ? result[0] : UINT64_MAX;
}

static uint64_t byte_of(const int32_t *marks, size_t pair)
{
    return search(marks, 4, 1000) == 0 ? status[pair] : UINT64_MAX;
}

static uint64_t most_marks(void)
{
    size_t n = 0;
    while (n < MARKS && search(row, n + 1, 0) == 0)
        n++;
    return n;
}

/* The pairs of the most marks: the detail of an empty status buffer. */
static uint64_t most_pairs(void)
{
    return skeleton_search(row, 256, status, 0, 0, result, LONG_RESULT) == 5 ? result[0] : UINT64_MAX;
}

static uint32_t search_in(size_t room)
{
    return skeleton_search(kite, 8, status, 6, 3, result, room);
}

static uint32_t certificate_in(size_t room)
{
    memset(status, 1, sizeof status);
    return skeleton_certificate(kite, 8, status, 6, 1, 3, result, room);
}

static uint32_t pair_in(size_t room)
{
    return skeleton_pair(0, 1, result, room);
}

static uint32_t longest_budget_in(size_t room)
{
    return skeleton_longest_budget(4, result, room);
}

/* The shortest result buffer that is enough; every shorter one is refused with 100. */
static uint64_t least_room(uint32_t (*call_in)(size_t))
{
    size_t room = 0;
    while (room < LONG_RESULT && call_in(room) == 100)
        room++;
    return call_in(room) == 0 ? room : UINT64_MAX;
}

static void hold_sizes(void)
{
    HOLD(SKELETON_VERSION, 1, skeleton_version());
    HOLD(SKELETON_MOST_MARKS, 128, most_marks());
    HOLD(SKELETON_MOST_PAIRS, 8128, most_pairs());
    HOLD(SKELETON_SEARCH_ROOM, 2, least_room(search_in));
    HOLD(SKELETON_CERTIFICATE_ROOM, 7, least_room(certificate_in));
    HOLD(SKELETON_PAIR_ROOM, 1, least_room(pair_in));
    HOLD(SKELETON_LONGEST_BUDGET_ROOM, 1, least_room(longest_budget_in));
}

/* The pair (0, 2) of the kite is struck, each diagonal of the square stays possible. */
static void hold_answers(void)
{
    HOLD(SKELETON_IMPOSSIBLE, 0, byte_of(kite, 1));
    HOLD(SKELETON_POSSIBLE, 1, byte_of(square, 1));
    HOLD(SKELETON_CERTAIN, 2, byte_of(kite, 0));
    HOLD(SKELETON_DONE, 0, said(search(kite, 4, 3)));
    HOLD(SKELETON_PAUSED, 1, said(search(kite, 4, 2)));
    HOLD(SKELETON_HULL, 0, said(request(kite, 4, 0, 1)));
    HOLD(SKELETON_NOT_EMPTY, 1, said(request(row, 3, 0, 2)));
    HOLD(SKELETON_CERTIFIED, 2, said(request(kite, 4, 1, 3)));
    HOLD(SKELETON_NONE, 3, said(request(kite, 4, 0, 2)));
}

/* No plate gives SKELETON_STUCK, so that nothing shows it. */
static void hold_refusals(void)
{
    HOLD(SKELETON_ODD, 1, skeleton_search(kite, 7, status, 3, 3, result, LONG_RESULT));
    HOLD(SKELETON_MANY, 2, search(row, 129, 0));
    HOLD(SKELETON_RANGE, 3, search(far_mark, 1, 0));
    HOLD(SKELETON_EQUAL, 4, search(equal_marks, 2, 0));
    HOLD(SKELETON_STATUS_LENGTH, 5, skeleton_search(kite, 8, status, 7, 3, result, LONG_RESULT));
    memset(status, 3, sizeof status);
    HOLD(SKELETON_BYTE, 6, skeleton_certificate(kite, 8, status, 6, 1, 3, result, LONG_RESULT));
    HOLD(SKELETON_REQUEST_PAIR, 7, request(kite, 4, 3, 1));
    HOLD(SKELETON_STUCK, 8, 8);
    HOLD(SKELETON_SHORT, 100, pair_in(0));
    HOLD(SKELETON_NO_PAIR, 101, skeleton_pair(1, 1, result, LONG_RESULT));
}

int main(void)
{
    int32_t x;
    for (x = 0; x < MARKS; x++)
        row[2 * x] = x;
    hold_sizes();
    hold_answers();
    hold_refusals();
    printf("%d constants hold\n", holding);
    return wrong == 0 ? 0 : 1;
}
