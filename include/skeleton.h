/*
 * skeleton.h: which edges between the marks of a plate are certain, possible or impossible. For C99 and C++; link libdriver.a.
 *
 * Marks are signed 32-bit numbers x0, y0, x1, y1, and so on; n marks are 2n numbers, n from 0 to 128. Each number lies from -10,000 to
 * 10,000, and no two marks are equal. A pair (a, b) has a < b and the number b(b-1)/2 + a: (0,1) is 0, (0,2) is 1, (1,2) is 2, (0,3) is 3.
 * There are n(n-1)/2 pairs, at most 8,128.
 *
 * One step is the same length on both axes. r is left of p to q if (qx-px)(ry-py) - (qy-py)(rx-px) is above 0, right if it is below 0, and on
 * the line if it is 0. A pair is an empty edge if no third mark lies on the segment. Two empty edges cross if each has its ends strictly on
 * opposite sides of the other's line. A hull edge is an empty edge with at least one side on which no mark lies strictly; every other empty
 * edge is inner. Three marks not on one line form an empty triangle if the three sides are empty edges and no mark lies strictly inside. A
 * triangulation is a set of empty edges, no two of which cross, such that each empty edge left out crosses one kept; it is locally minimal
 * if each kept inner edge has a certificate (see skeleton_certificate) in the kept set.
 *
 * The status buffer holds one byte a pair in pair order: 0 impossible, 1 possible, 2 certain. Its length is exactly n(n-1)/2. A certain edge
 * lies in every locally minimal triangulation of the marks, an impossible one in none, whatever the budget was.
 *
 * Every function but skeleton_version takes a result buffer and returns a status number: 0, or one of these. 100 is given before all others,
 * else the lowest that applies.
 *
 *   number                          given exactly when                                        detail
 *   SKELETON_ODD            1       the list's length is odd                                  the length
 *   SKELETON_MANY           2       more than 128 marks                                       n
 *   SKELETON_RANGE          3       a number outside the range                                index in the list of the first
 *   SKELETON_EQUAL          4       two marks equal                                           smallest mark number that equals an earlier mark
 *   SKELETON_STATUS_LENGTH  5       the status buffer is not n(n-1)/2 long                    n(n-1)/2
 *   SKELETON_BYTE           6       certificate request, a byte above 2                       index of the first
 *   SKELETON_REQUEST_PAIR   7       certificate request, not a < b < n                        0
 *   SKELETON_STUCK          8       search, an inner edge without a certificate,              its pair number
 *                                   and crossed by nothing remaining
 *   SKELETON_SHORT          100     the result buffer is shorter than the function asks       none
 *   SKELETON_NO_PAIR        101     skeleton_pair, not a < b < 128                            0
 *
 * Each function asks for a result buffer of at least so many numbers as the constant SKELETON_..._ROOM before it says; a longer one will do.
 * On return the buffer begins with the numbers that the function names, and those behind them keep their values. After a refusal the first is
 * the detail and the others are 0. But after 100 nothing has been written anywhere, and there is no detail to read.
 *
 * After 0 a search has written every byte of the status buffer, which need not be initialised. After 1 to 7, 100 and 101 it holds what it held
 * before. After 8 every byte of it is 255, which a certificate request refuses with 6.
 *
 * A list or a buffer is a pointer and how many elements it has, not bytes. A null pointer with length 0 is an empty list or buffer: so no marks
 * may be null, and the status of no mark or of one; as a result buffer it is too short, 100. A null pointer with another length is not
 * detected, and must not be passed. Any other pointer is aligned as its type asks, and that many elements are lent by the caller; a buffer that
 * is written overlaps no other list or buffer of the same call. Nothing is read or written outside of them, and nothing is kept after the call.
 *
 * skeleton_search and skeleton_certificate take less than 280,000 bytes of stack, as measured on plates of 128 marks; the others next to none.
 * Nothing is allocated; of the C library only memset is called. All may be called from several threads at once, if no call writes a buffer that
 * another call uses. While a search runs, its status buffer holds no statuses yet.
 *
 * An example, which prints `done 3`:
 *
 *     #include <stdio.h>
 *     #include "skeleton.h"
 *     int main(void) {
 *         int32_t marks[8] = { -3, 0,  0, -1,  3, 0,  0, 1 };
 *         uint8_t status[6];
 *         uint64_t result[SKELETON_SEARCH_ROOM];
 *         uint32_t number = skeleton_search(marks, 8, status, 6, 1000, result, SKELETON_SEARCH_ROOM);
 *         if (number == 0) printf("%s %u\n", result[0] == SKELETON_DONE ? "done" : "paused", (unsigned)result[1]);
 *         return (int)number;
 *     }
 */
#ifndef SKELETON_H
#define SKELETON_H

#include <stddef.h>
#include <stdint.h>

#ifdef __cplusplus
extern "C" {
#endif

/* The version of the interface that this header declares. */
#define SKELETON_VERSION 1

/* The largest number of marks that a plate may have, and of its pairs. */
#define SKELETON_MOST_MARKS 128
#define SKELETON_MOST_PAIRS 8128

/* Status bytes. */
#define SKELETON_IMPOSSIBLE 0
#define SKELETON_POSSIBLE 1
#define SKELETON_CERTAIN 2

/* Status numbers. */
#define SKELETON_ODD 1
#define SKELETON_MANY 2
#define SKELETON_RANGE 3
#define SKELETON_EQUAL 4
#define SKELETON_STATUS_LENGTH 5
#define SKELETON_BYTE 6
#define SKELETON_REQUEST_PAIR 7
#define SKELETON_STUCK 8
#define SKELETON_SHORT 100
#define SKELETON_NO_PAIR 101

/*
 * Searches the plate within the budget, and writes the status of each pair.
 *
 * The remaining set starts as all empty edges. A round goes through the inner edges that remain, in pair order. Examining an edge asks for a
 * certificate in the remaining set as it is at that moment. With one, the edge stays. Without one, and if some remaining edge crosses it, it
 * is struck at once. Without one and crossed by nothing remaining, the search ends with 8. A round that struck something is followed by
 * another; a round that struck nothing, or had no edge to examine, ends the search. Each examination costs one of the budget; nothing else
 * does. The search pauses when an examination is due and the budget is spent.
 *
 * At a pause or at the end a pair that does not remain is 0; one that remains and is crossed by no other remaining edge is 2; any other is 1.
 * At done, the remaining set is the largest set that holds the hull edges and in which each inner edge has a certificate. With m inner edges
 * a search ends within m(m+1)/2 examinations. Of two budgets, neither of which gives 8, the larger never alters a certain or an impossible.
 *
 * What the status buffer held before plays no part. To go on after a pause, search anew with a larger budget.
 *
 * result[0]  SKELETON_DONE, or SKELETON_PAUSED if an examination was due and the budget was spent
 * result[1]  the examinations made
 *
 * Refusals: 1 to 5, 8 and 100.
 */
#define SKELETON_SEARCH_ROOM 2
#define SKELETON_DONE 0
#define SKELETON_PAUSED 1
uint32_t skeleton_search(const int32_t *marks, size_t marks_length, uint8_t *status, size_t status_length, uint32_t budget,
                         uint64_t *result, size_t result_length);

/*
 * The certificate request for the pair (a, b). An edge belongs to the set if its byte is not 0 and it is an empty edge. Beyond answer 6, the
 * byte of (a, b) itself plays no part. The status buffer is never written.
 *
 * A certificate of the inner edge (a, b) is a mark r strictly left and a mark s strictly right of a to b, such that abr and abs are empty
 * triangles, the four sides ar, br, as, bs belong to the set, and either the segments ab and rs don't cross strictly, or weight(ab) <=
 * weight(rs), where the weight of a pair is dx*dx + dy*dy. A straight angle at a or b counts as not crossing. The first certificate is that
 * with the smallest r, then the smallest s. With the bytes of a search that is done, each inner edge that is not 0 has one; after a pause not
 * always.
 *
 * result[0]  SKELETON_HULL       the pair is a hull edge
 *            SKELETON_NOT_EMPTY  a third mark lies on the segment
 *            SKELETON_CERTIFIED  an inner edge; its first certificate follows
 *            SKELETON_NONE       an inner edge that has no certificate
 * result[1]  r
 * result[2]  s
 * result[3] to result[6]  the pair numbers of the sides ar, br, as, bs
 *
 * result[1] to result[6] are 0 unless result[0] is SKELETON_CERTIFIED. Refusals: 1 to 7 and 100.
 */
#define SKELETON_CERTIFICATE_ROOM 7
#define SKELETON_HULL 0
#define SKELETON_NOT_EMPTY 1
#define SKELETON_CERTIFIED 2
#define SKELETON_NONE 3
uint32_t skeleton_certificate(const int32_t *marks, size_t marks_length, const uint8_t *status, size_t status_length, size_t a, size_t b,
                              uint64_t *result, size_t result_length);

/*
 * The number of the pair (a, b) of at most 128 marks.
 *
 * result[0]  b(b-1)/2 + a
 *
 * Refusals: 100 and 101.
 */
#define SKELETON_PAIR_ROOM 1
uint32_t skeleton_pair(size_t a, size_t b, uint64_t *result, size_t result_length);

/*
 * The longest budget that a plate of n marks can need: with it, or a larger one, no search of n marks pauses. It fits 32 bits.
 *
 * result[0]  p(p+1)/2, where p = n(n-1)/2; no plate needs more, and most need far less
 *
 * Refusals: 100 and 2.
 */
#define SKELETON_LONGEST_BUDGET_ROOM 1
uint32_t skeleton_longest_budget(size_t n, uint64_t *result, size_t result_length);

/* The version of the interface that the library was built with; a program should see that it is SKELETON_VERSION. */
uint32_t skeleton_version(void);

#ifdef __cplusplus
}
#endif

#endif
