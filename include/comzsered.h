/*
 * comzsered: the proved planner, for C and C++ on x86-64.
 *
 * A planning sheet tells of switches that are set once, faults that may then occur in any
 * combination, rules that must hold whatever the faults are, and wishes about the switches, each with
 * a weight. The planner finds the setting of the switches that keeps every rule under every combination
 * of faults and whose broken wishes weigh least together. The same can be typed as a text, for which
 * there are calls of their own. Further calls read a sheet or a text into tables, a struct of words that
 * a program can edit, and write tables as a sheet. docs/FORMAT.md describes sheets, texts, tables and
 * every rule in full.
 *
 * Link with target/staticlib/libplanner.a, which 'tools/build' builds:
 *
 *     cc -I include program.c target/staticlib/libplanner.a -o program
 *
 * Words used below
 *
 *   plan      A setting of all switches, as a number. Its binary digits are the switches, switch 1
 *             being the highest and 1 meaning on. With a switches the plans are 0 to 2^a - 1.
 *   pattern   A combination of faults, as a number in the same way. With f faults the patterns are
 *             0 to 2^f - 1; without any fault there is the one pattern 0.
 *   passes    A plan passes a pattern when all rules are true under the two.
 *   sound     A plan is sound when it passes every pattern.
 *   cost      The sum of the weights of the wishes that a plan breaks. A wish counts every time it is
 *             written.
 *   better    A plan is better than another if its cost is lower or, at equal cost, its number is
 *             smaller.
 *   list      The patterns that the search needed, in the order in which it met them. It starts
 *             empty. The candidate is the best plan that passes all listed patterns. Without a
 *             candidate there is no plan. A sound candidate is the answer. Otherwise the smallest
 *             pattern that the candidate does not pass is added, and the search goes on. No pattern
 *             comes twice. L is the length of the list at the end.
 *
 * Typed texts
 *
 *   The sheet of this text has two switches, two faults, three gates, one rule and two wishes:
 *
 *     switches 2
 *     faults 2
 *     rule (s1|s2)|(f1|f2)
 *     wish !s1 weight 2
 *     wish !s2
 *
 *   A wish without a weight has the weight 1. In a formula ! binds closest, then &, then |, all from
 *   the left; brackets and nots together go 32 deep at most. Each operator makes a gate, in the order
 *   in which the operators are complete. All jobs answer as for the sheet that the text stands for.
 *
 * Tables
 *
 *   What a sheet says, as a struct comzsered_tables of 1,525 words: how many switches, faults, gates,
 *   rules and wishes there are, and room for the most gates, rules and wishes that there may be.
 *
 *    words     entry i, from 0, is                      its line on the sheet
 *    --------  ---------------------------------------  ---------------------
 *    gate[i]   gate i + 1: its letter 'N', 'A' or 'O',  N gate[i][1] 0 0 0
 *              its first point, and its second, which   A gate[i][1] gate[i][2] 0 0
 *              is 0 for 'N'                             O gate[i][1] gate[i][2] 0 0
 *    rule[i]   rule i + 1: its point                    R rule[i] 0 0 0
 *    wish[i]   wish i + 1: three literals, zeros for    W, three numbers and the weight
 *              those that it has not, and its weight
 *
 *   The literal k, switch k on, is the word 2k, and -k, switch k off, is 2k + 1: COMZSERED_ON(k) and
 *   COMZSERED_OFF(k). The word 1, which would be -0, is no literal. A weight of 0, as one that was
 *   forgotten has, is refused.
 *
 *   The tables of the text above have 2 switches, 2 faults, 3 gates, 1 rule and 2 wishes; the gates are
 *   {'O', 1, 2}, {'O', 3, 4} and {'O', 5, 6}, the rule is 7, and the wishes are {3, 0, 0, 2} and
 *   {5, 0, 0, 1}.
 *
 *   Reading leaves zeros beyond the counts. Writing does not look at what stands there.
 *
 * The number
 *
 *   All calls but listing return a number, and write a place and a column. All three are 0 when the
 *   job is done. The enum comzsered_number names the numbers. Lines, columns and bytes are counted
 *   from 1.
 *
 *    number  cause                                                              place
 *    ------  -----------------------------------------------------------------  ----------------
 *         0  none: the job is done                                              0
 *         1  the sheet's length is 0, above 11,660 or no multiple of 22         0
 *         2  the line is malformed, or its letter is unknown                    the line, with a
 *                                                                               column
 *         3  the letter is not allowed at this line                             the line
 *         4  the number of switches (0 to 20) or of faults (0 to 16) is out     1; of a text 2
 *            of its range                                                       for faults
 *         5  the line is gate 401, rule 65 or wish 65                           the line
 *         6  a point or literal is not allowed here, an unused field is not     the line
 *            0, or a literal follows a 0; of a text: there is no such switch
 *            or fault; of tables besides: no gate has this letter
 *         7  the count of lines on the Z line is wrong                          the line
 *         8  there is no plan: for answer over all patterns, for short run      0
 *            over the given ones
 *         9  the list is longer than the list_len words lent for it             0
 *        10  the plan to be rated is 2^a or more                                0
 *        11  a given pattern is 2^f or more                                     the first such
 *                                                                               one's position,
 *                                                                               from 1
 *        12  the text is longer than 16,384 bytes                               0
 *            the text is not legal                                              the byte
 *        13  the buffer is shorter than the sheet to be written                 0
 *        14  the weight of a wish is not 1 to 999                               the line
 *
 *   Numbers 1, 2, 3 and 7 are not for texts, and 12 is for nothing else. The byte of 12 is the one
 *   with which the text ceases to be the beginning of any text that is legal but for its length; if
 *   a text ends too early, it is the one after its last. The line of 5 is then rule 65, wish 65 or
 *   the rule with which there are more than 400 gates.
 *
 *   Tables are refused with 4, 5, 6, 13 and 14 only, and 13 is for nothing else. The line of 4, 5, 6
 *   and 14 is the one on which the entry would stand on the sheet: H is line 1, and gates, rules and
 *   wishes follow in this order.
 *
 *   The column tells where the line of number 2 stops being the beginning of any well-formed line:
 *   it is the smallest c from 1 to 22 such that no well-formed line has the same first c bytes. An
 *   unknown letter gives 1, a wrong line feed 22. A leading zero and the 0 of -0 give the column of
 *   that 0, a space after a digit that of the space, a minus in a field's last column that of the
 *   minus, and a blank field its last column. After every other number the column is 0.
 *
 *   The causes are tried in this order, and the first that applies is returned: 1 or 12; the lines
 *   from the first, each for 2 to 6, 14 and 7; 10 or 11; 9; 8. So 9 comes before 8: a list that is too
 *   short for the search is told as 9 even where there is no plan. Of tables the lines are tried from
 *   the first too, each for 4, 5, 6 and 14, and then 13. So a count of 405 gates is 5 at line 402 if all
 *   400 that there is room for are right, and 6 at line 4 if gate 3 is wrong.
 *
 * What holds for every call
 *
 *   - Any bytes may be passed as a sheet or text, and any numbers and words: wrong ones are refused.
 *     Nothing is kept from one call to the next, and calls may be made from several threads at once.
 *   - No pointer may be null, also where the length beside it is 0.
 *   - The figures' pointers must be valid and point to different places. All figures are written in
 *     every case; those that the outcome does not name are 0.
 *   - Buffers and tables do not overlap each other or the figures. What a call takes as const is only
 *     read.
 *   - A call needs at most COMZSERED_STACK bytes of stack, and takes no memory from elsewhere.
 *   - The time grows with 2^a and 2^f: a sheet with many switches and faults may take very long.
 *     Reading and writing take a time that grows with the bytes alone.
 */
#ifndef COMZSERED_H
#define COMZSERED_H

#include <stddef.h>
#include <stdint.h>

#ifdef __cplusplus
extern "C" {
#endif

/* The version: 0, then the change requests that have landed, then the other landings since that a
   caller can see. CHANGELOG.md has what each brought. */
#define COMZSERED_VERSION_MAJOR 0
#define COMZSERED_VERSION_MINOR 5
#define COMZSERED_VERSION_PATCH 0
#define COMZSERED_VERSION "0.5.0"

/* The numbers of the table above. The calls return them as uint32_t. */
typedef enum comzsered_number {
    COMZSERED_DONE = 0,
    COMZSERED_BAD_LENGTH = 1,
    COMZSERED_MALFORMED = 2,
    COMZSERED_BAD_ORDER = 3,
    COMZSERED_OUT_OF_RANGE = 4,
    COMZSERED_OVER_LIMIT = 5,
    COMZSERED_BAD_FIELD = 6,
    COMZSERED_BAD_COUNT = 7,
    COMZSERED_NO_PLAN = 8,
    COMZSERED_NO_ROOM = 9,
    COMZSERED_HIGH_PLAN = 10,
    COMZSERED_HIGH_PATTERN = 11,
    COMZSERED_ILLEGAL_TEXT = 12,
    COMZSERED_SHORT_BUFFER = 13,
    COMZSERED_BAD_WEIGHT = 14
} comzsered_number;

/* As many of each as there may be. */
#define COMZSERED_SWITCHES_MAX 20
#define COMZSERED_FAULTS_MAX 16
#define COMZSERED_GATES_MAX 400
#define COMZSERED_RULES_MAX 64
#define COMZSERED_WISHES_MAX 64
/* The literals of a wish. */
#define COMZSERED_LITERALS_MAX 3
/* The weight of a wish; the least is 1. */
#define COMZSERED_WEIGHT_MAX 999

/* The longest sheet: 530 lines of 22 bytes. */
#define COMZSERED_SHEET_MAX 11660

/* The longest typed text. */
#define COMZSERED_TEXT_MAX 16384

/* The longest list: there are at most 2^16 patterns. With so many words there is no number 9. */
#define COMZSERED_LIST_MAX 65536

/* The longest listing: 4,182 lines of 17 bytes. */
#define COMZSERED_LISTING_MAX 71094

/*
 * The stack that a call needs at most, in bytes. This is measured, not proved: the stack below a call was
 * painted, and the lowest changed word sought after it. Most was used by listing, 55 KB on a chain of 400
 * gates of which each names the one before first, and 38 KB by any other call; the rest is margin. The tests
 * make all their calls on threads with this stack and 12 KB for themselves.
 */
#define COMZSERED_STACK 65536

/*
 * Answer: the best sound plan of a sheet.
 *
 * Lend list_len words for the list, as many as you like; what they hold at first does not matter.
 *
 *   returned    *plan     *cost     *length   list afterwards
 *   ----------  --------  --------  --------  ----------------------------------------------------
 *   0           the plan  its cost  L         the first L words are the list, the others untouched
 *   8           0         0         L         the first L words are the list, the others untouched
 *   9           0         0         list_len  all words hold the list's beginning
 *   1 to 7, 14  0         0         0         untouched
 *
 * *place and *column are as in the table of numbers.
 */
uint32_t comzsered_answer(const uint8_t *sheet, size_t sheet_len, uint32_t *list, size_t list_len,
                          size_t *place, size_t *column, uint32_t *plan, uint32_t *cost,
                          size_t *length);

/*
 * Short run: the best plan that passes the given patterns. They may come in any order and be
 * repeated. The plan need not pass any other pattern: rate it to see whether it is sound.
 *
 *   returned      *plan      *cost
 *   ------------  ---------  ---------
 *   0             the plan   its cost
 *   8             0          0          no plan passes them all
 *   11            0          0          *place is the position of the first one that is too large
 *   1 to 7, 14    0          0
 *
 * *length is always 0, and no buffer is written.
 *
 * After an answer with 0 or 8 the short run over the listed patterns returns the same number, plan
 * and cost. Over fewer of them, from the first on, it returns 0 with a plan whose smallest pattern
 * not passed is the next listed one. After 9 that holds over all listed patterns too.
 */
uint32_t comzsered_short_run(const uint8_t *sheet, size_t sheet_len, const uint32_t *patterns,
                             size_t pattern_count, size_t *place, size_t *column, uint32_t *plan,
                             uint32_t *cost, size_t *length);

/*
 * Rating: what a plan is worth.
 *
 *   returned         *cost      *sound   *pattern
 *   ---------------  ---------  -------  ----------------------------------------------
 *   0                its cost   1        0
 *   0                its cost   0        the smallest pattern that the plan does not pass
 *   1 to 7, 14, 10   0          0        0
 *
 * *length is always 0, and no buffer is written.
 */
uint32_t comzsered_rating(const uint8_t *sheet, size_t sheet_len, uint32_t plan, size_t *place,
                          size_t *column, uint32_t *cost, uint32_t *sound, uint32_t *pattern,
                          size_t *length);

/*
 * Listing: what the program 'plan' prints for these bytes as its input. It is the answer with a
 * list of 4,096 words, as lines of a letter and three numbers, written as a sheet's are: A with
 * number, place and cost, or after 2 with number, place and column; after 0 an S line for each switch
 * (1 on, 0 off) and a W line for each wish (1 kept, 0 broken); after 0, 8 and 9 an F line for each
 * listed pattern; Z with the number of lines before.
 *
 * Returns the length of the listing, which stands in the first bytes of out; the others are
 * untouched. If out_len is below COMZSERED_LISTING_MAX it returns 0, and all of out is untouched.
 */
size_t comzsered_listing(const uint8_t *sheet, size_t sheet_len, uint8_t *out, size_t out_len);

/*
 * The same for a typed text. Where a sheet is refused with 1 to 7 or 14, a text is with 12, 4, 5, 6 or
 * 14: then the place is as in the table of numbers, all other figures are 0, and no buffer is touched.
 * The column is always 0. Else everything is as for the sheet that the text stands for. The listing is
 * what the program 'typed' prints.
 */
uint32_t comzsered_text_answer(const uint8_t *text, size_t text_len, uint32_t *list,
                               size_t list_len, size_t *place, size_t *column, uint32_t *plan,
                               uint32_t *cost, size_t *length);
uint32_t comzsered_text_short_run(const uint8_t *text, size_t text_len, const uint32_t *patterns,
                                  size_t pattern_count, size_t *place, size_t *column,
                                  uint32_t *plan, uint32_t *cost, size_t *length);
uint32_t comzsered_text_rating(const uint8_t *text, size_t text_len, uint32_t plan, size_t *place,
                               size_t *column, uint32_t *cost, uint32_t *sound, uint32_t *pattern,
                               size_t *length);
size_t comzsered_text_listing(const uint8_t *text, size_t text_len, uint8_t *out, size_t out_len);

/* What a sheet says, as told above. */
typedef struct comzsered_tables {
    uint32_t switches, faults, gates, rules, wishes;
    /* A gate's letter, first point and second point. */
    uint32_t gate[COMZSERED_GATES_MAX][3];
    uint32_t rule[COMZSERED_RULES_MAX];
    /* A wish's literals and, after them at COMZSERED_LITERALS_MAX, its weight. */
    uint32_t wish[COMZSERED_WISHES_MAX][COMZSERED_LITERALS_MAX + 1];
} comzsered_tables;

/* The words of tables: the library takes them one after another, with nothing between. */
#define COMZSERED_TABLES_WORDS 1525

#if defined(__cplusplus) && __cplusplus >= 201103L
static_assert(sizeof(comzsered_tables) == COMZSERED_TABLES_WORDS * sizeof(uint32_t),
              "comzsered_tables must be 1,525 words");
#elif defined(__STDC_VERSION__) && __STDC_VERSION__ >= 201112L
_Static_assert(sizeof(comzsered_tables) == COMZSERED_TABLES_WORDS * sizeof(uint32_t),
               "comzsered_tables must be 1,525 words");
#endif

/* The words of the literals k and -k: switch k on, and switch k off. */
#define COMZSERED_ON(k) (2 * (uint32_t)(k))
#define COMZSERED_OFF(k) (2 * (uint32_t)(k) + 1)

/*
 * Reading: a sheet, or a typed text, as tables. What the struct holds at first does not matter.
 *
 *   returned                  *tables afterwards
 *   ------------------------  ------------------------------------------------------------
 *   0                         the tables; every gate, rule and wish beyond the counts is 0
 *   1 to 7 or 14; of a text   untouched
 *   12, 4 to 6 or 14
 *
 * *place and *column are as in the table of numbers; of a text *column is always 0.
 */
uint32_t comzsered_read(const uint8_t *sheet, size_t sheet_len, comzsered_tables *tables,
                        size_t *place, size_t *column);
uint32_t comzsered_text_read(const uint8_t *text, size_t text_len, comzsered_tables *tables,
                             size_t *place, size_t *column);

/*
 * Writing: tables as a sheet. With COMZSERED_SHEET_MAX bytes for out there is no number 13.
 *
 *   returned        *length            out afterwards
 *   --------------  -----------------  ----------------------------------------------------------
 *   0               that of the sheet  the sheet in the first *length bytes, the others untouched
 *   4 to 6, 14, 13  0                  untouched
 *
 * *place is as in the table of numbers, and *column is always 0.
 *
 * A sheet that was written is accepted, and reading it gives the tables again, with zeros beyond the
 * counts. What was read is written as the sheet that it was read from, byte for byte; of a text, as
 * the sheet that the text stands for.
 */
uint32_t comzsered_write(const comzsered_tables *tables, uint8_t *out, size_t out_len,
                         size_t *place, size_t *column, size_t *length);

#ifdef __cplusplus
}
#endif

#endif
