/*
 * Answers a planning sheet or a typed text and prints the answer in words.
 *
 *     answer [FILE]
 *
 * A FILE whose name ends in .text is a typed text. Without FILE it answers the sheet below. The exit
 * status is 0 if the input was answered, also by "no plan", 1 if it was refused and 2 if it could
 * not be read.
 */
#include <stdio.h>
#include <stdlib.h>
#include <string.h>

#include "comzsered.h"

/* One of two switches or two faults must be true, and both switches are wished to be off, with the
   weights 2 and 3. */
static const char built_in[] =
    "H    2    2    0    0\n"
    "O    1    2    0    0\n"
    "O    3    4    0    0\n"
    "O    5    6    0    0\n"
    "R    7    0    0    0\n"
    "W   -1    0    0    2\n"
    "W   -2    0    0    3\n"
    "Z    7    0    0    0\n";

/* One byte more than the longest text, which is longer than any sheet: a longer file is refused. */
static uint8_t input[COMZSERED_TEXT_MAX + 1];
/* Room for any list. */
static uint32_t list[COMZSERED_LIST_MAX];
/* What the input says, of which the counts are looked at; all 0 if it is refused. */
static comzsered_tables tables;

static size_t read_input(const char *name)
{
    FILE *file = fopen(name, "rb");
    size_t length;

    if (file == NULL) {
        perror(name);
        exit(2);
    }
    length = fread(input, 1, sizeof input, file);
    if (ferror(file)) {
        perror(name);
        exit(2);
    }
    fclose(file);
    return length;
}

static size_t take_built_in(void)
{
    size_t length = sizeof built_in - 1;
    size_t i;

    for (i = 0; i < length; i++)
        input[i] = (uint8_t)built_in[i];
    return length;
}

static int is_text(const char *name)
{
    size_t length = strlen(name);

    return length >= 5 && strcmp(name + length - 5, ".text") == 0;
}

/* Binary digit k, counted from 1 at the highest, of a number with so many digits. */
static int digit(uint32_t number, unsigned k, unsigned digits)
{
    return number >> (digits - k) & 1;
}

static void print_plan(uint32_t plan, uint32_t cost, unsigned switches)
{
    unsigned k;

    printf("Plan %lu, cost %lu\n", (unsigned long)plan, (unsigned long)cost);
    for (k = 1; k <= switches; k++)
        printf("  switch %u: %s\n", k, digit(plan, k, switches) ? "on" : "off");
}

static void print_pattern(uint32_t pattern, unsigned faults)
{
    unsigned k;

    printf("  pattern %lu:", (unsigned long)pattern);
    if (pattern == 0)
        printf(" no fault");
    for (k = 1; k <= faults; k++)
        if (digit(pattern, k, faults))
            printf(" fault %u", k);
    printf("\n");
}

int main(int argc, char **argv)
{
    size_t input_len, place, column, length, i;
    uint32_t number, plan, cost;
    int typed;

    if (argc > 2) {
        fprintf(stderr, "usage: answer [FILE]\n");
        return 2;
    }
    typed = argc == 2 && is_text(argv[1]);
    input_len = argc == 2 ? read_input(argv[1]) : take_built_in();
    if (typed) {
        comzsered_text_read(input, input_len, &tables, &place, &column);
        number = comzsered_text_answer(input, input_len, list, COMZSERED_LIST_MAX, &place, &column,
                                       &plan, &cost, &length);
    } else {
        comzsered_read(input, input_len, &tables, &place, &column);
        number = comzsered_answer(input, input_len, list, COMZSERED_LIST_MAX, &place, &column,
                                  &plan, &cost, &length);
    }
    if (number == COMZSERED_DONE) {
        print_plan(plan, cost, tables.switches);
    } else if (number == COMZSERED_NO_PLAN) {
        printf("No plan passes every pattern.\n");
    } else {
        /* The table in comzsered.h says what the number means. */
        printf("Refused: number %lu, place %lu", (unsigned long)number, (unsigned long)place);
        if (number == COMZSERED_MALFORMED)
            printf(", column %lu", (unsigned long)column);
        printf("\n");
        return 1;
    }
    printf("Listed patterns: %lu\n", (unsigned long)length);
    for (i = 0; i < length; i++)
        print_pattern(list[i], tables.faults);
    return 0;
}
