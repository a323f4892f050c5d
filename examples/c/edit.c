/*
 * Reads a typed text, adds a rule and a wish to what it says, writes the planning sheet, and reads
 * that again.
 *
 *     edit
 *
 * The exit status is 0; it is 1 if something was refused that should not be, or could not be printed.
 */
#include <stdio.h>
#include <string.h>

#include "comzsered.h"

/* One of two switches or two faults must be true, and both switches are wished to be off. The second
   wish weighs 1, as no weight is named. */
static const char text[] =
    "switches 2\n"
    "faults 2\n"
    "rule (s1|s2)|(f1|f2)\n"
    "wish !s1 weight 2\n"
    "wish !s2\n";

/* The bytes of a sheet's line. */
#define LINE 22

/* Room for any sheet. */
static uint8_t sheet[COMZSERED_SHEET_MAX];

static comzsered_tables tables, again;

/* Adds a gate, and returns its point. There must be room for it. */
static uint32_t add_gate(char letter, uint32_t first, uint32_t second)
{
    uint32_t *gate = tables.gate[tables.gates++];

    gate[0] = (uint32_t)letter;
    gate[1] = first;
    gate[2] = second;
    return tables.switches + tables.faults + tables.gates;
}

int main(void)
{
    size_t place, column, length;
    uint32_t number, both;
    uint32_t *wish;

    number = comzsered_text_read((const uint8_t *)text, sizeof text - 1, &tables, &place, &column);
    if (number != COMZSERED_DONE)
        return 1;
    printf("The text has %lu gates, %lu rules and %lu wishes.\n", (unsigned long)tables.gates,
           (unsigned long)tables.rules, (unsigned long)tables.wishes);

    /* The second rule: not both switches are on. */
    both = add_gate('A', 1, 2);
    tables.rule[tables.rules++] = add_gate('N', both, 0);
    wish = tables.wish[tables.wishes++];
    wish[0] = COMZSERED_ON(1);
    wish[COMZSERED_LITERALS_MAX] = 3;

    number = comzsered_write(&tables, sheet, sizeof sheet, &place, &column, &length);
    if (number != COMZSERED_DONE)
        return 1;
    printf("With one more rule and one more wish it is this sheet:\n");
    fwrite(sheet, 1, length, stdout);

    number = comzsered_read(sheet, length, &again, &place, &column);
    if (number != COMZSERED_DONE)
        return 1;
    printf("Read again it gives %s tables.\n",
           memcmp(&tables, &again, sizeof tables) == 0 ? "the same" : "other");

    /* Without its last line it is refused, and the tables stay as they are. */
    number = comzsered_read(sheet, length - LINE, &again, &place, &column);
    printf("Without its last line: number %lu, line %lu, and %s tables.\n", (unsigned long)number,
           (unsigned long)place,
           memcmp(&tables, &again, sizeof tables) == 0 ? "the same" : "other");
    return ferror(stdout) != 0;
}
