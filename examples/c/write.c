/*
 * Keeps a box as tables, writes its planning sheet, answers that, and does so again after each edit.
 *
 *     write
 *
 * The exit status is 0; it is 1 if something could not be printed.
 */
#include <stdio.h>

#include "comzsered.h"

/* The words lent for the list. */
#define LISTED 4

/* Room for any sheet. */
static uint8_t sheet[COMZSERED_SHEET_MAX];

/* The switches are points 1 and 2, the faults 3 and 4, and the gates 5 to 7. */
static comzsered_tables tables = {
    .switches = 2,
    .faults = 2,
    .gates = 3,
    .gate = {{'O', 1, 2}, {'O', 3, 4}, {'O', 5, 6}},
    .rules = 1,
    .rule = {7},
    .wishes = 2,
    /* Three literals and the weight. */
    .wish = {{COMZSERED_OFF(1), 0, 0, 2}, {COMZSERED_OFF(2), 0, 0, 3}},
};

/* Writes the sheet into so many bytes of the buffer, prints it and what the planner says of it.
   Returns its length, 0 if it was not written. */
static size_t show(const char *title, size_t room)
{
    size_t place, column, length, listed;
    uint32_t list[LISTED];
    uint32_t number, plan, cost;

    printf("%s\n", title);
    number = comzsered_write(&tables, sheet, room, &place, &column, &length);
    if (number != COMZSERED_DONE) {
        /* The table in comzsered.h says what the number means. */
        printf("Refused: number %lu, place %lu\n", (unsigned long)number, (unsigned long)place);
        return length;
    }
    fwrite(sheet, 1, length, stdout);
    number = comzsered_answer(sheet, length, list, LISTED, &place, &column, &plan, &cost,
                              &listed);
    printf("Answer: number %lu, plan %lu, cost %lu\n", (unsigned long)number,
           (unsigned long)plan, (unsigned long)cost);
    return length;
}

int main(void)
{
    size_t length;

    length = show("One of two switches or two faults must be true:", sizeof sheet);
    show("With one byte too few:", length - 1);

    /* The rule names a new gate, point 8: point 7 and switch 1. */
    tables.gate[3][0] = 'A';
    tables.gate[3][1] = 7;
    tables.gate[3][2] = 1;
    tables.gates = 4;
    tables.rule[0] = 8;
    /* Switch 2 is wished to be on only if switch 1 is. */
    tables.wish[2][0] = COMZSERED_ON(1);
    tables.wish[2][1] = COMZSERED_OFF(2);
    tables.wishes = 3;
    show("Switch 1 must be on besides, and one more wish, on line 9, whose weight was forgotten:",
         sizeof sheet);

    tables.wish[2][COMZSERED_LITERALS_MAX] = 1;
    show("With a weight:", sizeof sheet);

    tables.gate[3][1] = 8;
    show("The last gate, on line 5, names itself:", sizeof sheet);
    return ferror(stdout) != 0;
}
