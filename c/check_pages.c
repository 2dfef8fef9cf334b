/* Checks a good page and damaged ones, and prints what was found. */
#include "page.h"

#include <stdio.h>
#include <string.h>

enum { RECORD = 20, PLACES = 4, LENGTH = RECORD * PLACES };

/* relation 0 has two columns, relation 1 has one */
static const uint8_t arities[2] = {2, 1};

/* Writes a row at a place. */
static void put(uint8_t *page, size_t place, uint8_t relation, uint8_t first, uint8_t second)
{
    uint8_t *record = page + RECORD * place;
    memset(record, 0, RECORD);
    record[0] = 0x49;
    record[1] = 0x43;
    record[3] = relation;
    record[7] = first;
    record[11] = second;
}

/* Writes an empty record at a place. */
static void clear(uint8_t *page, size_t place)
{
    uint8_t *record = page + RECORD * place;
    memset(record, 0, RECORD);
    record[0] = 0x2E;
    record[1] = 0x2E;
}

/* A page of four places: two rows, an empty place, a row. */
static void make(uint8_t *page)
{
    put(page, 0, 0, 7, 2);
    put(page, 1, 1, 7, 0);
    clear(page, 2);
    put(page, 3, 0, 7, 3);
}

/* Prints what the check finds of the bytes. */
static void show(const char *what, const uint8_t *bytes, size_t length)
{
    struct page_finding found = page_check(bytes, length, arities, sizeof arities);
    printf("%-40s %d at %zu\n", what, found.number, found.position);
}

int main(void)
{
    static uint8_t long_page[RECORD * 257];
    uint8_t page[LENGTH];

    make(page);
    show("a good page", page, LENGTH);
    show("its first record", page, RECORD);
    show("no bytes, and no pointer", NULL, 0);
    show("one byte short", page, LENGTH - 1);

    for (size_t place = 0; place < 257; place++)
        clear(long_page, place);
    show("256 empty records", long_page, RECORD * 256);
    show("257 empty records", long_page, sizeof long_page);

    make(page);
    page[2 * RECORD + 1] = 0x43;
    show("half of a mark", page, LENGTH);

    make(page);
    page[3 * RECORD + 3] = 2;
    show("a relation that is not declared", page, LENGTH);

    make(page);
    page[1 * RECORD + 11] = 1;
    show("a column past the arity", page, LENGTH);

    make(page);
    page[2 * RECORD + 19] = 1;
    show("an empty record that is not zero", page, LENGTH);

    make(page);
    put(page, 3, 0, 7, 2);
    show("a row that stands twice", page, LENGTH);

    make(page);
    page[3 * RECORD] = 0;
    page[2 * RECORD + 19] = 1;
    show("a mark missing after an unfit record", page, LENGTH);

    make(page);
    struct page_finding found = page_check(page, LENGTH, NULL, 0);
    printf("%-40s %d at %zu\n", "a good page, but no arities", found.number, found.position);
    return 0;
}
