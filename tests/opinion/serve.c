/* The library as a process, for a runner on another processor: questions on standard input, replies on standard output, numbers
   with the low byte first. Tables, sheets and rolls lie between bytes that must stay as they are. */
#include "magsurinda.h"
#include <stddef.h>
#include <stdio.h>
#include <stdlib.h>
#include <string.h>

/* A kind of question that is answered wrong on purpose, or S for a sheet: the runner has to find it out. */
#ifndef WRONG
#define WRONG 0
#endif

enum { GUARD = 64, MOST = 1 << 20 };

static void need(int ok, const char *what)
{
    if (!ok) {
        fprintf(stderr, "serve: %s\n", what);
        exit(1);
    }
}

static void take(void *into, size_t length)
{
    need(fread(into, 1, length, stdin) == length, "a question cut short");
}

static uint64_t number(void)
{
    uint64_t value;
    take(&value, sizeof value);
    return value;
}

static void give(const void *from, size_t length)
{
    need(fwrite(from, 1, length, stdout) == length, "a reply not taken");
}

static void reply(int kind, uint64_t value)
{
    value ^= kind == WRONG;
    give(&value, sizeof value);
}

/* A block of `length` bytes from the question, in a room of its own. */
static uint8_t *block(size_t length)
{
    need(length <= MOST, "a length that nothing has");
    uint8_t *room = malloc(length + 2 * GUARD);
    need(room != NULL, "no memory");
    memset(room, 0xa5, length + 2 * GUARD);
    take(room + GUARD, length);
    return room + GUARD;
}

static void give_back(uint8_t *bytes, size_t length)
{
    for (size_t i = 0; i < GUARD; i++)
        need(bytes[length + i] == 0xa5 && bytes[(ptrdiff_t)i - GUARD] == 0xa5, "a byte beside a block was written");
    give(bytes, length);
    free(bytes - GUARD);
}

static void judge(size_t table_length, size_t sheet_length)
{
    uint8_t *table = block(table_length), *sheet = block(sheet_length);
    reply('J', magsurinda_judge(table, table_length, sheet, sheet_length));
    if (WRONG == 'S' && sheet_length > 0)
        sheet[sheet_length - 1] ^= 1;
    give_back(table, table_length);
    give_back(sheet, sheet_length);
}

static void ask(int kind, size_t length, uint64_t which)
{
    uint8_t *asked = block(length);
    reply(kind, (kind == 'W'   ? magsurinda_ask_wire
                 : kind == 'C' ? magsurinda_ask_channel
                               : magsurinda_label)(asked, length, which));
    give_back(asked, length);
}

/* Whether NULL with length 0 gets the replies of empty blocks. */
static int null_is_empty(void)
{
    uint8_t table[5] = { 0 }, none[1] = { 0 };
    return magsurinda_judge(NULL, 0, NULL, 0) == magsurinda_judge(none, 0, none + 1, 0)
        && magsurinda_judge(table, 5, NULL, 0) == magsurinda_judge(table, 5, none, 0)
        && magsurinda_ask_wire(NULL, 0, 0) == magsurinda_ask_wire(none, 0, 0)
        && magsurinda_ask_channel(NULL, 0, 0) == magsurinda_ask_channel(none, 0, 0)
        && magsurinda_label(NULL, 0, 0) == magsurinda_label(none, 0, 0);
}

int main(void)
{
    for (int kind; (kind = getchar()) != EOF; fflush(stdout)) {
        uint64_t first = number(), second = number();
        if (kind == 'J')
            judge(first, second);
        else if (kind == 'W' || kind == 'C' || kind == 'L')
            ask(kind, first, second);
        else if (kind == 'P')
            reply(kind, magsurinda_price(first, second));
        else if (kind == 'N')
            reply(kind, null_is_empty());
        else
            need(0, "no such question");
    }
    return 0;
}
