/* The header's names and numbers against what the library does: every refusal by its name, from a table, a sheet, a price or a
   roll that has this fault alone, and the longest table, sheet and roll, with the longest shipped table on standard input. */
#include "magsurinda.h"
#include "draft.h"
#include <stdio.h>

/* Document 01, "Table and sheet, bit by bit". */
_Static_assert(MAGSURINDA_TABLE_LONGEST == (24 + 7 + 8 + 64 * (2 + 10 + 24) + 128 * (1 + 16 + 24 + 24 + 4 + 8 * 6) + 7) / 8, "");
_Static_assert(MAGSURINDA_SHEET_LONGEST == (7 + 8 + 64 * (24 + 24) + 128 * 28 + 7) / 8, "");
_Static_assert(MAGSURINDA_TABLE_LONGEST == 2165 && MAGSURINDA_SHEET_LONGEST == 834, "as document 01 says");

/* Document 02, request Q-1: the count, and 128 times a length byte and 24 more. */
_Static_assert(MAGSURINDA_ROLL_LONGEST == 1 + 128 * (1 + 24), "");

static int failed, named;

static void expect(const char *what, int holds) {
    if (!holds) {
        printf("%s: FAILED\n", what);
        failed = 1;
    }
}

static void refused(const char *what, uint64_t reply, enum magsurinda_refusal number, unsigned place) {
    named++;
    if (magsurinda_number(reply) != (unsigned)number || magsurinda_place(reply) != place || magsurinda_value(reply) != 0) {
        printf("%s: FAILED: refused %u %u, and not %u %u\n", what, magsurinda_number(reply), magsurinda_place(reply),
               (unsigned)number, place);
        failed = 1;
    }
}

/* Case A twice, each on a wire of its own; wire 1 and channel 1 can have a fault. */
struct fault {
    uint32_t hyper, wires, channels, code, room, payload, period, deadline, hops, route[2];
};

static const struct fault sound = {880, 2, 2, 0, 3172, 1, 88, 3179, 1, {1, 0}};

static void write_table(struct fault f) {
    draft_begin();
    put(24, f.hyper), put(7, f.wires), put(8, f.channels);
    for (uint32_t w = 0; w < 2; w++)
        put(2, w ? f.code : sound.code), put(10, 7), put(24, w ? f.room : sound.room);
    for (uint32_t k = 0; k < 2; k++) {
        put(1, 0), put(16, k ? f.payload : sound.payload), put(24, k ? f.period : sound.period);
        put(24, k ? f.deadline : sound.deadline), put(4, k ? f.hops : 1), put(6, k ? f.route[0] : 0);
        if (k && f.hops == 2)
            put(6, f.route[1]);
    }
}

static uint8_t sheet[MAGSURINDA_SHEET_LONGEST];

static uint64_t judged(struct fault f) {
    write_table(f);
    return magsurinda_judge(draft, draft_bytes(), sheet, sizeof sheet);
}

static struct fault one;
#define WITH(field, number) (one = sound, one.field = (number), judged(one))

static void of_tables(void) {
    expect("a table without a fault is granted", magsurinda_number(judged(sound)) == MAGSURINDA_GRANTED);
    size_t length = draft_bytes();
    refused("cut short", magsurinda_judge(draft, length - 1, sheet, sizeof sheet), MAGSURINDA_REFUSED_PAST_THE_END, 0);
    refused("a further byte", magsurinda_judge(draft, length + 1, sheet, sizeof sheet), MAGSURINDA_REFUSED_FURTHER, 0);
    refused("no lent buffer", magsurinda_judge(draft, length, NULL, 0), MAGSURINDA_REFUSED_LENT_BUFFER, 0);
    refused("H 0", WITH(hyper, 0), MAGSURINDA_REFUSED_HYPERPERIOD, 0);
    refused("no wires", WITH(wires, 0), MAGSURINDA_REFUSED_WIRES, 0);
    refused("no channels", WITH(channels, 0), MAGSURINDA_REFUSED_CHANNELS, 0);
    refused("rate code 3", WITH(code, 3), MAGSURINDA_REFUSED_RATE_CODE, 1);
    refused("payload 0", WITH(payload, 0), MAGSURINDA_REFUSED_PAYLOAD, 1);
    refused("no divisor of H", WITH(period, 87), MAGSURINDA_REFUSED_PERIOD, 1);
    refused("no hops", WITH(hops, 0), MAGSURINDA_REFUSED_HOPS, 1);
    refused("wire 2 of two", WITH(route[0], 2), MAGSURINDA_REFUSED_ROUTE_WIRE, 1);
    refused("route 1, 0", WITH(hops, 2), MAGSURINDA_REFUSED_ROUTE_ORDER, 1);
    refused("88 bytes become 89", WITH(payload, 39), MAGSURINDA_REFUSED_LOAD, 1);
    refused("a byte of room less", WITH(room, sound.room - 1), MAGSURINDA_REFUSED_ROOM, 1);
    refused("a slot less", WITH(deadline, sound.deadline - 1), MAGSURINDA_REFUSED_DEADLINE, 1);
}

static void of_sheets_and_prices(void) {
    uint64_t reply = judged(sound);
    size_t length = magsurinda_sheet_length(reply);
    refused("one byte", magsurinda_ask_wire(sheet, 1, 0), MAGSURINDA_REFUSED_SHEET_LENGTH, 0);
    refused("a byte of 255 more", magsurinda_ask_channel(sheet, length + 1, 0), MAGSURINDA_REFUSED_SHEET_LENGTH, 0);
    refused("wire 2 of two", magsurinda_ask_wire(sheet, length, 2), MAGSURINDA_REFUSED_NO_SUCH, 0);
    refused("channel 2 of two", magsurinda_ask_channel(sheet, length, 2), MAGSURINDA_REFUSED_NO_SUCH, 0);
    sheet[length - 1] ^= 1;
    refused("a filling bit", magsurinda_ask_wire(sheet, length, 0), MAGSURINDA_REFUSED_SHEET_FILLING, 0);
    refused("what is after a sheet", magsurinda_ask_wire(sheet + length, 2, 0), MAGSURINDA_REFUSED_SHEET_COUNT, 0);
    refused("framing 2", magsurinda_price(2, 1), MAGSURINDA_REFUSED_FRAMING, 0);
    refused("a price of nothing", magsurinda_price(0, 0), MAGSURINDA_REFUSED_PAYLOAD, 0);
}

static void of_the_longest(void) {
    static uint8_t table[MAGSURINDA_TABLE_LONGEST + 1];
    size_t length = fread(table, 1, sizeof table, stdin);
    expect("the longest shipped table has as many bytes as any", length == MAGSURINDA_TABLE_LONGEST);
    uint64_t reply = magsurinda_judge(table, length, sheet, MAGSURINDA_SHEET_LONGEST);
    expect("it is granted", magsurinda_number(reply) == MAGSURINDA_GRANTED);
    expect("and so is its sheet", magsurinda_sheet_length(reply) == MAGSURINDA_SHEET_LONGEST);
    refused("a byte lent less", magsurinda_judge(table, length, sheet, MAGSURINDA_SHEET_LONGEST - 1),
            MAGSURINDA_REFUSED_LENT_BUFFER, 0);
    refused("a byte more than any table has", magsurinda_judge(table, length + 1, sheet, sizeof sheet),
            MAGSURINDA_REFUSED_FURTHER, 0);
}

/* Where that label stands. */
static int stands(uint64_t reply, size_t start, size_t length) {
    return magsurinda_number(reply) == MAGSURINDA_GRANTED && magsurinda_place(reply) == 0 &&
           magsurinda_label_start(reply) == start && magsurinda_label_length(reply) == length;
}

/* Two labels, "a" and "bc", with another byte in one place. */
static uint64_t label(size_t place, uint8_t byte, size_t length, uint64_t number) {
    uint8_t roll[] = {2, 1, 'a', 2, 'b', 'c', 0};
    roll[place] = byte;
    return magsurinda_label(roll, length, number);
}

static void of_rolls(void) {
    expect("label 0", stands(label(6, 0, 6, 0), 2, 1));
    expect("label 1", stands(label(6, 0, 6, 1), 4, 2));
    expect("bytes 32 and 126", stands(label(2, 32, 6, 1), 4, 2) && stands(label(5, 126, 6, 1), 4, 2));
    refused("label 2 of two", label(6, 0, 6, 2), MAGSURINDA_REFUSED_NO_SUCH_LABEL, 0);
    refused("label 2^32", label(6, 0, 6, UINT64_C(1) << 32), MAGSURINDA_REFUSED_NO_SUCH_LABEL, 0);
    refused("label 2^64 - 1", label(6, 0, 6, UINT64_MAX), MAGSURINDA_REFUSED_NO_SUCH_LABEL, 0);
    refused("no roll", magsurinda_label(NULL, 0, 0), MAGSURINDA_REFUSED_ROLL, 0);
    refused("no roll, and no such label", magsurinda_label(NULL, 0, UINT64_MAX), MAGSURINDA_REFUSED_ROLL, 0);
    for (size_t length = 0; length < 6; length++)
        refused("a roll cut short", label(6, 0, length, 0), MAGSURINDA_REFUSED_ROLL, 0);
    refused("a byte after", label(6, 0, 7, 0), MAGSURINDA_REFUSED_ROLL, 0);
    refused("a label after", label(6, 1, 7, 0), MAGSURINDA_REFUSED_ROLL, 0);
    refused("a count of 0", label(0, 0, 1, 0), MAGSURINDA_REFUSED_ROLL, 0);
    refused("a label more than there are", label(0, 3, 6, 0), MAGSURINDA_REFUSED_ROLL, 0);
    refused("a label fewer", label(0, 1, 6, 0), MAGSURINDA_REFUSED_ROLL, 0);
    refused("a length of 0", label(3, 0, 4, 0), MAGSURINDA_REFUSED_ROLL, 0);
    refused("a length that runs past the end", label(3, 3, 6, 0), MAGSURINDA_REFUSED_ROLL, 0);
    refused("byte 31", label(5, 31, 6, 0), MAGSURINDA_REFUSED_ROLL, 0);
    refused("byte 127", label(2, 127, 6, 1), MAGSURINDA_REFUSED_ROLL, 0);
    refused("a fault, and no such label", label(5, 127, 6, 2), MAGSURINDA_REFUSED_ROLL, 0);
}

/* As many labels of as many bytes each. */
static size_t write_roll(uint8_t *roll, unsigned count, unsigned length) {
    uint8_t *next = roll;
    *next++ = (uint8_t)count;
    for (unsigned k = 0; k < count; k++) {
        *next++ = (uint8_t)length;
        memset(next, '!' + (int)k % 90, length);
        next += length;
    }
    return (size_t)(next - roll);
}

static void of_the_longest_roll(void) {
    static uint8_t roll[2 * MAGSURINDA_ROLL_LONGEST];
    size_t length = write_roll(roll, 128, 24);
    expect("the longest roll has as many bytes as any", length == MAGSURINDA_ROLL_LONGEST);
    expect("its first label", stands(magsurinda_label(roll, length, 0), 2, 24));
    expect("its last label", stands(magsurinda_label(roll, length, 127), MAGSURINDA_ROLL_LONGEST - 24, 24));
    refused("label 128", magsurinda_label(roll, length, 128), MAGSURINDA_REFUSED_NO_SUCH_LABEL, 0);
    refused("a byte more than any roll has", magsurinda_label(roll, length + 1, 0), MAGSURINDA_REFUSED_ROLL, 0);
    refused("129 labels", magsurinda_label(roll, write_roll(roll, 129, 24), 0), MAGSURINDA_REFUSED_ROLL, 0);
    refused("labels of 25 bytes", magsurinda_label(roll, write_roll(roll, 128, 25), 0), MAGSURINDA_REFUSED_ROLL, 0);
}

int main(void) {
    of_tables();
    of_sheets_and_prices();
    of_the_longest();
    of_rolls();
    of_the_longest_roll();
    printf("%d refusals by name\n", named);
    return failed;
}
