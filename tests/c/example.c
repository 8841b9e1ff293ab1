/* Judges case A, asks its sheet back, asks a roll for its labels, and tries what a caller may get wrong. */
#include "magsurinda.h"
#include <stdio.h>
#include <string.h>

static int failed;

static const char *why(unsigned number) {
    switch ((enum magsurinda_refusal)number) {
    case MAGSURINDA_GRANTED: return "granted";
    case MAGSURINDA_REFUSED_PAST_THE_END: return "a field needed next goes past the end";
    case MAGSURINDA_REFUSED_HYPERPERIOD: return "H is 0 or over 12,500,000";
    case MAGSURINDA_REFUSED_WIRES: return "wires 0 or over 64";
    case MAGSURINDA_REFUSED_CHANNELS: return "channels 0 or over 128";
    case MAGSURINDA_REFUSED_RATE_CODE: return "rate code 3";
    case MAGSURINDA_REFUSED_PAYLOAD: return "payload 0 or over 65,535";
    case MAGSURINDA_REFUSED_PERIOD: return "period 0 or no divisor of H";
    case MAGSURINDA_REFUSED_HOPS: return "hops 0 or over 8";
    case MAGSURINDA_REFUSED_ROUTE_WIRE: return "route names a wire not below n";
    case MAGSURINDA_REFUSED_ROUTE_ORDER: return "route wire not above the one before";
    case MAGSURINDA_REFUSED_FURTHER: return "a further byte, or a filling bit not 0";
    case MAGSURINDA_REFUSED_LOAD: return "load over rate * H";
    case MAGSURINDA_REFUSED_ROOM: return "backlog over the wire's room";
    case MAGSURINDA_REFUSED_DEADLINE: return "end-to-end delay over deadline";
    case MAGSURINDA_REFUSED_LENT_BUFFER: return "lent buffer shorter than the sheet";
    case MAGSURINDA_REFUSED_SHEET_LENGTH: return "fewer than 2 bytes, or not the length its counts need";
    case MAGSURINDA_REFUSED_SHEET_COUNT: return "a count outside its range";
    case MAGSURINDA_REFUSED_SHEET_FILLING: return "a filling bit not 0";
    case MAGSURINDA_REFUSED_NO_SUCH: return "no such wire or channel";
    case MAGSURINDA_REFUSED_FRAMING: return "framing other than 0 or 1";
    case MAGSURINDA_REFUSED_ROLL: return "any fault in the roll";
    case MAGSURINDA_REFUSED_NO_SUCH_LABEL: return "a number not below the count";
    }
    return "no number of a refusal";
}

static void show(const char *what, uint64_t reply) {
    unsigned number = magsurinda_number(reply);
    if (number != MAGSURINDA_GRANTED)
        printf("%s: refused %u %u: %s\n", what, number, magsurinda_place(reply), why(number));
    else
        printf("%s: %llu\n", what, (unsigned long long)magsurinda_value(reply));
}

static void expect(const char *what, int holds) {
    if (!holds) {
        printf("%s: FAILED\n", what);
        failed = 1;
    }
}

static int all_255(const uint8_t *bytes, size_t n) {
    while (n > 0)
        if (bytes[--n] != 255)
            return 0;
    return 1;
}

/* A roll's labels, as it stands in the caller's own bytes. */
static void show_labels(const uint8_t *roll, size_t length) {
    for (unsigned channel = 0; channel < roll[0]; channel++) {
        uint64_t reply = magsurinda_label(roll, length, channel);
        expect("a label is granted", magsurinda_number(reply) == MAGSURINDA_GRANTED);
        printf("channel %u: \"%.*s\"\n", channel, (int)magsurinda_label_length(reply),
               (const char *)roll + magsurinda_label_start(reply));
    }
}

static void with_labels(void) {
    static const char text[] = "\3" "\16" "fan 12 command" "\1" "~" "\30" "camera 7, shaft 2, north";
    enum { LENGTH = sizeof text - 1 };
    uint8_t roll[LENGTH];
    memcpy(roll, text, LENGTH);
    show_labels(roll, LENGTH);
    uint64_t reply = magsurinda_label(roll, LENGTH, 2);
    printf("label 2: from byte %zu, %zu bytes\n", magsurinda_label_start(reply), magsurinda_label_length(reply));
    show("label 3", magsurinda_label(roll, LENGTH, 3));
    for (size_t n = 0; n < LENGTH; n++) {
        reply = magsurinda_label(roll, n, 0);
        expect("a prefix of a roll is refused", magsurinda_number(reply) == MAGSURINDA_REFUSED_ROLL);
        expect("with an empty stretch", magsurinda_label_start(reply) == 0 && magsurinda_label_length(reply) == 0);
    }
    roll[LENGTH - 1] = 0xE9;
    show("another letter in label 2, asked for label 0", magsurinda_label(roll, LENGTH, 0));
    show("no roll", magsurinda_label(NULL, 0, 0));
}

int main(void) {
    static const uint8_t table[19] = {0x00, 0x03, 0x70, 0x02, 0x02, 0x00, 0xE0, 0x01, 0x8C, 0x80,
                                      0x00, 0x10, 0x00, 0x05, 0x80, 0x00, 0xC6, 0xB1, 0x00};
    static uint8_t sheet[MAGSURINDA_SHEET_LONGEST], longer[MAGSURINDA_TABLE_LONGEST + 1];
    printf("a table has at most %d bytes, a sheet %d, a roll %d; a call takes at most %d bytes of stack\n",
           MAGSURINDA_TABLE_LONGEST, MAGSURINDA_SHEET_LONGEST, MAGSURINDA_ROLL_LONGEST, MAGSURINDA_STACK);

    printf("requests in the header: %#llx, in the library: %#llx\n", (unsigned long long)MAGSURINDA_REQUESTS,
           (unsigned long long)magsurinda_requests());
    expect("header and library are of the same rules", magsurinda_requests() == MAGSURINDA_REQUESTS);

    memset(sheet, 7, sizeof sheet);
    uint64_t reply = magsurinda_judge(table, sizeof table, sheet, sizeof sheet);
    show("case A", reply);
    size_t length = magsurinda_sheet_length(reply);
    printf("the sheet's length: %zu\n", length);
    expect("the bytes after the sheet are 255", all_255(sheet + length, sizeof sheet - length));
    uint64_t wire = magsurinda_ask_wire(sheet, length, 0);
    expect("wire 0 is granted", magsurinda_number(wire) == MAGSURINDA_GRANTED && magsurinda_place(wire) == 0);
    printf("wire 0: backlog %u, delay %u\n", (unsigned)magsurinda_wire_backlog(wire), (unsigned)magsurinda_wire_delay(wire));
    uint64_t channel = magsurinda_ask_channel(sheet, length, 0);
    printf("channel 0: end to end %u\n", (unsigned)magsurinda_channel_delay(channel));
    show("channel 1", magsurinda_ask_channel(sheet, length, 1));
    show("the whole lent buffer", magsurinda_ask_wire(sheet, sizeof sheet, 0));
    show("the price of 1,493 bytes", magsurinda_price(0, 1493));

    /* In case C with wire 1 at rate 10 that wire has another delay than backlog. */
    static const uint8_t case_c[44] = {0x00, 0x03, 0x48, 0x04, 0x06, 0x00, 0xE0, 0x09, 0xC4, 0x08, 0x0E,
                                        0x00, 0x9C, 0x40, 0x00, 0x01, 0x00, 0x03, 0x48, 0x00, 0x27, 0x10,
                                        0x20, 0x01, 0x00, 0x00, 0x80, 0x01, 0xA4, 0x00, 0x13, 0x88, 0x10,
                                        0x00, 0x80, 0x00, 0x40, 0x00, 0x69, 0x00, 0x09, 0xC4, 0x04, 0x10};
    reply = magsurinda_judge(case_c, sizeof case_c, sheet, sizeof sheet);
    show("case C at rate 10", reply);
    wire = magsurinda_ask_wire(sheet, magsurinda_sheet_length(reply), 1);
    printf("wire 1: backlog %u, delay %u\n", (unsigned)magsurinda_wire_backlog(wire), (unsigned)magsurinda_wire_delay(wire));

    uint8_t narrow[sizeof case_c];
    memcpy(narrow, case_c, sizeof narrow);
    narrow[11] = narrow[12] = 0; /* the middle 16 bits of wire 1's room */
    show("case C with less room on wire 1", magsurinda_judge(narrow, sizeof narrow, sheet, sizeof sheet));

    for (size_t n = 0; n < sizeof table; n++) {
        reply = magsurinda_judge(table, n, sheet, sizeof sheet);
        expect("a prefix is refused", magsurinda_number(reply) == MAGSURINDA_REFUSED_PAST_THE_END);
        expect("with place 0 and no value", magsurinda_place(reply) == 0 && magsurinda_value(reply) == 0);
        expect("and leaves no sheet", all_255(sheet, sizeof sheet));
    }
    memcpy(longer, table, sizeof table);
    show("as many bytes as no table has", magsurinda_judge(longer, sizeof longer, sheet, sizeof sheet));
    show("an empty lent buffer", magsurinda_judge(table, sizeof table, NULL, 0));
    show("no table", magsurinda_judge(NULL, 0, sheet, sizeof sheet));
    show("nothing at all", magsurinda_judge(NULL, 0, NULL, 0));
    show("no sheet", magsurinda_ask_wire(NULL, 0, 0));
    show("a sheet that a refusal left", magsurinda_ask_channel(sheet, sizeof sheet, 0));

    with_labels();
    return failed;
}
