/* Magsurinda for C: judging a table, asking a sheet, asking a price, asking a roll of labels. Link libmagsurinda.a (`./library`):
   it is for Linux on one processor, x86-64, aarch64 or riscv64, with the calling convention that C has there.

   Every function takes any bytes and numbers and always replies. What the caller ensures, without which a call is undefined:
   - each pointer is good for the length given with it; NULL is allowed where that length is 0, and only there;
   - the buffers of one call do not overlap;
   - MAGSURINDA_STACK bytes of stack are left.
   No function allocates, or keeps a pointer or anything else from one call to the next. So calls may run in several threads at
   once, each with a lent buffer of its own; a table, a roll, and a sheet that is only asked, may be shared. The archive needs
   memcpy and memset of the C library, and nothing else.

   The reply, in 64 bits: refusal number * 2^56 + place * 2^48 + value. The number is 0 where the question is granted; the value
   is 0 where it is refused. The functions at the end take it apart. */
#ifndef MAGSURINDA_H
#define MAGSURINDA_H

#include <stddef.h>
#include <stdint.h>

#ifdef __cplusplus
extern "C" {
#endif

/* The longest table that is accepted and the longest sheet, in bytes. A lent buffer of the latter is never refused with 15. */
#define MAGSURINDA_TABLE_LONGEST 2165
#define MAGSURINDA_SHEET_LONGEST 834

/* The longest roll of labels that is sound, in bytes. */
#define MAGSURINDA_ROLL_LONGEST 3201

/* Bytes of stack that no call exceeds: measured at the longest table (tests/stack), with some 2,000 to spare; not proved. */
#define MAGSURINDA_STACK 40960

/* Which requests are in the rules that this header is of, bit k for request Q-k: Q-2, the priority tag, and Q-4, the office
   machines. magsurinda_requests() says it of the library; a caller whose header and archive may differ compares the two. */
#define MAGSURINDA_REQUESTS (UINT64_C(1) << 2 | UINT64_C(1) << 4)

/* The numbers of refusal of document 01 and of request Q-1. The place is a wire's or a channel's number where the line names
   one, else 0. */
enum magsurinda_refusal {
    MAGSURINDA_GRANTED = 0,

    /* of a table, in order of test */
    MAGSURINDA_REFUSED_PAST_THE_END = 1,   /* a field needed next goes past the end */
    MAGSURINDA_REFUSED_HYPERPERIOD = 2,    /* H is 0 or over 12,500,000 */
    MAGSURINDA_REFUSED_WIRES = 3,          /* wires 0 or over 64 */
    MAGSURINDA_REFUSED_CHANNELS = 4,       /* channels 0 or over 128 */
    MAGSURINDA_REFUSED_RATE_CODE = 5,      /* rate code 3; place: wire */
    MAGSURINDA_REFUSED_PAYLOAD = 6,        /* payload 0; place: channel. Of a price payload 0 or over 65,535; place 0 */
    MAGSURINDA_REFUSED_PERIOD = 7,         /* period 0 or no divisor of H; place: channel */
    MAGSURINDA_REFUSED_HOPS = 8,           /* hops 0 or over 8; place: channel */
    MAGSURINDA_REFUSED_ROUTE_WIRE = 9,     /* route names a wire not below n; place: channel */
    MAGSURINDA_REFUSED_ROUTE_ORDER = 10,   /* route wire not above the one before; place: channel */
    MAGSURINDA_REFUSED_FURTHER = 11,       /* a further byte, or a filling bit not 0 */
    MAGSURINDA_REFUSED_LOAD = 12,          /* load over rate * H; place: wire */
    MAGSURINDA_REFUSED_ROOM = 13,          /* backlog over the wire's room; place: wire */
    MAGSURINDA_REFUSED_DEADLINE = 14,      /* end-to-end delay over deadline; place: channel */
    MAGSURINDA_REFUSED_LENT_BUFFER = 15,   /* lent buffer shorter than the sheet */

    /* of a sheet that is asked: fewer than 2 bytes, 17, the length, 18, 19 */
    MAGSURINDA_REFUSED_SHEET_LENGTH = 16,  /* fewer than 2 bytes, or not the length its counts need */
    MAGSURINDA_REFUSED_SHEET_COUNT = 17,   /* a count outside its range */
    MAGSURINDA_REFUSED_SHEET_FILLING = 18, /* a filling bit not 0 */
    MAGSURINDA_REFUSED_NO_SUCH = 19,       /* no such wire or channel */

    /* of a price, before 6 */
    MAGSURINDA_REFUSED_FRAMING = 20,       /* framing other than 0 or 1 */

    /* of a roll of labels: the whole roll, then the number */
    MAGSURINDA_REFUSED_ROLL = 21,          /* any fault in the roll */
    MAGSURINDA_REFUSED_NO_SUCH_LABEL = 22  /* a number not below the count */
};

/* Judges a table and writes its sheet into the lent buffer. Granted: the sheet's length in bytes; the bytes after it are 255.
   Refused (1 to 15): the whole buffer is 255. */
uint64_t magsurinda_judge(const uint8_t *table, size_t table_len, uint8_t *sheet, size_t sheet_len);

/* Asks a sheet, exactly its bytes, for a wire. Granted: backlog in bytes * 2^24 + delay in slots. Refused: 16 to 19. */
uint64_t magsurinda_ask_wire(const uint8_t *sheet, size_t sheet_len, uint64_t wire);

/* Asks a sheet for a channel. Granted: its end-to-end delay in slots. Refused: 16 to 19. */
uint64_t magsurinda_ask_channel(const uint8_t *sheet, size_t sheet_len, uint64_t channel);

/* The price in bytes on the wire, the priority tag counted, of a payload: framing 0 plain, 1 with IP and UDP. Refused: 20,
   then 6. */
uint64_t magsurinda_price(uint64_t framing, uint64_t payload);

/* Asks a roll of labels, exactly its bytes, for a channel's. A roll has a byte for the count (1 to 128), then for each channel a
   length byte (1 to 24) and that many bytes, each from 32 to 126, and nothing after. Granted: where the label starts in the roll
   * 2^16 + its length, both in bytes; no 0 byte ends it. Refused: 21, then 22. */
uint64_t magsurinda_label(const uint8_t *roll, size_t roll_len, uint64_t number);

/* Which requests are in the rules that the library is proved for, as MAGSURINDA_REQUESTS; no reply of the form above. */
uint64_t magsurinda_requests(void);

/* Of any reply: its number, which is MAGSURINDA_GRANTED or a refusal's; its place; and what is granted, 0 where nothing is. */
static inline unsigned magsurinda_number(uint64_t reply) { return (unsigned)(reply >> 56); }
static inline unsigned magsurinda_place(uint64_t reply) { return (unsigned)(reply >> 48 & 255); }
static inline uint64_t magsurinda_value(uint64_t reply) { return reply & 0xFFFFFFFFFFFFu; }

/* Of what is granted by judging, by asking for a wire and by asking for a channel. Of a refusal they are 0, which is a figure
   as well: see the number first. */
static inline size_t magsurinda_sheet_length(uint64_t reply) { return (size_t)magsurinda_value(reply); }
static inline uint32_t magsurinda_wire_backlog(uint64_t reply) { return (uint32_t)(magsurinda_value(reply) >> 24); }
static inline uint32_t magsurinda_wire_delay(uint64_t reply) { return (uint32_t)(magsurinda_value(reply) & 0xFFFFFFu); }
static inline uint32_t magsurinda_channel_delay(uint64_t reply) { return (uint32_t)magsurinda_value(reply); }

/* Of what is granted by asking for a label: the stretch of the caller's own roll that holds it. Of a refusal both are 0, an empty
   stretch. */
static inline size_t magsurinda_label_start(uint64_t reply) { return (size_t)(magsurinda_value(reply) >> 16); }
static inline size_t magsurinda_label_length(uint64_t reply) { return (size_t)(magsurinda_value(reply) & 0xFFFFu); }

#ifdef __cplusplus
}
#endif

#endif
