/*
 * Zeveltoren: how many virtual networks does a coherence protocol need?
 *
 * The calls that a C program may make, on x86-64. They stand in one library:
 * `host/build library` writes target/staticlib/libzeveltoren.a, which is
 * linked by -lzeveltoren. It keeps no state, takes no memory but the stack, and
 * calls nothing but memcpy and memset: a call may be made from any thread at
 * any time.
 *
 * These five calls are the entry points. They ask nothing of the numbers and
 * bytes that come in (their contracts have no `requires`; those of functions
 * inside the library do, and every call of one is proved to keep them): any
 * count, any length and any bytes are answered or refused. What a caller in C
 * owes is told with each call: good pointers, as slices have them.
 *
 * What fit does not say. A mapping is fit when no closed walk of waits and
 * queues steps has a waits step, and unfit when one has; that is rule 6 of the
 * paper, and no more. Neither tells what a chip will do:
 *
 *   - Class 2 means that the waits have a cycle, class 3 that they have none.
 *     Protocol deadlock (class 1 of the source paper on virtual networks) needs
 *     a model checker and is not told apart: either cause may be behind class 2.
 *   - Routing deadlock, nacks and access permissions are not looked at.
 *   - The protocol is not run: whether it ever comes to a wait that its tables
 *     allow is not asked.
 */
#ifndef ZEVELTOREN_H
#define ZEVELTOREN_H

#include <stddef.h>
#include <stdint.h>

#ifdef __cplusplus
extern "C" {
#endif

/*
 * ---- The relations call, in two forms ----
 *
 * vn_relations has rows of 4 bytes and at most 32 messages, vn_relations64 rows
 * of 8 bytes and at most 64. Nothing else is different: for up to 32 messages
 * both give the same answer and the same bytes, when each row is made longer by
 * four bytes 0.
 */

/* The most messages of vn_relations, and so the most bytes of its answer. */
#define VN_MOST_MESSAGES 32

/* Each message has one row of this many bytes in each of its tables. */
#define VN_ROW_BYTES 4

/* The most bytes of stack that it takes, the return address counted. */
#define VN_MOST_STACK 1280

/* The same of vn_relations64. */
#define VN_MOST_MESSAGES64 64
#define VN_ROW_BYTES64 8
#define VN_MOST_STACK64 2048

/*
 * Refusal numbers of both forms, in the order in which they check: the first
 * that applies is returned. The numbers 1 to 15 belong to texts and never come
 * from these calls.
 */
#define VN_ACCEPTED 0 /* not refused: there is an answer */
#define VN_COUNT 17   /* n is 0 or above 32, or a table is not 4 * n bytes long;
                         of vn_relations64 above 64, or not 8 * n bytes long */
#define VN_STRAY 18   /* a row has a bit at place n or above */
#define VN_ROOM 16    /* the output has fewer than n bytes, in either class */

/*
 * Plans the networks for n messages, numbered from 0 to n - 1.
 *
 * causes and stalls are tables of n rows. Row i is 4 bytes, of vn_relations64 8
 * bytes, lowest byte first; bit j of it says that message i causes (stalls)
 * message j. So the pair (i, j) is bit j % 8 of byte 4 * i + j / 8, or of byte
 * 8 * i + j / 8: see vn_set_pair and vn_set_pair64.
 *
 * A message b waits for c when some a stalls b, and c is reached from a by
 * one or more causes steps.
 *
 * Class 3, the waits have no cycle: out[i] becomes the network of message
 * i, for each i below n. Networks are numbered from 0. The length is n, the
 * count of networks at least 1. No fit mapping has fewer networks.
 *
 * Class 2, the waits have a cycle, so that no mapping is fit: out gets the
 * message numbers of the cycle that is shown, each of which waits for the
 * next, and the last for the first. It is a shortest one, and among those
 * the first in dictionary order. The length is that of the cycle, the count
 * of networks 0.
 *
 * Either way bytes of out after the length stay as they were.
 *
 * Refused: no byte of out changes.
 *
 * The returned number, taken apart by the functions below:
 *
 *   bits  0 to  7  the refusal number, 0 when the call is accepted
 *   bits  8 to 15  the length: how many bytes of out were written
 *   bits 16 to 23  the least count of networks; 0 for class 2
 *   bits 24 to 31  with refusal 16 the length needed, which is n
 *   bits 32 to 47  how many pairs (b, c) there are where b waits for c
 *   bits 48 to 63  the joins: how much work it was to close the causes
 *
 * Whatever is not said to have a value is 0. So with a refusal all is 0 but
 * the refusal number and, with 16, the length needed.
 *
 * The causes are closed like this: for each message k from 0 to n - 1, every
 * row that holds k at that moment takes in row k, and that is one join. So
 * there are at most n * n joins. The stalls have no part in it.
 *
 * A call takes at most 1,280 bytes of stack, one of vn_relations64 at most
 * 2,048, the return address counted.
 *
 * What the caller owes: each pointer is good for as many bytes as the length
 * after it says, and out shares no byte with the tables. (causes and stalls
 * may be the same.) Nothing needs to be aligned. Nothing else is asked.
 * A pointer with length 0 is not followed and need not point to anything,
 * but it should not be NULL: the parameters are slices, which have a place
 * even when they are empty. The address of any object will do.
 */
uint64_t vn_relations(uint64_t n,
                      const uint8_t *causes, size_t causes_length,
                      const uint8_t *stalls, size_t stalls_length,
                      uint8_t *out, size_t out_length);

uint64_t vn_relations64(uint64_t n,
                        const uint8_t *causes, size_t causes_length,
                        const uint8_t *stalls, size_t stalls_length,
                        uint8_t *out, size_t out_length);

/* Bits 0 to 7, of every call: VN_ACCEPTED, or the refusal; of the relations
 * call VN_COUNT, VN_STRAY or VN_ROOM. */
static inline unsigned vn_refusal(uint64_t answer) { return (unsigned)(answer & 0xff); }

/* Bits 8 to 15: how many bytes of the output were written. */
static inline size_t vn_length(uint64_t answer) { return (size_t)(answer >> 8 & 0xff); }

/* Bits 16 to 23: the least count of networks, 0 for class 2. */
static inline unsigned vn_networks(uint64_t answer) { return (unsigned)(answer >> 16 & 0xff); }

/* Bits 24 to 31: with VN_ROOM the length needed, else 0. */
static inline size_t vn_needed(uint64_t answer) { return (size_t)(answer >> 24 & 0xff); }

/* Bits 32 to 47: the number of waits pairs. */
static inline unsigned vn_pairs(uint64_t answer) { return (unsigned)(answer >> 32 & 0xffff); }

/* Bits 48 to 63: the number of row joins in closing the causes, at most n * n;
 * 0 with a refusal. */
static inline unsigned vn_joins(uint64_t answer) { return (unsigned)(answer >> 48 & 0xffff); }

/* 3 or 2, the class of an accepted call; 0 when it was refused. */
static inline unsigned vn_class(uint64_t answer)
{
    if (vn_refusal(answer) != VN_ACCEPTED)
        return 0;
    return vn_networks(answer) != 0 ? 3 : 2;
}

/* Sets the pair (from, to) in a table of vn_relations. Both must be below n. */
static inline void vn_set_pair(uint8_t *table, unsigned from, unsigned to)
{
    table[VN_ROW_BYTES * from + to / 8] |= (uint8_t)(1u << to % 8);
}

/* The same in a table of vn_relations64. */
static inline void vn_set_pair64(uint8_t *table, unsigned from, unsigned to)
{
    table[VN_ROW_BYTES64 * from + to / 8] |= (uint8_t)(1u << to % 8);
}

/* ---- Plans and judgements of texts ---- */

/* The most bytes of a text. */
#define VN_MOST_BYTES 49152

/* The most messages of a protocol text; there may be 8 events, 64 states over
 * both controllers and 512 cells. */
#define VN_MOST_TEXT_MESSAGES 64

/* A mapping text starts with the line `vn-mapping`, tab, `1` or `vn-mapping`,
 * tab, `2`. The most `map` lines and the highest network, by that number. */
#define VN_MOST_MAP_LINES_1 32
#define VN_HIGHEST_NETWORK_1 31
#define VN_MOST_MAP_LINES_2 64
#define VN_HIGHEST_NETWORK_2 63

/* No plan, no judgement and no listing is longer: an output of so many bytes is
 * never refused by 16. */
#define VN_LONGEST_PLAN 2078
#define VN_LONGEST_JUDGEMENT 3985
#define VN_LONGEST_LISTING VN_LONGEST_JUDGEMENT

/*
 * Refusal numbers of texts. The order of the checks: VN_TOO_BIG, VN_NO_END,
 * VN_HEADER, then the first bad line, and within it the smallest number; then
 * VN_NO_MESSAGE and VN_NO_ENTRY; VN_ROOM comes last. A judgement checks the
 * protocol first, then the mapping, of which a line is refused by VN_SHAPE,
 * VN_FULL, VN_UNMATCHED or VN_NETWORK: a `map` line too many for its header is
 * VN_FULL, whatever its name and its network.
 *
 * Six of them tell a field of the line, counted from 1; where several fields are
 * bad in that way it is the first. All others tell 0, the whole line or text.
 *
 *   VN_SHAPE      an unknown record word 1; of `message` the type 3, of `state`
 *                 the controller 2 and the kind 4, of `cell` the controller 2 and
 *                 `stall` or `go` 5. 0 where the words that are there are right
 *                 and only the count of fields is not
 *   VN_NAME       the declared name: of `message` and `event` 2, of `state` 3
 *   VN_UNKNOWN    the state 3, the trigger 4, the next state 6, a message sent 7
 *                 to 14
 *   VN_TWICE      as VN_NAME
 *   VN_UNMATCHED  2 where the line names another message than the next; 0 where
 *                 it is one too many, or the text ends early
 *   VN_NETWORK    3
 */
#define VN_TOO_BIG 1       /* the text has more than 49,152 bytes; line 0 */
#define VN_NO_END 2        /* the last line does not end with byte 10 */
#define VN_HEADER 3        /* the first line is missing or another; line 1. A
                              mapping's is one of the two above */
#define VN_SHAPE 4         /* unknown record, count of fields, or fixed word */
#define VN_ORDER 5         /* a record of an earlier section */
#define VN_NAME 6          /* a declared name is no name */
#define VN_UNKNOWN 7       /* a name that is not declared, or not allowed there */
#define VN_TWICE 8         /* a name that is declared already */
#define VN_FULL 9          /* one more than a limit; mapping: the 33rd `map` line
                              under header 1, the 65th under header 2 */
#define VN_STALL_STABLE 10 /* a stall in a stable state */
#define VN_CONFLICT 11     /* two cells at one place, one of them a stall */
#define VN_NO_MESSAGE 12   /* there is no message; line 0 */
#define VN_NO_ENTRY 13     /* a message is stalled, and no taken state has a carrier */
#define VN_UNMATCHED 14    /* mapping: another message than the next, or too few or too many */
#define VN_NETWORK 15      /* mapping: no network number, or above 31 under
                              header 1, above 63 under header 2 */

/* Which text a refusal speaks of. */
#define VN_PAPER_PROTOCOL 0
#define VN_PAPER_MAPPING 1

/*
 * vn_plan_text reads a protocol and writes the listing of its plan to out:
 *
 *   vn-plan  1                  vn-plan  1
 *   class  3                    class  2
 *   networks  COUNT             cycle  NAME  NAME ..
 *   map  NAME  NETWORK
 *   ..
 *
 * vn_judge_texts reads a protocol and a mapping and writes the judgement:
 *
 *   vn-judge  1                 vn-judge  1
 *   fit                         unfit
 *                               step  NAME  waits  NAME
 *                               step  NAME  queues  NAME
 *                               ..
 *
 * Fields are parted by tabs; each line ends with byte 10. There is no byte 0
 * at the end. Bytes of out after the length stay as they were. Refused: no
 * byte of out changes.
 *
 * The returned number, taken apart by the functions below:
 *
 *   bits  0 to  7  the refusal number, 0 when there is a listing
 *   bits  8 to 15  the paper that a refusal speaks of
 *   bits 16 to 31  the line that it tells, counted from 1; 0: the whole text
 *   bits 32 to 47  the length of the listing; with VN_ROOM the length needed
 *   bits 48 to 55  the field that a refusal tells, counted from 1; 0: the whole
 *                  line or text
 *   bits 56 to 63  0
 *
 * Whatever is not said to have a value is 0.
 *
 * What the caller owes is what vn_relations asks: each pointer is good for as
 * many bytes as the length after it says, out shares no byte with a text, and
 * no pointer is NULL. A call takes less than 256 KB of stack.
 */
uint64_t vn_plan_text(const uint8_t *text, size_t text_length, uint8_t *out, size_t out_length);

uint64_t vn_judge_texts(const uint8_t *protocol, size_t protocol_length,
                        const uint8_t *mapping, size_t mapping_length,
                        uint8_t *out, size_t out_length);

/* Bits 8 to 15: VN_PAPER_PROTOCOL or VN_PAPER_MAPPING. */
static inline unsigned vn_paper(uint64_t answer) { return (unsigned)(answer >> 8 & 0xff); }

/* Bits 16 to 31: the line that a refusal tells. */
static inline unsigned vn_line(uint64_t answer) { return (unsigned)(answer >> 16 & 0xffff); }

/* Bits 48 to 55, of the calls on texts: the field of that line, 0 where the whole
 * line or text is meant. (Of the relations call these bits are of the joins.) */
static inline unsigned vn_field(uint64_t answer) { return (unsigned)(answer >> 48 & 0xff); }

/* Bits 32 to 47: the length of the listing, 0 when the call was refused. */
static inline size_t vn_listing_length(uint64_t answer)
{
    return vn_refusal(answer) == VN_ACCEPTED ? (size_t)(answer >> 32 & 0xffff) : 0;
}

/* Bits 32 to 47 with VN_ROOM: the length needed, else 0. */
static inline size_t vn_listing_needed(uint64_t answer)
{
    return vn_refusal(answer) == VN_ROOM ? (size_t)(answer >> 32 & 0xffff) : 0;
}

/* ---- Reading a protocol text alone ---- */

/*
 * Whether a protocol text is accepted, and if not why and where. Any bytes
 * are answered. The returned number has the layout of the two calls above, and
 * vn_refusal, vn_paper, vn_line and vn_field read it:
 *
 *   bits  0 to  7  the refusal number, 1 to 13; 0 when the text is accepted
 *   bits  8 to 15  the paper, VN_PAPER_PROTOCOL, which is 0
 *   bits 16 to 31  the line that it tells, counted from 1; 0: the whole text
 *   bits 32 to 47  0: there is no listing
 *   bits 48 to 55  the field that it tells, counted from 1; 0: the whole line or
 *                  text
 *   bits 56 to 63  0
 *
 * What the caller owes is what vn_relations asks: the pointer is good for as
 * many bytes as the length says, and is not NULL.
 */
uint64_t vn_check_protocol(const uint8_t *text, size_t text_length);

#ifdef __cplusplus
}
#endif

#endif
