/*
 * vn_plan_text and vn_judge_texts from C: the listings of the paper, one
 * refusal of each number, and the room. Prints a line for each and ends with
 * status 1 when something is wrong.
 */
#include <stdio.h>
#include <stdlib.h>
#include <string.h>
#include "zeveltoren.h"

/* The output lies between bytes that have to stay. */
#define MARGIN 16
#define UNTOUCHED 0xee

static int wrong_lines = 0;

static const char bell[] =
    "vn-protocol\t1\n"
    "message\tAsk\treq\nmessage\tPass\tfwd\nmessage\tGive\tdata\nmessage\tDone\tctl\n"
    "event\tload\n"
    "state\tcache\tI\tstable\nstate\tcache\tID\ttransient\nstate\tcache\tV\tstable\n"
    "state\tdir\tFree\tstable\nstate\tdir\tWait\ttransient\n"
    "cell\tcache\tI\tload\tgo\tID\tAsk\ncell\tcache\tID\tGive\tgo\tV\tDone\n"
    "cell\tcache\tV\tPass\tgo\tI\tGive\ncell\tdir\tFree\tAsk\tgo\tWait\tPass\n"
    "cell\tdir\tWait\tAsk\tstall\ncell\tdir\tWait\tDone\tgo\tFree\n";

static const char bell_plan[] =
    "vn-plan\t1\nclass\t3\nnetworks\t2\nmap\tAsk\t1\nmap\tPass\t0\nmap\tGive\t0\nmap\tDone\t0\n";

/* One call. Without a mapping it is a plan. */
struct example {
    const char *name, *protocol, *mapping;
    size_t room;
    uint64_t right;
    const char *listing;
};

/* The packed number, put together from its parts. */
static uint64_t pack(unsigned refusal, unsigned paper, unsigned line, unsigned field, size_t length)
{
    return refusal + (paper << 8) + ((uint64_t)line << 16) + ((uint64_t)length << 32) + ((uint64_t)field << 48);
}

static uint64_t call(const struct example *example, uint8_t *out)
{
    const uint8_t *protocol = (const uint8_t *)example->protocol;
    const uint8_t *mapping = (const uint8_t *)example->mapping;
    size_t length = strlen(example->protocol);
    if (mapping == NULL)
        return vn_plan_text(protocol, length, out, example->room);
    return vn_judge_texts(protocol, length, mapping, strlen(example->mapping), out, example->room);
}

/* The listing stands at the start of the output, and all else is untouched. */
static int bytes_are_right(const struct example *example, const uint8_t *buffer)
{
    size_t i, length = strlen(example->listing);
    for (i = 0; i < example->room + 2 * MARGIN; i++) {
        uint8_t right = UNTOUCHED;
        if (i >= MARGIN && i - MARGIN < length)
            right = (uint8_t)example->listing[i - MARGIN];
        if (buffer[i] != right)
            return 0;
    }
    return 1;
}

static void check(struct example example)
{
    uint8_t *buffer = malloc(example.room + 2 * MARGIN);
    uint64_t answer;
    int right;
    if (buffer == NULL)
        exit(2);
    memset(buffer, UNTOUCHED, example.room + 2 * MARGIN);
    answer = call(&example, buffer + MARGIN);
    right = answer == example.right && bytes_are_right(&example, buffer);
    printf("%-24s refusal %2u paper %u line %2u field %2u length %4u needed %4u%s\n", example.name,
           vn_refusal(answer), vn_paper(answer), vn_line(answer), vn_field(answer),
           (unsigned)vn_listing_length(answer), (unsigned)vn_listing_needed(answer),
           right ? "" : " WRONG");
    if (!right)
        wrong_lines++;
    free(buffer);
}

static void accepted(const char *name, const char *protocol, const char *mapping, const char *listing)
{
    size_t length = strlen(listing);
    check((struct example){name, protocol, mapping, VN_LONGEST_LISTING, pack(0, 0, 0, 0, length), listing});
    check((struct example){"  just enough room", protocol, mapping, length, pack(0, 0, 0, 0, length), listing});
    check((struct example){"  a byte less", protocol, mapping, length - 1, pack(VN_ROOM, 0, 0, 0, length), ""});
    check((struct example){"  no room", protocol, mapping, 0, pack(VN_ROOM, 0, 0, 0, length), ""});
}

static void refused_at(const char *name, const char *protocol, const char *mapping, unsigned number,
                       unsigned paper, unsigned line, unsigned field)
{
    uint64_t right = pack(number, paper, line, field, 0);
    check((struct example){name, protocol, mapping, 100, right, ""});
    check((struct example){name, protocol, mapping, 0, right, ""});
    /* The parts are where the header says. */
    if (vn_refusal(right) != number || vn_paper(right) != paper || vn_line(right) != line || vn_field(right) != field)
        wrong_lines++;
}

/* Of a whole line or text. */
static void refused(const char *name, const char *protocol, const char *mapping, unsigned number,
                    unsigned paper, unsigned line)
{
    refused_at(name, protocol, mapping, number, paper, line, 0);
}

/* Bell and one line more, which is line 18. */
static const char *bell_and(const char *line)
{
    static char text[1024];
    snprintf(text, sizeof text, "%s%s\n", bell, line);
    return text;
}

static void check_listings(void)
{
    const char *all_0 = "vn-mapping\t1\nmap\tAsk\t0\nmap\tPass\t0\nmap\tGive\t0\nmap\tDone\t0\n";
    const char *two = "vn-mapping\t1\nmap\tAsk\t5\nmap\tPass\t9\nmap\tGive\t9\nmap\tDone\t9\n";
    accepted("Bell", bell, NULL, bell_plan);
    accepted("Bell of class 2", bell_and("cell\tcache\tID\tPass\tstall"), NULL,
             "vn-plan\t1\nclass\t2\ncycle\tPass\n");
    accepted("Bell in one network", bell, all_0,
             "vn-judge\t1\nunfit\nstep\tAsk\twaits\tPass\nstep\tPass\tqueues\tAsk\n");
    accepted("Bell in two networks", bell, two, "vn-judge\t1\nfit\n");
    accepted("Bell under header 2", bell, "vn-mapping\t2\nmap\tAsk\t63\nmap\tPass\t9\nmap\tGive\t9\nmap\tDone\t9\n",
             "vn-judge\t1\nfit\n");
}

static void check_protocol_refusals(void)
{
    char *long_text = malloc(49154);
    if (long_text == NULL)
        exit(2);
    memset(long_text, '\n', 49153);
    long_text[49153] = 0;
    refused("49,153 bytes", long_text, NULL, VN_TOO_BIG, 0, 0);
    long_text[49152] = 0;
    refused("49,152 bytes", long_text, NULL, VN_HEADER, 0, 1);
    refused("49,152 bytes of mapping", bell, long_text, VN_HEADER, 1, 1);
    free(long_text);
    refused("no end", "vn-protocol\t1\nmessage", NULL, VN_NO_END, 0, 2);
    refused("empty", "", NULL, VN_HEADER, 0, 1);
    refused("shape", bell_and("cell"), NULL, VN_SHAPE, 0, 18);
    refused("order", bell_and("event\tstore"), NULL, VN_ORDER, 0, 18);
    refused_at("name", "vn-protocol\t1\nmessage\t!\treq\n", NULL, VN_NAME, 0, 2, 2);
    refused_at("unknown", bell_and("cell\tcache\tI\tAsk\tgo\tFree"), NULL, VN_UNKNOWN, 0, 18, 6);
    refused_at("twice", "vn-protocol\t1\nmessage\ta\treq\nevent\ta\n", NULL, VN_TWICE, 0, 3, 2);
    refused("stall in a stable state", bell_and("cell\tcache\tI\tAsk\tstall"), NULL, VN_STALL_STABLE, 0, 18);
    refused("conflict", bell_and("cell\tdir\tWait\tAsk\tgo\tFree"), NULL, VN_CONFLICT, 0, 18);
    refused("no message", "vn-protocol\t1\n", NULL, VN_NO_MESSAGE, 0, 0);
    refused("no entry", "vn-protocol\t1\nmessage\ta\treq\nstate\tdir\tT\ttransient\ncell\tdir\tT\ta\tstall\n",
            NULL, VN_NO_ENTRY, 0, 4);
}

/* Each field that a line can tell: fixed words, names, and what a cell names. */
static void check_fields(void)
{
    const char *sent = "cell\tdir\tFree\tAsk\tgo\tFree\tAsk\tAsk\tAsk\tAsk\tAsk\tAsk\tAsk\tload";
    refused_at("empty line", bell_and(""), NULL, VN_SHAPE, 0, 18, 1);
    refused_at("record", bell_and("Cell\tcore\tI\tload\tgone"), NULL, VN_SHAPE, 0, 18, 1);
    refused_at("controller", bell_and("cell\tcore\tI\tload\tgone"), NULL, VN_SHAPE, 0, 18, 2);
    refused_at("type", bell_and("message\ta\task"), NULL, VN_SHAPE, 0, 18, 3);
    refused_at("type, and the count", bell_and("message\ta\task\t"), NULL, VN_SHAPE, 0, 18, 3);
    refused("type is missing", bell_and("message\ta"), NULL, VN_SHAPE, 0, 18);
    refused_at("kind", bell_and("state\tdir\ta\tsteady"), NULL, VN_SHAPE, 0, 18, 4);
    refused_at("stall or go", bell_and("cell\tdir\tX\tY\tgone\tZ"), NULL, VN_SHAPE, 0, 18, 5);
    refused_at("name of a state", "vn-protocol\t1\nstate\tdir\t!\tstable\n", NULL, VN_NAME, 0, 2, 3);
    refused_at("state", bell_and("cell\tdir\tI\tload\tgo\tV"), NULL, VN_UNKNOWN, 0, 18, 3);
    refused_at("trigger", bell_and("cell\tdir\tFree\tload\tgo\tV"), NULL, VN_UNKNOWN, 0, 18, 4);
    refused_at("the eighth sent", bell_and(sent), NULL, VN_UNKNOWN, 0, 18, 14);
}

/* So many lines after the first, each with the number of its place. */
static const char *counted(const char *first, const char *line, unsigned count)
{
    static char texts[2][2048];
    static unsigned turn = 0;
    char *text = texts[turn++ % 2];
    unsigned i;
    strcpy(text, first);
    for (i = 0; i < count; i++)
        sprintf(text + strlen(text), line, i);
    return text;
}

static const char *protocol_of(unsigned messages)
{
    return counted("vn-protocol\t1\n", "message\tm%u\treq\n", messages);
}

static const char *mapping_1(unsigned lines)
{
    return counted("vn-mapping\t1\n", "map\tm%u\t0\n", lines);
}

static const char *mapping_2(unsigned lines)
{
    return counted("vn-mapping\t2\n", "map\tm%u\t0\n", lines);
}

/* The messages that there may be and one more; the `map` lines of each header
 * and one more. */
static void check_full(void)
{
    const char *fit = "vn-judge\t1\nfit\n";
    refused("65 messages", protocol_of(VN_MOST_TEXT_MESSAGES + 1), NULL, VN_FULL, 0, 66);
    accepted("64 messages, header 2", protocol_of(VN_MOST_TEXT_MESSAGES), mapping_2(VN_MOST_MAP_LINES_2), fit);
    refused("header 2, line 65", protocol_of(64), mapping_2(VN_MOST_MAP_LINES_2 + 1), VN_FULL, 1, 66);
    accepted("32 messages, header 1", protocol_of(32), mapping_1(VN_MOST_MAP_LINES_1), fit);
    refused("header 1, line 33", protocol_of(32), mapping_1(VN_MOST_MAP_LINES_1 + 1), VN_FULL, 1, 34);
    refused("40 messages, header 1", protocol_of(40), mapping_1(40), VN_FULL, 1, 34);
    refused("40 messages, 32 lines", protocol_of(40), mapping_1(32), VN_UNMATCHED, 1, 34);
    refused("10 messages, 11 lines", protocol_of(10), mapping_1(11), VN_UNMATCHED, 1, 12);
}

static void check_mapping_refusals(void)
{
    refused("mapping: empty", bell, "", VN_HEADER, 1, 1);
    refused("mapping: no end", bell, "vn-mapping\t1\nmap", VN_NO_END, 1, 2);
    refused("mapping: shape", bell, "vn-mapping\t1\nmap\tAsk\n", VN_SHAPE, 1, 2);
    refused_at("mapping: record", bell, "vn-mapping\t1\nMap\tAsk\n", VN_SHAPE, 1, 2, 1);
    refused_at("mapping: another", bell, "vn-mapping\t1\nmap\tPass\t0\n", VN_UNMATCHED, 1, 2, 2);
    refused("mapping: ends early", bell, "vn-mapping\t1\nmap\tAsk\t31\n", VN_UNMATCHED, 1, 3);
    refused_at("mapping: network 32", bell, "vn-mapping\t1\nmap\tAsk\t32\n", VN_NETWORK, 1, 2, 3);
    refused("mapping: header 2", bell, "vn-mapping\t2\nmap\tAsk\t63\n", VN_UNMATCHED, 1, 3);
    refused_at("mapping: network 64", bell, "vn-mapping\t2\nmap\tAsk\t64\n", VN_NETWORK, 1, 2, 3);
    refused("mapping: header 3", bell, "vn-mapping\t3\nmap\tAsk\t0\n", VN_HEADER, 1, 1);
    refused("both: the protocol", "", "", VN_HEADER, 0, 1);
}

/* The other calls of the header stand in the same program. */
static void check_side_by_side(void)
{
    uint8_t causes[8] = {0}, stalls[8] = {0}, network[2] = {UNTOUCHED, UNTOUCHED};
    const char *bad = "vn-protocol\t1\nmessage\t!\treq\n";
    int right = vn_check_protocol((const uint8_t *)bell, strlen(bell)) == VN_ACCEPTED;
    right = right && vn_check_protocol((const uint8_t *)bad, strlen(bad)) == pack(VN_NAME, 0, 2, 2, 0);
    right = right && vn_networks(vn_relations(1, causes, 4, stalls, 4, network, 1)) == 1;
    right = right && vn_networks(vn_relations64(1, causes, 8, stalls, 8, network + 1, 1)) == 1;
    right = right && network[0] == 0 && network[1] == 0;
    printf("%-24s%s\n", "the other calls", right ? "" : " WRONG");
    if (!right)
        wrong_lines++;
}

int main(void)
{
    check_side_by_side();
    check_listings();
    check_protocol_refusals();
    check_fields();
    check_full();
    check_mapping_refusals();
    if (wrong_lines != 0) {
        printf("plans_c: %d lines are wrong\n", wrong_lines);
        return 1;
    }
    printf("plans_c: all right\n");
    return 0;
}
