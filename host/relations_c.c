/*
 * The relations call from C, in both forms: worked examples and one refusal of
 * each kind. Prints a line for each and ends with status 1 when something is
 * wrong.
 */
#include <stdio.h>
#include <string.h>
#include "zeveltoren.h"

/* The output has more bytes than any answer; what is not written stays so. */
#define ROOM 72
#define UNTOUCHED 0xee

static int wrong_lines = 0;

/* Which form is called, by what its rows have. */
struct form {
    const char *name;
    unsigned row_bytes, most_messages;
    uint64_t (*call)(uint64_t, const uint8_t *, size_t, const uint8_t *, size_t, uint8_t *, size_t);
    void (*set_pair)(uint8_t *, unsigned, unsigned);
};

static const struct form first = {"first", VN_ROW_BYTES, VN_MOST_MESSAGES, vn_relations, vn_set_pair};
static const struct form second = {"second", VN_ROW_BYTES64, VN_MOST_MESSAGES64, vn_relations64, vn_set_pair64};

/* The form that the examples are made for. */
static const struct form *form = &first;

/* One call: what goes in, and what has to come out. */
struct example {
    const char *name;
    uint64_t n;
    size_t causes_length, stalls_length, room;
    uint8_t causes[VN_ROW_BYTES64 * (VN_MOST_MESSAGES64 + 1)], stalls[VN_ROW_BYTES64 * (VN_MOST_MESSAGES64 + 1)];
    uint64_t right;
    uint8_t right_bytes[VN_MOST_MESSAGES64];
};

static struct example of_messages(const char *name, unsigned n)
{
    struct example example;
    memset(&example, 0, sizeof example);
    example.name = name;
    example.n = n;
    example.causes_length = form->row_bytes * n;
    example.stalls_length = form->row_bytes * n;
    example.room = ROOM;
    return example;
}

/* The packed number, put together from its parts. */
static uint64_t pack(unsigned refusal, unsigned length, unsigned networks, unsigned needed,
                     unsigned pairs, unsigned joins)
{
    return refusal + (length << 8) + (networks << 16) + ((uint64_t)needed << 24)
        + ((uint64_t)pairs << 32) + ((uint64_t)joins << 48);
}

/* Whether out starts with the right bytes and is untouched after them. */
static int bytes_are_right(const struct example *example, const uint8_t *out)
{
    size_t i, length = vn_length(example->right);
    if (memcmp(out, example->right_bytes, length) != 0)
        return 0;
    for (i = length; i < ROOM; i++)
        if (out[i] != UNTOUCHED)
            return 0;
    return 1;
}

/* Whether the joins, as the header takes them out, are within their bound. */
static int joins_are_right(const struct example *example, uint64_t answer)
{
    if (vn_refusal(answer) != VN_ACCEPTED)
        return vn_joins(answer) == 0;
    return vn_joins(answer) == example->right >> 48 && vn_joins(answer) <= example->n * example->n;
}

static void check(const struct example *example)
{
    uint8_t out[ROOM];
    uint64_t answer;
    size_t i;
    int right;
    memset(out, UNTOUCHED, sizeof out);
    answer = form->call(example->n, example->causes, example->causes_length, example->stalls,
                        example->stalls_length, out, example->room);
    right = answer == example->right && bytes_are_right(example, out)
        && joins_are_right(example, answer);
    printf("%-6s %-28s refusal %2u class %u networks %2u pairs %4u joins %4u needed %2u:",
           form->name, example->name, vn_refusal(answer), vn_class(answer), vn_networks(answer),
           vn_pairs(answer), vn_joins(answer), (unsigned)vn_needed(answer));
    for (i = 0; i < vn_length(answer) && i < ROOM; i++)
        printf(" %u", out[i]);
    printf("%s\n", right ? "" : " WRONG");
    if (!right)
        wrong_lines++;
}

/* Ask 0, Pass 1, Give 2, Done 3. Ask stalls Ask and reaches the three others,
 * so Ask waits for each of them: 3 pairs. The others wait for nothing. Row 0
 * takes in row 1, rows 0 and 1 row 2, rows 0 to 2 row 3: 6 joins. */
static struct example bell(void)
{
    struct example example = of_messages("Bell", 4);
    form->set_pair(example.causes, 0, 1);
    form->set_pair(example.causes, 1, 2);
    form->set_pair(example.causes, 2, 3);
    form->set_pair(example.stalls, 0, 0);
    example.right = pack(0, 4, 2, 0, 3, 6);
    example.right_bytes[0] = 1;
    return example;
}

/* Case 8 of the paper: a causes b, c causes d; a stalls d, c stalls b. So d
 * waits for b and b for d: 2 pairs, and the cycle b d. Row a takes in row b,
 * row c row d: 2 joins. */
static struct example case_8(void)
{
    struct example example = of_messages("case 8", 4);
    form->set_pair(example.causes, 0, 1);
    form->set_pair(example.causes, 2, 3);
    form->set_pair(example.stalls, 0, 3);
    form->set_pair(example.stalls, 2, 1);
    example.right = pack(0, 2, 0, 0, 2, 2);
    example.right_bytes[0] = 1;
    example.right_bytes[1] = 3;
    return example;
}

/* Case 10: as many messages as the form allows, 32 or 64; i causes i + 1, each
 * stalls itself. Message i waits for all after it: 31 + 30 + .. + 1 pairs. Row k
 * is taken in by the k rows before it: 1 + 2 + .. + 31 joins. Of 64 likewise. */
static struct example case_10(void)
{
    unsigned i, n = form->most_messages, sum = n == 32 ? 496 : 2016;
    struct example example = of_messages("case 10", n);
    for (i = 0; i < n; i++) {
        if (i < n - 1)
            form->set_pair(example.causes, i, i + 1);
        form->set_pair(example.stalls, i, i);
        example.right_bytes[i] = (uint8_t)(n - 1 - i);
    }
    example.right = pack(0, n, n, 0, sum, sum);
    return example;
}

/* The last message causes and stalls itself, and so waits for itself. */
static struct example last_alone(void)
{
    unsigned last = form->most_messages - 1;
    struct example example = of_messages("the last message alone", last + 1);
    form->set_pair(example.causes, last, last);
    form->set_pair(example.stalls, last, last);
    example.right = pack(0, 1, 0, 0, 1, 1);
    example.right_bytes[0] = (uint8_t)last;
    return example;
}

/* 4 messages, i + 1 causes i, no stalls: when it is row k's turn, only row k + 1
 * holds k, so there are 3 joins, though 6 pairs of causes when closed. */
static struct example backwards(void)
{
    struct example example = of_messages("a chain backwards", 4);
    form->set_pair(example.causes, 1, 0);
    form->set_pair(example.causes, 2, 1);
    form->set_pair(example.causes, 3, 2);
    example.right = pack(0, 4, 1, 0, 0, 3);
    return example;
}

/* a causes a and stalls nothing: its row holds itself, 1 join. */
static struct example own_cause(void)
{
    struct example example = of_messages("one message causes itself", 1);
    form->set_pair(example.causes, 0, 0);
    example.right = pack(0, 1, 1, 0, 0, 1);
    return example;
}

/* All causes and all stalls: the most pairs, and the most joins. */
static struct example fullest(void)
{
    unsigned n = form->most_messages, square = n == 32 ? 1024 : 4096;
    struct example example = of_messages("everything", n);
    memset(example.causes, 0xff, example.causes_length);
    memset(example.stalls, 0xff, example.stalls_length);
    example.right = pack(0, 1, 0, 0, square, square);
    return example;
}

static void check_answers(void)
{
    struct example example = bell();
    check(&example);
    example.name = "Bell, room for 4";
    example.room = 4;
    check(&example);
    example = case_8();
    check(&example);
    example = case_10();
    check(&example);
    example = last_alone();
    check(&example);
    example = backwards();
    check(&example);
    example = own_cause();
    check(&example);
    example = fullest();
    check(&example);
}

static void check_count(void)
{
    struct example example = of_messages("no message", 0);
    example.right = pack(VN_COUNT, 0, 0, 0, 0, 0);
    check(&example);
    example = of_messages("one message too many", form->most_messages + 1);
    example.right = pack(VN_COUNT, 0, 0, 0, 0, 0);
    check(&example);
    example = bell();
    example.right = pack(VN_COUNT, 0, 0, 0, 0, 0);
    example.name = "Bell, 2^32 + 4 messages";
    example.n = ((uint64_t)1 << 32) + 4;
    check(&example);
    example.n = 4;
    example.name = "Bell, causes a byte short";
    example.causes_length--;
    check(&example);
    example.causes_length++;
    example.name = "Bell, stalls a byte long";
    example.stalls_length++;
    check(&example);
    example.name = "Bell, rows of another form";
    example.causes_length = example.stalls_length = (VN_ROW_BYTES + VN_ROW_BYTES64 - form->row_bytes) * 4;
    check(&example);
}

static void check_stray_and_room(void)
{
    struct example example = bell();
    example.right = pack(VN_STRAY, 0, 0, 0, 0, 0);
    example.name = "Bell, Done stalls message 4";
    form->set_pair(example.stalls, 3, 4);
    check(&example);
    example = bell();
    example.right = pack(VN_STRAY, 0, 0, 0, 0, 0);
    example.name = "Bell, a row's highest bit";
    form->set_pair(example.causes, 3, 8 * form->row_bytes - 1);
    check(&example);
    example = bell();
    example.right = pack(VN_ROOM, 0, 0, 4, 0, 0);
    example.name = "Bell, room for 3";
    example.room = 3;
    check(&example);
    example = case_8();
    example.right = pack(VN_ROOM, 0, 0, 4, 0, 0);
    example.name = "case 8, room for the cycle";
    example.room = 2;
    check(&example);
}

/* 33 messages, of which 1 waits for 32 and 32 for 1: a low row and a high one. */
static void check_high_half(void)
{
    struct example example = of_messages("33 messages", 33);
    form->set_pair(example.causes, 0, 32);
    form->set_pair(example.causes, 31, 1);
    form->set_pair(example.stalls, 0, 1);
    form->set_pair(example.stalls, 31, 32);
    example.right = pack(0, 2, 0, 0, 2, 2);
    example.right_bytes[0] = 1;
    example.right_bytes[1] = 32;
    check(&example);
    example.name = "33 messages, room for 32";
    example.room = 32;
    example.right = pack(VN_ROOM, 0, 0, 33, 0, 0);
    check(&example);
}

static void check_form(const struct form *chosen)
{
    form = chosen;
    check_answers();
    check_count();
    check_stray_and_room();
}

int main(void)
{
    check_form(&first);
    check_form(&second);
    check_high_half();
    if (wrong_lines != 0) {
        printf("relations_c: %d lines are wrong\n", wrong_lines);
        return 1;
    }
    printf("relations_c: all right\n");
    return 0;
}
