/* Measures the stack that each call takes with lists of 1,024 entries.

   Arguments: the bytes of stack that include/rtt.h gives for completing, querying, checking, the ends, the intervals,
   going back and going forward; then for each case FILE ROLE SET MINUTE and the refusal numbers that completing and
   querying answer, 0 where they refuse nothing. Where querying hands out a proof, it is checked. The intervals are
   those of all spans, and of a number with a bit beyond them. Each file is brought back, into a list of another length
   and into one of the right length, and where its serials allow that, forward again, likewise.

   Four withdrawal lists are lent in turn: one without withdrawals; one of all the file's serials, the last first, at a
   minute that changes nothing; one of all of them at minute 0, which leaves no minutes; and one of 256 withdrawals that
   is refused with 21.

   Each call runs on a stack of its own that was filled with a pattern. Prints the most bytes that each call wrote there,
   and what the header gives. Fails where that is less, where it is more than RTT_STACK, where querying takes more than
   RTT_QUERY_STACK, and where another number is answered. */
#include <inttypes.h>
#include <stdio.h>
#include <stdlib.h>
#include <string.h>
#include <ucontext.h>

#include "rtt.h"

enum { ROOM = 1 << 20, PATTERN = 0xa5 };
enum { COMPLETE, QUERY, CHECK, ENDS, INTERVALS, BACK, FORWARD, CALLS };

static const char *const names[CALLS] = {"complete", "query", "check", "ends", "intervals", "back", "forward"};
static size_t most[CALLS];

static uint8_t room[ROOM] __attribute__((aligned(64)));
static ucontext_t here, there;

static uint8_t file[RTT_FILE_BYTES + 1];
static size_t length;
static uint32_t role, set, minute, steps;
static uint8_t a[4 * RTT_ENTRIES], b[4 * RTT_ENTRIES], c[4 * RTT_ENTRIES], d[4 * RTT_ENTRIES], s[8 * RTT_ENTRIES];
static uint8_t list[256], old[RTT_OLD_FILE_BYTES], again[RTT_FILE_BYTES];
static size_t old_length, lent;
static uint64_t spans, reply;
static uint8_t withdrawals[RTT_WITHDRAWALS_BYTES];
static size_t withdrawals_length;

static void nothing(void) {}

static void complete(void)
{
    reply = rtt_complete(file, length, withdrawals, withdrawals_length, a, sizeof a, b, sizeof b, s, sizeof s);
}

static void query(void)
{
    reply = rtt_query(file, length, withdrawals, withdrawals_length, role, set, minute, a, sizeof a, b, sizeof b, c, sizeof c, d, sizeof d);
}

static void check(void)
{
    reply = rtt_check(file, length, withdrawals, withdrawals_length, role, set, minute, a, sizeof a, b, sizeof b, c, sizeof c, d, sizeof d, steps);
}

static void ends(void)
{
    reply = rtt_ends(file, length, withdrawals, withdrawals_length, list, sizeof list);
}

static void intervals(void)
{
    reply = rtt_intervals(file, length, withdrawals, withdrawals_length, spans, list, sizeof list);
}

static void back(void)
{
    reply = rtt_back(file, length, old, lent);
}

static void forward(void)
{
    reply = rtt_forward(old, old_length, again, lent);
}

static size_t used_by(void (*call)(void))
{
    memset(room, PATTERN, sizeof room);
    getcontext(&there);
    there.uc_stack.ss_sp = room;
    there.uc_stack.ss_size = sizeof room;
    there.uc_link = &here;
    makecontext(&there, call, 0);
    swapcontext(&here, &there);
    size_t i = 0;
    while (i < sizeof room && room[i] == PATTERN)
        i++;
    return sizeof room - i;
}

static int measure(int name, void (*call)(void), uint32_t number)
{
    size_t used = used_by(call) - used_by(nothing);
    if (used > most[name])
        most[name] = used;
    if (rtt_number(reply) == number)
        return 0;
    fprintf(stderr, "stack: %s answered number %" PRIu32 ", not %" PRIu32 "\n", names[name], rtt_number(reply), number);
    return 1;
}

static uint32_t number(const char *text)
{
    return (uint32_t)strtoul(text, NULL, 10);
}

/* Withdraws the file's credentials, the last first, at one minute. Where there are fewer than `count`, the further serials are 0. */
static void withdraw(size_t count, uint32_t at)
{
    size_t n = (length - 6) / 20;
    withdrawals[0] = (uint8_t)count;
    withdrawals[1] = (uint8_t)(count >> 8);
    for (size_t i = 0; i < count; i++)
        for (size_t k = 0; k < 4; k++) {
            withdrawals[2 + 4 * i + k] = i < n ? file[6 + 12 * (n - 1 - i) + 8 + k] : 0;
            withdrawals[2 + 4 * count + 4 * i + k] = (uint8_t)(at >> (8 * k));
        }
    withdrawals_length = rtt_withdrawals_length(count);
}

/* The calls that take a withdrawal list, with the numbers that completing, querying and checking answer, and the ends and the intervals. */
static int measure_calls(uint32_t completing, uint32_t querying, uint32_t checking, uint32_t others)
{
    int bad = measure(COMPLETE, complete, completing);
    bad |= measure(QUERY, query, querying);
    steps = rtt_ok(reply) ? rtt_steps(reply) : 1;
    if (rtt_ok(reply) || checking != 0)
        bad |= measure(CHECK, check, checking);
    bad |= measure(ENDS, ends, others);
    uint64_t beyond = (uint64_t)1 << (rtt_ok(reply) && reply > 0 ? reply - 1 : 0);
    spans = beyond - 1;
    bad |= measure(INTERVALS, intervals, others);
    spans = beyond;
    return bad | measure(INTERVALS, intervals, others != 0 ? others : 11);
}

static int measure_case(char **argument)
{
    FILE *from = fopen(argument[0], "rb");
    if (from == NULL) {
        perror(argument[0]);
        return 1;
    }
    length = fread(file, 1, sizeof file, from);
    fclose(from);
    role = number(argument[1]);
    set = number(argument[2]);
    minute = number(argument[3]);
    size_t n = (length - 6) / 20;
    withdraw(0, 0);
    int bad = measure_calls(number(argument[4]), number(argument[5]), 0, 0);
    withdraw(n, 4294967295u);
    bad |= measure_calls(number(argument[4]), number(argument[5]), 0, 0);
    withdraw(n, 0);
    bad |= measure_calls(0, 13, 15, 0);
    withdraw(256, 0);
    if (n == 256)
        memcpy(withdrawals + 2 + 4 * 255, withdrawals + 2, 4);
    bad |= measure_calls(21, 21, 21, 21);
    lent = 0;
    bad |= measure(BACK, back, 18);
    lent = old_length = rtt_back_length(length);
    int in_place = 1;
    for (size_t i = 0; i < n; i++)
        in_place &= rtt_entry32(file + 14 + 12 * i, 0) == i + 1;
    bad |= measure(BACK, back, in_place ? 0 : 19);
    if (!in_place)
        return bad;
    bad |= measure(FORWARD, forward, 18);
    lent = length;
    bad |= measure(FORWARD, forward, 0);
    return bad | (memcmp(again, file, length) != 0);
}

int main(int count, char **argument)
{
    int bad = count < 7 + CALLS || (count - 1 - CALLS) % 6 != 0;
    for (int i = 1 + CALLS; i + 5 < count; i += 6)
        bad |= measure_case(argument + i);
    if (bad)
        return 1;
    for (int name = 0; name < CALLS; name++) {
        size_t given = number(argument[1 + name]);
        printf("%s %zu of %zu\n", names[name], most[name], given);
        bad |= most[name] > given || given > RTT_STACK;
    }
    bad |= most[QUERY] > RTT_QUERY_STACK;
    return bad;
}
