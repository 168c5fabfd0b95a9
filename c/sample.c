/* Lists the ends of document 01's set P and completes it, with the minutes of each membership; asks for a proof of case K1 (0.1 {1,2} at minute 15)
   and checks it; then at minute 19, after the last one that has a proof, and a file that lacks a byte. Then serial 1 is withdrawn at minute 17: lists
   the ends and completes again, and asks at 16 and 17. Prints what it got. */
#include <inttypes.h>
#include <stdio.h>

#include "p.h"
#include "rtt.h"

enum { L = 8 };

/* The withdrawal list that the calls are lent, and one of one withdrawal: serial 1, minute 17. */
static const uint8_t *withdrawals = RTT_NO_WITHDRAWALS;
static size_t withdrawals_length = RTT_NO_WITHDRAWALS_LENGTH;
static const uint8_t one_withdrawn[] = {1, 0,  1, 0, 0, 0,  17, 0, 0, 0};

static int refused(const char *call, uint64_t reply)
{
    if (rtt_ok(reply))
        return 0;
    printf("%s: refused %" PRIu32 " %" PRIu32 ", %s\n", call, rtt_number(reply), rtt_place(reply), rtt_refusal_text(rtt_number(reply)));
    return 1;
}

static void ends(const uint8_t *file, size_t length)
{
    uint8_t list[RTT_ENDS_BYTES];
    uint64_t count = rtt_ends(file, length, withdrawals, withdrawals_length, list, sizeof list);
    if (refused("ends", count))
        return;
    printf("ends:");
    for (size_t i = 0; i < count; i++)
        printf(" %" PRIu32, rtt_entry32(list, i));
    printf("\n");
}

static void minutes(const uint8_t *file, size_t length, uint64_t spans)
{
    uint8_t bounds[RTT_BOUNDS_BYTES];
    uint64_t count = rtt_intervals(file, length, withdrawals, withdrawals_length, spans, bounds, sizeof bounds);
    if (refused("intervals", count))
        return;
    for (size_t i = 0; i < count; i++)
        printf(" from %" PRIu32 ", before %" PRIu32, rtt_entry32(bounds, 2 * i), rtt_entry32(bounds, 2 * i + 1));
    printf("\n");
}

static void complete(const uint8_t *file, size_t length)
{
    uint8_t roles[4 * L], sets[4 * L], spans[8 * L];
    uint64_t count = rtt_complete(file, length, withdrawals, withdrawals_length, roles, sizeof roles, sets, sizeof sets, spans, sizeof spans);
    if (refused("complete", count))
        return;
    printf("complete: %" PRIu64 " memberships\n", count);
    for (size_t i = 0; i < count; i++) {
        uint32_t role = rtt_entry32(roles, i);
        printf("  %" PRIu32 ".%" PRIu32 " set %" PRIu32 " spans %" PRIu64 " minutes", role / 32, role % 32, rtt_entry32(sets, i),
               rtt_entry64(spans, i));
        minutes(file, length, rtt_entry64(spans, i));
    }
}

static void prove(const uint8_t *file, size_t length, uint32_t role, uint32_t set, uint32_t minute)
{
    uint8_t credential[4 * L], first[4 * L], second[4 * L], sets[4 * L];
    uint64_t got = rtt_query(file, length, withdrawals, withdrawals_length, role, set, minute, credential, sizeof credential, first, sizeof first, second,
                             sizeof second, sets, sizeof sets);
    if (refused("query", got))
        return;
    printf("query: %" PRIu32 " steps of level %" PRIu32 "\n", rtt_steps(got), rtt_level(got));
    for (size_t i = 0; i < rtt_steps(got); i++)
        printf("  %zu: credential %" PRIu32 " steps %" PRIu32 " %" PRIu32 " set %" PRIu32 "\n", i, rtt_entry32(credential, i),
               rtt_entry32(first, i), rtt_entry32(second, i), rtt_entry32(sets, i));
    uint64_t level = rtt_check(file, length, withdrawals, withdrawals_length, role, set, minute, credential, sizeof credential, first, sizeof first,
                               second, sizeof second, sets, sizeof sets, rtt_steps(got));
    if (!refused("check", level))
        printf("check: level %" PRIu64 "\n", level);
}

int main(void)
{
    ends(P, sizeof P);
    complete(P, sizeof P);
    prove(P, sizeof P, rtt_role(0, 1), 1u << 1 | 1u << 2, 15);
    prove(P, sizeof P, rtt_role(0, 1), 1u << 1 | 1u << 2, 19);
    complete(P, sizeof P - 1);
    printf("serial 1 withdrawn at minute 17\n");
    withdrawals = one_withdrawn;
    withdrawals_length = sizeof one_withdrawn;
    ends(P, sizeof P);
    complete(P, sizeof P);
    prove(P, sizeof P, rtt_role(0, 1), 1u << 1 | 1u << 2, 16);
    prove(P, sizeof P, rtt_role(0, 1), 1u << 1 | 1u << 2, 17);
    return 0;
}
