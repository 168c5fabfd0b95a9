/* A caller that knows the header alone: makes each call and uses each inline function, and holds every reply and list against what documents 01 and 02 say
   of set P, worked out by hand. Prints the line of each expectation that fails, then how many there were. C99 and C++ both compile it. */
#include <inttypes.h>
#include <stdio.h>
#include <string.h>

#include "p.h"
#include "rtt.h"

enum { L = 8, MARK = 0xa5 };

static unsigned expected, failed;

#define EXPECT(condition) expect(__LINE__, (condition) ? 1 : 0, #condition)

static void expect(int line, int holds, const char *condition)
{
    expected++;
    if (holds)
        return;
    failed++;
    printf("c/caller.c:%d: not so: %s\n", line, condition);
}

/* A list, with marks before and after it that no call may change; an odd number before it, so that it is not aligned. */
typedef struct {
    uint8_t before[65];
    uint8_t bytes[8 * (RTT_ENTRIES + 1)];
    uint8_t after[64];
} list;

static list a, b, c, d;

/* The withdrawal list that the calls below are lent: one without withdrawals, unless a test lends another. */
static const uint8_t *withdrawals = RTT_NO_WITHDRAWALS;
static size_t withdrawals_length = RTT_NO_WITHDRAWALS_LENGTH;

static void lend(const uint8_t *bytes, size_t length)
{
    withdrawals = bytes;
    withdrawals_length = length;
}

static void lend_none(void)
{
    lend(RTT_NO_WITHDRAWALS, RTT_NO_WITHDRAWALS_LENGTH);
}

/* Lends the list of these withdrawals, each a serial and its minute; at an odd place, so that it is not aligned. */
static void withdraw(size_t count, const uint32_t *pairs)
{
    static uint8_t room[65 + 2 + 8 * 256];
    uint8_t *bytes = room + 65, *serials = bytes + 2, *minutes = serials + 4 * count;
    bytes[0] = (uint8_t)count;
    bytes[1] = (uint8_t)(count >> 8);
    for (size_t i = 0; i < 4 * count; i++) {
        serials[i] = (uint8_t)(pairs[i / 4 * 2] >> (8 * (i % 4)));
        minutes[i] = (uint8_t)(pairs[i / 4 * 2 + 1] >> (8 * (i % 4)));
    }
    lend(bytes, 2 + 8 * count);
}

static void withdraw_one(uint32_t serial, uint32_t minute)
{
    const uint32_t pair[] = {serial, minute};
    withdraw(1, pair);
}

static void mark(void)
{
    memset(&a, MARK, sizeof a);
    memset(&b, MARK, sizeof b);
    memset(&c, MARK, sizeof c);
    memset(&d, MARK, sizeof d);
}

static int all(const uint8_t *bytes, size_t length, uint8_t value)
{
    size_t i = 0;
    while (i < length && bytes[i] == value)
        i++;
    return i == length;
}

/* Everything around the list's first `length` bytes is as it was. */
static int around(const list *l, size_t length)
{
    return all(l->before, sizeof l->before, MARK) && all(l->after, sizeof l->after, MARK)
           && all(l->bytes + length, sizeof l->bytes - length, MARK);
}

static int untouched(const list *l)
{
    return around(l, 0);
}

static int zero(const list *l, size_t length)
{
    return around(l, length) && all(l->bytes, length, 0);
}

/* The entries, and zeros after them up to `length` bytes. */
static int has(const list *l, size_t length, size_t count, const uint32_t *entries)
{
    size_t i = 0;
    while (i < count && rtt_entry32(l->bytes, i) == entries[i])
        i++;
    return i == count && around(l, length) && all(l->bytes + 4 * count, length - 4 * count, 0);
}

static uint64_t refusal(uint64_t number, uint64_t place)
{
    return number * 4294967296u + place;
}

static uint64_t complete(const uint8_t *file, size_t length, size_t entries)
{
    mark();
    return rtt_complete(file, length, withdrawals, withdrawals_length, a.bytes, 4 * entries, b.bytes, 4 * entries, c.bytes, 8 * entries);
}

static uint64_t query(const uint8_t *file, size_t length, uint32_t role, uint32_t set, uint32_t minute, size_t entries)
{
    mark();
    return rtt_query(file, length, withdrawals, withdrawals_length, role, set, minute, a.bytes, 4 * entries, b.bytes, 4 * entries, c.bytes, 4 * entries,
                     d.bytes, 4 * entries);
}

static uint64_t ends(const uint8_t *file, size_t length, size_t bytes)
{
    mark();
    return rtt_ends(file, length, withdrawals, withdrawals_length, a.bytes, bytes);
}

static uint64_t intervals(const uint8_t *file, size_t length, uint64_t spans, size_t bytes)
{
    mark();
    return rtt_intervals(file, length, withdrawals, withdrawals_length, spans, a.bytes, bytes);
}

static uint64_t forward(const uint8_t *old, size_t length, size_t bytes)
{
    mark();
    return rtt_forward(old, length, a.bytes, bytes);
}

static uint64_t back(const uint8_t *file, size_t length, size_t bytes)
{
    mark();
    return rtt_back(file, length, a.bytes, bytes);
}

/* K1's proof: {1} and {2} are in 0.0 by credentials 0 and 1, and so {1,2} is in 0.1 by credential 2. The last entry is no step. */
static const uint8_t credential[] = {0, 0, 0, 0, 1, 0, 0, 0, 2, 0, 0, 0, 9, 9, 9, 9};
static const uint8_t first[]      = {0, 0, 0, 0, 0, 0, 0, 0, 0, 0, 0, 0, 9, 9, 9, 9};
static const uint8_t second[]     = {0, 0, 0, 0, 0, 0, 0, 0, 1, 0, 0, 0, 9, 9, 9, 9};
static const uint8_t sets[]       = {2, 0, 0, 0, 4, 0, 0, 0, 6, 0, 0, 0, 9, 9, 9, 9};

static uint64_t check(const uint8_t *file, size_t length, uint32_t role, uint32_t set, uint32_t minute, uint64_t steps)
{
    return rtt_check(file, length, withdrawals, withdrawals_length, role, set, minute, credential, sizeof credential, first, sizeof first, second,
                     sizeof second, sets, sizeof sets, steps);
}

/* Checks what the last query left. */
static uint64_t check_left(const uint8_t *file, size_t length, uint32_t role, uint32_t set, uint32_t minute, size_t entries, uint64_t steps)
{
    return rtt_check(file, length, withdrawals, withdrawals_length, role, set, minute, a.bytes, 4 * entries, b.bytes, 4 * entries, c.bytes, 4 * entries,
                     d.bytes, 4 * entries, steps);
}

static int may_release(const uint8_t *file, size_t length, uint32_t role, uint32_t set, uint32_t minute)
{
    return rtt_may_release(file, length, withdrawals, withdrawals_length, role, set, minute);
}

/* Every word of the last query's steps names a credential of the file or a step of the proof. */
static int words_below(const uint8_t *file, uint32_t steps)
{
    uint32_t credentials = file[4] + 256u * file[5], i = 0;
    while (i < steps && rtt_entry32(a.bytes, i) < credentials && rtt_entry32(b.bytes, i) < steps && rtt_entry32(c.bytes, i) < steps)
        i++;
    return i == steps;
}

/* A membership at a minute that has `held` of them, the least L with which there is a proof. Its level is at most `held`, with that L and the greatest. */
static int level_bounded(const uint8_t *file, size_t length, uint32_t role, uint32_t set, uint32_t minute, uint32_t held)
{
    const size_t with[] = {held, RTT_ENTRIES};
    uint32_t levels[2];
    for (int i = 0; i < 2; i++) {
        uint64_t got = query(file, length, role, set, minute, with[i]);
        levels[i] = rtt_level(got);
        if (!rtt_ok(got) || levels[i] < 1 || levels[i] > rtt_steps(got) || rtt_steps(got) > held || held > with[i] || !words_below(file, rtt_steps(got))
            || check_left(file, length, role, set, minute, with[i], rtt_steps(got)) != levels[i])
            return 0;
    }
    return levels[0] == levels[1];
}

static int all_zero(size_t length)
{
    return zero(&a, length) && zero(&b, length) && zero(&c, length) && zero(&d, length);
}

/* With one entry less there is 10, and with none 9. */
static int one_less_refused(const uint8_t *file, size_t length, uint32_t role, uint32_t set, uint32_t minute, uint32_t held)
{
    uint64_t got = query(file, length, role, set, minute, held - 1);
    if (held == 1)
        return got == refusal(9, 0) && untouched(&a) && untouched(&b) && untouched(&c) && untouched(&d);
    return got == refusal(10, 0) && all_zero(4 * (size_t)held - 4);
}

/* Request Five of document 02, on a file that is accepted with the withdrawal list: at any minute no level exceeds the number of memberships, which is
   counted in the table. All memberships at the minutes up to 99, and at, before and after each end. */
static void bounded(int line, const uint8_t *file, size_t length)
{
    static uint32_t in_roles[RTT_ENTRIES], in_sets[RTT_ENTRIES];
    static uint64_t in_spans[RTT_ENTRIES];
    uint32_t in_ends[64], held;
    size_t count = (size_t)complete(file, length, RTT_ENTRIES);
    int most = count <= RTT_ENTRIES, least = 1, others = 1;
    for (size_t i = 0; most && i < count; i++) {
        in_roles[i] = rtt_entry32(a.bytes, i);
        in_sets[i] = rtt_entry32(b.bytes, i);
        in_spans[i] = rtt_entry64(c.bytes, i);
    }
    size_t last = (size_t)ends(file, length, RTT_ENDS_BYTES);
    most &= last <= 64;
    for (size_t i = 0; most && i < last; i++)
        in_ends[i] = rtt_entry32(a.bytes, i);
    for (size_t n = 0; most && n < 100 + 3 * last; n++) {
        uint32_t minute = n < 100 ? (uint32_t)n : in_ends[(n - 100) / 3] + (uint32_t)((n - 100) % 3) - 1u;
        uint64_t span = 0;
        if (minute == 4294967295u)
            continue;
        for (size_t i = 0; i + 1 < last; i++)
            if (in_ends[i] <= minute && minute < in_ends[i + 1])
                span = (uint64_t)1 << i;
        held = 0;
        for (size_t i = 0; i < count; i++)
            held += (in_spans[i] & span) != 0;
        for (size_t i = 0; i < count; i++)
            if ((in_spans[i] & span) != 0) {
                most &= level_bounded(file, length, in_roles[i], in_sets[i], minute, held);
                least &= one_less_refused(file, length, in_roles[i], in_sets[i], minute, held);
            } else {
                others &= query(file, length, in_roles[i], in_sets[i], minute, RTT_ENTRIES) == refusal(13, 0) && all_zero(4 * RTT_ENTRIES);
            }
    }
    expect(line, most, "a level is at most the number of memberships at the minute, and that at most L");
    expect(line, least, "with one entry less than memberships at the minute there is 10, and zeros");
    expect(line, others, "at other minutes there is 13, and zeros");
}

static void replies(void)
{
    uint64_t refused = refusal(15, 2), found = 3 + 2 * 65536;
    EXPECT(rtt_ok(0) == 1 && rtt_ok(found) == 1 && rtt_ok(4294967295u) == 1);
    EXPECT(rtt_ok(4294967296u) == 0 && rtt_ok(refused) == 0 && rtt_ok(refusal(13, 0)) == 0);
    EXPECT(rtt_number(refused) == 15 && rtt_place(refused) == 2);
    EXPECT(rtt_number(found) == 0 && rtt_place(found) == 0);
    EXPECT(rtt_steps(found) == 3 && rtt_level(found) == 2);
    EXPECT(rtt_steps(refused) == 0 && rtt_level(refused) == 0);
    EXPECT(rtt_steps(1024 + 1024 * 65536) == 1024 && rtt_level(1024 + 1024 * 65536) == 1024);
}

static void texts(void)
{
    EXPECT(strcmp(rtt_refusal_text(0), "no refusal") == 0);
    EXPECT(strcmp(rtt_refusal_text(13), "there is no proof") == 0);
    EXPECT(strcmp(rtt_refusal_text(17), "a credential's serial is zero or that of an earlier credential") == 0);
    EXPECT(strcmp(rtt_refusal_text(18), "the list to write has another length than the resulting file") == 0);
    EXPECT(strcmp(rtt_refusal_text(19), "a credential's serial is not its position plus one") == 0);
    EXPECT(strcmp(rtt_refusal_text(20), "the withdrawal list has no count, a count above 256, or another length than its count takes") == 0);
    EXPECT(strcmp(rtt_refusal_text(21), "the withdrawal list has a serial twice or one that is on no credential") == 0);
    EXPECT(strcmp(rtt_refusal_text(22), "not the number of a refusal") == 0);
    EXPECT(strcmp(rtt_refusal_text(refusal(13, 0)), "not the number of a refusal") == 0);
    EXPECT(strcmp(rtt_refusal_text(UINT64_MAX), "not the number of a refusal") == 0);
    for (uint64_t i = 0; i <= 22; i++)
        for (uint64_t k = 0; k < i; k++)
            EXPECT(strcmp(rtt_refusal_text(i), rtt_refusal_text(k)) != 0);
}

static void names(void)
{
    EXPECT(RTT_FILE_TOO_SHORT == 1 && RTT_SIZES_OUT_OF_RANGE == 2 && RTT_WRONG_FILE_LENGTH == 3 && RTT_UNKNOWN_KIND == 4);
    EXPECT(RTT_CREDENTIAL_OUT_OF_RANGE == 5 && RTT_BYTE_NOT_ZERO == 6 && RTT_WRONG_PERIOD == 7 && RTT_TOO_MANY_ENDS == 8);
    EXPECT(RTT_WRONG_LISTS == 9 && RTT_TOO_MANY_MEMBERSHIPS == 10 && RTT_REQUEST_OUT_OF_RANGE == 11 && RTT_NOT_A_MINUTE == 12);
    EXPECT(RTT_NO_PROOF == 13 && RTT_WRONG_STEP_COUNT == 14 && RTT_WRONG_STEP == 15 && RTT_OTHER_MEMBERSHIP == 16);
    EXPECT(RTT_WRONG_SERIAL == 17 && RTT_WRONG_OUTPUT_LENGTH == 18 && RTT_SERIAL_OUT_OF_PLACE == 19 && RTT_WRONG_WITHDRAWALS == 20);
    EXPECT(RTT_WRONG_WITHDRAWN_SERIAL == 21);
    EXPECT(rtt_number(query(P, sizeof P, rtt_role(0, 1), 6, 19, L)) == RTT_NO_PROOF);
    switch (rtt_number(refusal(15, 2))) {
    case RTT_WRONG_STEP:
        break;
    default:
        EXPECT(0);
    }
}

static void version(void)
{
    char text[32];
    snprintf(text, sizeof text, "%d.%d.%d", RTT_VERSION_NUMBER / 10000, RTT_VERSION_NUMBER / 100 % 100, RTT_VERSION_NUMBER % 100);
    EXPECT(strcmp(text, RTT_VERSION) == 0);
    EXPECT(RTT_FILE_BYTES == 6 + 20 * 256 && RTT_OLD_FILE_BYTES == 6 + 16 * 256 && RTT_ENTRIES == 1024 && RTT_ENDS_BYTES == 64 * 4 && RTT_BOUNDS_BYTES == 32 * 2 * 4);
    EXPECT(RTT_WITHDRAWALS_BYTES == 2 + 8 * 256 && RTT_NO_WITHDRAWALS_LENGTH == 2 && RTT_NO_WITHDRAWALS[0] == 0 && RTT_NO_WITHDRAWALS[1] == 0);
}

static void entries(void)
{
    static const uint8_t bytes[] = {9, 1, 2, 3, 4, 5, 6, 7, 8, 255, 255, 255, 255, 255, 255, 255, 255};
    EXPECT(rtt_entry32(bytes + 1, 0) == 0x04030201u && rtt_entry32(bytes + 1, 1) == 0x08070605u);
    EXPECT(rtt_entry32(bytes + 1, 3) == 4294967295u);
    EXPECT(rtt_entry64(bytes + 1, 0) == UINT64_C(0x0807060504030201) && rtt_entry64(bytes + 1, 1) == UINT64_MAX);
}

/* 1.2 <- 0 from minute 0 to 10. The sum 0 * 32 + 34 is this role; 0.34 is none. */
static void roles(void)
{
    static const uint8_t file[] = {2, 0, 3, 0, 1, 0, 0, 1, 2, 0, 0, 0, 0, 0, 1, 0, 0, 0, 0, 0, 0, 0, 10, 0, 0, 0};
    EXPECT(rtt_role(0, 0) == 0 && rtt_role(0, 1) == 1 && rtt_role(1, 2) == 34 && rtt_role(31, 31) == 1023);
    EXPECT(rtt_role(0, 32) == 4294967295u && rtt_role(0, 34) == 4294967295u && rtt_role(32, 0) == 4294967295u);
    EXPECT(rtt_role(4294967296u, 0) == 4294967295u && rtt_role(0, UINT64_MAX) == 4294967295u);
    EXPECT(query(file, sizeof file, rtt_role(1, 2), 1, 5, L) == 1 + 1 * 65536);
    EXPECT(query(file, sizeof file, 0 * 32 + 34, 1, 5, L) == 1 + 1 * 65536);
    EXPECT(query(file, sizeof file, rtt_role(0, 34), 1, 5, L) == refusal(11, 0));
    EXPECT(check(file, sizeof file, rtt_role(0, 34), 1, 5, 1) == refusal(11, 0));
    EXPECT(may_release(file, sizeof file, rtt_role(1, 2), 1, 5) == 1);
    EXPECT(may_release(file, sizeof file, rtt_role(0, 34), 1, 5) == 0);
    bounded(__LINE__, file, sizeof file);
}

/* Memberships 0.0 {1}, 0.0 {2} and 0.1 {1,2}, in spans 14, 28 and 4. */
static void completing(void)
{
    static const uint32_t in_roles[] = {0, 0, 1}, in_sets[] = {2, 4, 6}, in_spans[] = {14, 0, 28, 0, 4, 0};
    EXPECT(complete(P, sizeof P, L) == 3);
    EXPECT(has(&a, 4 * L, 3, in_roles) && has(&b, 4 * L, 3, in_sets) && has(&c, 8 * L, 6, in_spans) && untouched(&d));
    EXPECT(rtt_entry64(c.bytes, 0) == 14 && rtt_entry64(c.bytes, 1) == 28 && rtt_entry64(c.bytes, 2) == 4);
    EXPECT(complete(P, sizeof P, 3) == 3);
    EXPECT(has(&a, 12, 3, in_roles) && has(&b, 12, 3, in_sets) && has(&c, 24, 6, in_spans));
    EXPECT(complete(P, sizeof P, RTT_ENTRIES) == 3);
    EXPECT(has(&a, 4096, 3, in_roles) && has(&b, 4096, 3, in_sets) && has(&c, 8192, 6, in_spans));
    EXPECT(complete(P, sizeof P, 2) == refusal(10, 0));
    EXPECT(zero(&a, 8) && zero(&b, 8) && zero(&c, 16));
    EXPECT(complete(P, sizeof P, 0) == refusal(9, 0));
    EXPECT(complete(P, sizeof P, RTT_ENTRIES + 1) == refusal(9, 0));
    EXPECT(rtt_complete(P, sizeof P, withdrawals, withdrawals_length, a.bytes, 32, b.bytes, 32, c.bytes, 32) == refusal(9, 0));
    EXPECT(rtt_complete(P, sizeof P, withdrawals, withdrawals_length, a.bytes, 33, b.bytes, 33, c.bytes, 66) == refusal(9, 0));
    EXPECT(rtt_complete(P, sizeof P, withdrawals, withdrawals_length, NULL, 0, NULL, 0, NULL, 0) == refusal(9, 0));
    EXPECT(untouched(&a) && untouched(&b) && untouched(&c));
}

/* K1's proof as handed out: the two steps of level 1 may come in either order, and so may those that the last cites. */
static int is_k1(size_t length)
{
    uint32_t one = rtt_entry32(a.bytes, 0), cited = rtt_entry32(b.bytes, 2);
    const uint32_t credentials[] = {one, 1 - one, 2}, firsts[] = {0, 0, cited}, seconds[] = {0, 0, 1 - cited};
    const uint32_t results[] = {one == 0 ? 2u : 4u, one == 0 ? 4u : 2u, 6};
    return one < 2 && cited < 2 && has(&a, length, 3, credentials) && has(&b, length, 3, firsts) && has(&c, length, 3, seconds)
           && has(&d, length, 3, results);
}

static void querying(void)
{
    static const uint32_t nothing[] = {0}, one[] = {2};
    uint32_t release = rtt_role(0, 1), reviewer = rtt_role(0, 0);
    EXPECT(query(P, sizeof P, release, 6, 15, L) == 3 + 2 * 65536);
    EXPECT(is_k1(4 * L));
    EXPECT(query(P, sizeof P, release, 6, 17, 3) == 3 + 2 * 65536);
    EXPECT(is_k1(12));
    EXPECT(query(P, sizeof P, release, 6, 18, L) == 3 + 2 * 65536);
    EXPECT(is_k1(4 * L));
    EXPECT(query(P, sizeof P, release, 6, 19, L) == refusal(13, 0));
    EXPECT(zero(&a, 4 * L) && zero(&b, 4 * L) && zero(&c, 4 * L) && zero(&d, 4 * L));
    EXPECT(query(P, sizeof P, release, 6, 14, L) == refusal(13, 0));
    EXPECT(query(P, sizeof P, release, 2, 10, L) == refusal(13, 0));
    EXPECT(query(P, sizeof P, release, 7, 15, L) == refusal(13, 0));
    EXPECT(query(P, sizeof P, release, 6, 4294967294u, L) == refusal(13, 0));
    EXPECT(query(P, sizeof P, reviewer, 2, 20, 2) == 1 + 1 * 65536);
    EXPECT(has(&a, 8, 1, nothing) && has(&b, 8, 1, nothing) && has(&c, 8, 1, nothing) && has(&d, 8, 1, one));
    EXPECT(query(P, sizeof P, reviewer, 2, 21, L) == refusal(13, 0));
    EXPECT(query(P, sizeof P, release, 6, 15, 2) == refusal(10, 0));
    EXPECT(zero(&a, 8) && zero(&b, 8) && zero(&c, 8) && zero(&d, 8));
    EXPECT(query(P, sizeof P, release, 0, 15, L) == refusal(11, 0));
    EXPECT(query(P, sizeof P, release, 8, 15, L) == refusal(11, 0));
    EXPECT(query(P, sizeof P, rtt_role(0, 2), 6, 15, L) == refusal(11, 0));
    EXPECT(query(P, sizeof P, rtt_role(3, 0), 6, 15, L) == refusal(11, 0));
    EXPECT(query(P, sizeof P, release, 6, 4294967295u, L) == refusal(12, 0));
    EXPECT(query(P, sizeof P, release, 0, 4294967295u, L) == refusal(11, 0));
    EXPECT(query(P, sizeof P, release, 0, 15, 0) == refusal(9, 0));
    EXPECT(untouched(&a) && untouched(&b) && untouched(&c) && untouched(&d));
}

static void checking(void)
{
    static const uint8_t unknown[] = {0, 0, 0, 0, 3, 0, 0, 0, 2, 0, 0, 0, 0, 0, 0, 0};
    uint32_t release = rtt_role(0, 1), reviewer = rtt_role(0, 0);
    EXPECT(check(P, sizeof P, release, 6, 15, 3) == 2);
    EXPECT(check(P, sizeof P, release, 6, 17, 3) == 2);
    EXPECT(check(P, sizeof P, release, 6, 18, 3) == 2);
    EXPECT(check(P, sizeof P, release, 6, 19, 3) == refusal(15, 2));
    EXPECT(check(P, sizeof P, release, 6, 21, 3) == refusal(15, 0));
    EXPECT(check(P, sizeof P, release, 6, 14, 3) == refusal(15, 1));
    EXPECT(check(P, sizeof P, release, 6, 9, 3) == refusal(15, 0));
    EXPECT(check(P, sizeof P, reviewer, 2, 15, 1) == 1);
    EXPECT(check(P, sizeof P, reviewer, 4, 15, 2) == 1);
    EXPECT(check(P, sizeof P, reviewer, 2, 15, 3) == refusal(16, 0));
    EXPECT(check(P, sizeof P, release, 7, 15, 3) == refusal(16, 0));
    EXPECT(check(P, sizeof P, release, 6, 15, 4) == refusal(15, 3));
    EXPECT(check(P, sizeof P, release, 6, 15, 0) == refusal(14, 0));
    EXPECT(check(P, sizeof P, release, 6, 15, 5) == refusal(14, 0));
    EXPECT(check(P, sizeof P, release, 6, 15, 4294967296u + 3) == refusal(14, 0));
    EXPECT(check(P, sizeof P, release, 6, 4294967295u, 3) == refusal(12, 0));
    EXPECT(check(P, sizeof P, release, 0, 15, 3) == refusal(11, 0));
    EXPECT(rtt_check(P, sizeof P, withdrawals, withdrawals_length, release, 6, 15, unknown, sizeof unknown, first, sizeof first, second, sizeof second,
                     sets, sizeof sets, 3) == refusal(15, 1));
    EXPECT(rtt_check(P, sizeof P, withdrawals, withdrawals_length, release, 6, 15, credential, sizeof credential, first, sizeof first, second,
                     sizeof second, sets, sizeof sets - 4, 3) == refusal(9, 0));
    EXPECT(rtt_check(P, sizeof P, withdrawals, withdrawals_length, release, 6, 15, NULL, 0, NULL, 0, NULL, 0, NULL, 0, 3) == refusal(9, 0));
}

static void listing_ends(void)
{
    static const uint32_t in_ends[] = {0, 10, 15, 19, 21, 31};
    EXPECT(ends(P, sizeof P, RTT_ENDS_BYTES) == 6);
    EXPECT(has(&a, RTT_ENDS_BYTES, 6, in_ends));
    EXPECT(ends(P, sizeof P, 252) == refusal(9, 0) && untouched(&a));
    EXPECT(ends(P, sizeof P, 255) == refusal(9, 0) && untouched(&a));
    EXPECT(ends(P, sizeof P, 257) == refusal(9, 0) && untouched(&a));
    EXPECT(ends(P, sizeof P, 512) == refusal(9, 0) && untouched(&a));
    EXPECT(rtt_ends(P, sizeof P, withdrawals, withdrawals_length, NULL, 0) == refusal(9, 0));
}

/* Spans 0 to 4 of P begin at 0, 10, 15, 19 and 21, and the last stops before 31. */
static void listing_intervals(void)
{
    static const uint32_t of_14[] = {10, 21}, of_28[] = {15, 31}, of_4[] = {15, 19}, of_31[] = {0, 31};
    static const uint32_t of_5[] = {0, 10, 15, 19}, of_21[] = {0, 10, 15, 19, 21, 31}, of_27[] = {0, 15, 19, 31};
    size_t whole = RTT_BOUNDS_BYTES;
    EXPECT(intervals(P, sizeof P, 14, whole) == 1 && has(&a, whole, 2, of_14));
    EXPECT(intervals(P, sizeof P, 28, whole) == 1 && has(&a, whole, 2, of_28));
    EXPECT(intervals(P, sizeof P, 4, whole) == 1 && has(&a, whole, 2, of_4));
    EXPECT(intervals(P, sizeof P, 31, whole) == 1 && has(&a, whole, 2, of_31));
    EXPECT(intervals(P, sizeof P, 5, whole) == 2 && has(&a, whole, 4, of_5));
    EXPECT(intervals(P, sizeof P, 21, whole) == 3 && has(&a, whole, 6, of_21));
    EXPECT(intervals(P, sizeof P, 27, whole) == 2 && has(&a, whole, 4, of_27));
    EXPECT(intervals(P, sizeof P, 0, whole) == 0 && zero(&a, whole));
    EXPECT(intervals(P, sizeof P, 32, whole) == refusal(11, 0) && untouched(&a));
    EXPECT(intervals(P, sizeof P, 36, whole) == refusal(11, 0) && untouched(&a));
    EXPECT(intervals(P, sizeof P, UINT64_MAX, whole) == refusal(11, 0) && untouched(&a));
    EXPECT(intervals(P, sizeof P, 14, whole - 8) == refusal(9, 0) && untouched(&a));
    EXPECT(intervals(P, sizeof P, 14, whole + 1) == refusal(9, 0) && untouched(&a));
    EXPECT(intervals(P, sizeof P, 32, whole - 1) == refusal(9, 0) && untouched(&a));
    EXPECT(rtt_intervals(P, sizeof P, withdrawals, withdrawals_length, 14, NULL, 0) == refusal(9, 0));
}

static void releasing(void)
{
    uint32_t release = rtt_role(0, 1);
    EXPECT(may_release(P, sizeof P, release, 6, 15) == 1);
    EXPECT(may_release(P, sizeof P, release, 6, 18) == 1);
    EXPECT(may_release(P, sizeof P, release, 6, 19) == 0);
    EXPECT(may_release(P, sizeof P, release, 6, 14) == 0);
    EXPECT(may_release(P, sizeof P, release, 6, 4294967295u) == 0);
    EXPECT(may_release(P, sizeof P, release, 2, 15) == 0);
    EXPECT(may_release(P, sizeof P, release, 7, 15) == 0);
    EXPECT(may_release(P, sizeof P, release, 0, 15) == 0);
    EXPECT(may_release(P, sizeof P, release, 14, 15) == 0);
    EXPECT(may_release(P, sizeof P, rtt_role(0, 0), 6, 15) == 0);
    EXPECT(may_release(P, sizeof P, rtt_role(0, 0), 2, 15) == 1);
    EXPECT(may_release(P, sizeof P - 1, release, 6, 15) == 0);
    EXPECT(may_release(NULL, 0, release, 6, 15) == 0);
}

/* A file without credentials. */
static void empty(void)
{
    static const uint8_t file[] = {1, 0, 1, 0, 0, 0};
    EXPECT(complete(file, sizeof file, 1) == 0 && zero(&a, 4) && zero(&b, 4) && zero(&c, 8));
    EXPECT(query(file, sizeof file, 0, 1, 0, 1) == refusal(13, 0));
    EXPECT(check(file, sizeof file, 0, 1, 0, 1) == refusal(15, 0));
    EXPECT(ends(file, sizeof file, RTT_ENDS_BYTES) == 0 && zero(&a, RTT_ENDS_BYTES));
    EXPECT(intervals(file, sizeof file, 0, RTT_BOUNDS_BYTES) == 0 && zero(&a, RTT_BOUNDS_BYTES));
    EXPECT(intervals(file, sizeof file, 1, RTT_BOUNDS_BYTES) == refusal(11, 0) && untouched(&a));
    EXPECT(may_release(file, sizeof file, 0, 1, 0) == 0);
    bounded(__LINE__, file, sizeof file);
}

/* Each call that takes a withdrawal list refuses so, whether its other arguments are wrong or those that P answers, and leaves the lists as they were. */
static void refused_with_list(int line, const uint8_t *file, size_t length, uint64_t reply)
{
    uint64_t got[11];
    int same = 1;
    got[0] = complete(file, length, L);
    same &= untouched(&a) && untouched(&b) && untouched(&c);
    got[1] = complete(file, length, 0);
    got[2] = query(file, length, 0, 0, 4294967295u, L);
    same &= untouched(&a) && untouched(&b) && untouched(&c) && untouched(&d);
    got[3] = query(file, length, rtt_role(0, 1), 6, 15, L);
    same &= untouched(&a) && untouched(&b) && untouched(&c) && untouched(&d);
    got[4] = query(file, length, rtt_role(0, 1), 6, 15, RTT_ENTRIES + 1);
    same &= untouched(&a) && untouched(&b) && untouched(&c) && untouched(&d);
    got[5] = check(file, length, 0, 0, 4294967295u, 0);
    got[6] = check(file, length, rtt_role(0, 1), 6, 15, 3);
    got[7] = ends(file, length, RTT_ENDS_BYTES);
    same &= untouched(&a);
    got[8] = ends(file, length, RTT_ENDS_BYTES - 1);
    same &= untouched(&a);
    got[9] = intervals(file, length, UINT64_MAX, 0);
    got[10] = intervals(file, length, 14, RTT_BOUNDS_BYTES);
    same &= untouched(&a);
    for (int i = 0; i < 11; i++)
        expect(line, got[i] == reply, "each call refuses the file or the withdrawal list");
    expect(line, same, "a refusal leaves the lists as they were");
    expect(line, may_release(file, length, rtt_role(0, 1), 6, 15) == 0, "what is refused releases nothing");
}

/* All calls that read a file refuse it so. 8 is given after 20 and 21, which a wrong withdrawal list gets, every other number before. */
static void refused_by_all(int line, const uint8_t *file, size_t length, uint64_t reply)
{
    int last = rtt_number(reply) == 8;
    refused_with_list(line, file, length, reply);
    lend(NULL, 0);
    refused_with_list(line, file, length, last ? refusal(20, 0) : reply);
    withdraw_one(0, 15);
    refused_with_list(line, file, length, last ? refusal(21, 0) : reply);
    lend_none();
    expect(line, back(file, length, rtt_back_length(length)) == reply && untouched(&a), "going back refuses the file");
    expect(line, back(file, length, 7) == reply && untouched(&a), "whatever list it is lent");
}

/* P with one byte changed. */
static void changed(int line, size_t place, uint8_t byte, uint64_t reply)
{
    uint8_t file[sizeof P];
    memcpy(file, P, sizeof P);
    file[place] = byte;
    refused_by_all(line, file, sizeof file, reply);
}

/* P's statements begin at bytes 6, 18 and 30, their serials at 14, 26 and 38, its periods at 42, 50 and 58. */
static void refused_files(void)
{
    refused_by_all(__LINE__, NULL, 0, refusal(1, 0));
    refused_by_all(__LINE__, P, 5, refusal(1, 0));
    refused_by_all(__LINE__, P, 6, refusal(3, 0));
    refused_by_all(__LINE__, P, sizeof P - 1, refusal(3, 0));
    changed(__LINE__, 0, 0, refusal(2, 0));
    changed(__LINE__, 0, 33, refusal(2, 0));
    changed(__LINE__, 2, 0, refusal(2, 0));
    changed(__LINE__, 3, 1, refusal(2, 0));
    changed(__LINE__, 5, 1, refusal(2, 0));
    changed(__LINE__, 4, 4, refusal(3, 0));
    changed(__LINE__, 18, 6, refusal(4, 1));
    changed(__LINE__, 7, 3, refusal(5, 0));
    changed(__LINE__, 9, 3, refusal(5, 0));
    changed(__LINE__, 32, 2, refusal(5, 2));
    changed(__LINE__, 11, 1, refusal(6, 0));
    changed(__LINE__, 37, 1, refusal(6, 2));
    changed(__LINE__, 42, 21, refusal(7, 0));
    changed(__LINE__, 54, 14, refusal(7, 1));
    changed(__LINE__, 14, 0, refusal(17, 0));
    changed(__LINE__, 26, 0, refusal(17, 1));
    changed(__LINE__, 38, 0, refusal(17, 2));
    changed(__LINE__, 26, 1, refusal(17, 1));
    changed(__LINE__, 38, 1, refusal(17, 2));
    changed(__LINE__, 38, 2, refusal(17, 2));
    changed(__LINE__, 14, 3, refusal(17, 2));
    changed(__LINE__, 14, 2, refusal(17, 1));
}

/* P with the serials x, y and z. */
static const uint8_t *with_serials(uint32_t x, uint32_t y, uint32_t z)
{
    static uint8_t file[sizeof P];
    memcpy(file, P, sizeof P);
    for (int i = 0; i < 4; i++) {
        file[14 + i] = (uint8_t)(x >> (8 * i));
        file[26 + i] = (uint8_t)(y >> (8 * i));
        file[38 + i] = (uint8_t)(z >> (8 * i));
    }
    return file;
}

/* Any serials that are not zero and not the same give P's replies, and the proof cites positions. */
static void reads_as_p(int line, const uint8_t *file)
{
    expect(line, complete(file, sizeof P, L) == 3, "three memberships");
    expect(line, query(file, sizeof P, rtt_role(0, 1), 6, 15, L) == 3 + 2 * 65536 && is_k1(4 * L), "K1's proof");
    expect(line, check(file, sizeof P, rtt_role(0, 1), 6, 15, 3) == 2, "its check");
    expect(line, ends(file, sizeof P, RTT_ENDS_BYTES) == 6, "six ends");
    expect(line, intervals(file, sizeof P, 14, RTT_BOUNDS_BYTES) == 1, "one interval");
    expect(line, may_release(file, sizeof P, rtt_role(0, 1), 6, 15) == 1, "release");
    bounded(line, file, sizeof P);
}

static void serials(void)
{
    uint8_t file[sizeof P];
    reads_as_p(__LINE__, with_serials(3, 2, 1));
    reads_as_p(__LINE__, with_serials(2, 4294967295u, 1));
    reads_as_p(__LINE__, with_serials(65536, 1, 65537));
    reads_as_p(__LINE__, with_serials(16777216, 256, 2147483648u));
    refused_by_all(__LINE__, with_serials(4294967295u, 7, 4294967295u), sizeof P, refusal(17, 2));
    refused_by_all(__LINE__, with_serials(9, 8, 8), sizeof P, refusal(17, 2));
    refused_by_all(__LINE__, with_serials(0, 0, 0), sizeof P, refusal(17, 0));
    refused_by_all(__LINE__, with_serials(5, 5, 0), sizeof P, refusal(17, 1));
    /* 17 of credential 1 before 4 of credential 2; 7 of credential 1 before its 17; 4 of credential 1 before 17 of credential 2. */
    memcpy(file, with_serials(5, 5, 6), sizeof P);
    file[30] = 6;
    refused_by_all(__LINE__, file, sizeof P, refusal(17, 1));
    memcpy(file, with_serials(5, 5, 6), sizeof P);
    file[54] = 14;
    refused_by_all(__LINE__, file, sizeof P, refusal(7, 1));
    memcpy(file, with_serials(5, 6, 5), sizeof P);
    file[18] = 6;
    refused_by_all(__LINE__, file, sizeof P, refusal(4, 1));
}

/* 0.0 <- 0 in one period. */
static const uint8_t *in_period(uint32_t from, uint32_t to)
{
    static uint8_t file[26] = {1, 0, 1, 0, 1, 0, 0, 0, 0, 0, 0, 0, 0, 0, 1};
    for (int i = 0; i < 4; i++) {
        file[18 + i] = (uint8_t)(from >> (8 * i));
        file[22 + i] = (uint8_t)(to >> (8 * i));
    }
    return file;
}

/* The period's minutes are the membership's, which an interval gives half-open; the minutes beside them are not. */
static void covers(int line, uint32_t from, uint32_t to)
{
    const uint8_t *file = in_period(from, to);
    const uint32_t bounds[] = {from, to + 1};
    expect(line, complete(file, 26, 1) == 1 && rtt_entry64(c.bytes, 0) == 1, "one membership in one span");
    expect(line, ends(file, 26, RTT_ENDS_BYTES) == 2 && has(&a, RTT_ENDS_BYTES, 2, bounds), "from and to + 1 are the ends");
    expect(line, intervals(file, 26, 1, RTT_BOUNDS_BYTES) == 1 && has(&a, RTT_BOUNDS_BYTES, 2, bounds), "one interval");
    expect(line, query(file, 26, 0, 1, from, 1) == 1 + 1 * 65536, "from is covered");
    expect(line, query(file, 26, 0, 1, to, 1) == 1 + 1 * 65536, "to is covered");
    expect(line, from == 0 || query(file, 26, 0, 1, from - 1, 1) == refusal(13, 0), "the minute before is not");
    expect(line, query(file, 26, 0, 1, to + 1, 1) == refusal(to == 4294967294u ? 12 : 13, 0), "nor is the one after");
    expect(line, may_release(file, 26, 0, 1, to) == 1 && may_release(file, 26, 0, 1, to + 1) == 0, "release up to the last minute");
    bounded(line, file, 26);
}

static void periods(void)
{
    covers(__LINE__, 10, 20);
    covers(__LINE__, 9, 9);
    covers(__LINE__, 0, 0);
    covers(__LINE__, 0, 4294967294u);
    covers(__LINE__, 4294967294u, 4294967294u);
    refused_by_all(__LINE__, in_period(9, 8), 26, refusal(7, 0));
    refused_by_all(__LINE__, in_period(4294967294u, 0), 26, refusal(7, 0));
    refused_by_all(__LINE__, in_period(4294967295u, 4294967294u), 26, refusal(7, 0));
    refused_by_all(__LINE__, in_period(0, 4294967295u), 26, refusal(7, 0));
    refused_by_all(__LINE__, in_period(4294967295u, 4294967295u), 26, refusal(7, 0));
}

/* 0.0 <- 0 in periods of one minute each, 0, 2, 4 and so on: two ends each, so that 32 are accepted and 33 refused. */
static void too_many_ends(void)
{
    uint8_t file[6 + 20 * 33];
    for (uint8_t n = 32; n <= 33; n++) {
        const uint8_t sizes[] = {1, 0, 1, 0, n, 0};
        memset(file, 0, sizeof file);
        memcpy(file, sizes, sizeof sizes);
        for (uint8_t i = 0; i < n; i++) {
            file[6 + 12 * i + 8] = (uint8_t)(i + 1);
            file[6 + 12 * n + 8 * i] = file[6 + 12 * n + 8 * i + 4] = (uint8_t)(2 * i);
        }
        if (n == 32) {
            EXPECT(ends(file, 6 + 20 * 32, RTT_ENDS_BYTES) == 64);
            bounded(__LINE__, file, 6 + 20 * 32);
        } else {
            refused_by_all(__LINE__, file, sizeof file, refusal(8, 0));
        }
        file[6 + 12 * 31 + 8] = 1;
        refused_by_all(__LINE__, file, 6 + 20 * (size_t)n, refusal(17, 31));
    }
}

/* The list has these bytes and no more. */
static int is(const list *l, const uint8_t *bytes, size_t length)
{
    return around(l, length) && memcmp(l->bytes, bytes, length) == 0;
}

/* Set P as document 01 first had it: without serials, and each period ends before `to`. Its statements begin at bytes 6, 14 and 22, its periods at 30, 38
   and 46. */
static const uint8_t OLD[54] = {
    0x03, 0x00, 0x02, 0x00, 0x03, 0x00,
    0x00, 0x00, 0x00, 0x01, 0x00, 0x00, 0x00, 0x00,
    0x00, 0x00, 0x00, 0x02, 0x00, 0x00, 0x00, 0x00,
    0x05, 0x00, 0x01, 0x00, 0x00, 0x00, 0x00, 0x00,
    0x0a, 0x00, 0x00, 0x00, 0x15, 0x00, 0x00, 0x00,
    0x0f, 0x00, 0x00, 0x00, 0x1f, 0x00, 0x00, 0x00,
    0x00, 0x00, 0x00, 0x00, 0x13, 0x00, 0x00, 0x00,
};

static void lengths(void)
{
    EXPECT(rtt_forward_length(6) == 6 && rtt_forward_length(22) == 26 && rtt_forward_length(sizeof OLD) == sizeof P);
    EXPECT(rtt_forward_length(RTT_OLD_FILE_BYTES) == RTT_FILE_BYTES && rtt_back_length(RTT_FILE_BYTES) == RTT_OLD_FILE_BYTES);
    EXPECT(rtt_back_length(6) == 6 && rtt_back_length(26) == 22 && rtt_back_length(sizeof P) == sizeof OLD);
    EXPECT(rtt_forward_length(0) == 0 && rtt_forward_length(5) == 0 && rtt_back_length(0) == 0 && rtt_back_length(5) == 0);
    size_t n = 0;
    while (n < 6000 && rtt_forward_length(n) <= RTT_FILE_BYTES && rtt_back_length(n) <= RTT_OLD_FILE_BYTES)
        n++;
    EXPECT(n == 6000);
    EXPECT(rtt_forward_length(SIZE_MAX) == RTT_FILE_BYTES && rtt_back_length(SIZE_MAX) == RTT_OLD_FILE_BYTES);
}

/* An old file is refused so, whatever list is lent, and the list is as it was. */
static void old_refused(int line, const uint8_t *old, size_t length, uint64_t reply)
{
    static const size_t bytes[] = {0, 6, sizeof OLD, sizeof P, sizeof P + 1, RTT_FILE_BYTES};
    for (size_t i = 0; i < sizeof bytes / sizeof *bytes; i++)
        expect(line, forward(old, length, bytes[i]) == reply && untouched(&a), "going forward refuses the old file and writes nothing");
    expect(line, forward(old, length, rtt_forward_length(length)) == reply && untouched(&a), "nor into a list of the right length");
}

/* OLD with one byte changed. */
static void old_changed(int line, size_t place, uint8_t byte, uint64_t reply)
{
    uint8_t old[sizeof OLD];
    memcpy(old, OLD, sizeof OLD);
    old[place] = byte;
    old_refused(line, old, sizeof old, reply);
}

static void going_forward(void)
{
    static const uint8_t empty[] = {1, 0, 1, 0, 0, 0};
    EXPECT(forward(OLD, sizeof OLD, sizeof P) == 3 && is(&a, P, sizeof P));
    EXPECT(forward(empty, 6, 6) == 0 && is(&a, empty, 6));
    EXPECT(forward(empty, 6, 7) == refusal(18, 0) && untouched(&a));
    EXPECT(rtt_forward(empty, 6, NULL, 0) == refusal(18, 0));
    size_t n = 0;
    while (n < 200 && (n == sizeof P || (forward(OLD, sizeof OLD, n) == refusal(18, 0) && untouched(&a))))
        n++;
    EXPECT(n == 200);
    old_refused(__LINE__, NULL, 0, refusal(1, 0));
    old_refused(__LINE__, OLD, 5, refusal(1, 0));
    old_refused(__LINE__, OLD, 6, refusal(3, 0));
    old_refused(__LINE__, OLD, sizeof OLD - 1, refusal(3, 0));
    old_refused(__LINE__, P, sizeof P, refusal(3, 0));
    old_changed(__LINE__, 0, 0, refusal(2, 0));
    old_changed(__LINE__, 2, 33, refusal(2, 0));
    old_changed(__LINE__, 5, 1, refusal(2, 0));
    old_changed(__LINE__, 4, 2, refusal(3, 0));
    old_changed(__LINE__, 14, 6, refusal(4, 1));
    old_changed(__LINE__, 7, 3, refusal(5, 0));
    old_changed(__LINE__, 24, 2, refusal(5, 2));
    old_changed(__LINE__, 10, 1, refusal(6, 0));
    old_changed(__LINE__, 29, 1, refusal(6, 2));
    /* from = to has no minute, and so has to = 0. */
    old_changed(__LINE__, 34, 10, refusal(7, 0));
    old_changed(__LINE__, 42, 14, refusal(7, 1));
    old_changed(__LINE__, 50, 0, refusal(7, 2));
}

/* 0.0 <- 0 in one old period, brought forward: the minutes from `from` up to the one before `to`. */
static void old_period(int line, uint32_t from, uint32_t to)
{
    uint8_t old[22] = {1, 0, 1, 0, 1, 0};
    for (int i = 0; i < 4; i++) {
        old[14 + i] = (uint8_t)(from >> (8 * i));
        old[18 + i] = (uint8_t)(to >> (8 * i));
    }
    if (from >= to) {
        old_refused(line, old, sizeof old, refusal(7, 0));
        return;
    }
    expect(line, forward(old, sizeof old, 26) == 1 && is(&a, in_period(from, to - 1), 26), "`to` is lowered by one");
    expect(line, back(in_period(from, to - 1), 26, 22) == 1 && is(&a, old, sizeof old), "and raised again");
}

static void old_periods(void)
{
    static const uint32_t minutes[] = {0, 1, 2, 255, 256, 65535, 65536, 16777216, 2147483648u, 4294967294u, 4294967295u};
    for (size_t i = 0; i < sizeof minutes / sizeof *minutes; i++)
        for (size_t k = 0; k < sizeof minutes / sizeof *minutes; k++)
            old_period(__LINE__, minutes[i], minutes[k]);
}

static void going_back(void)
{
    static const uint8_t empty[] = {1, 0, 1, 0, 0, 0};
    EXPECT(back(P, sizeof P, sizeof OLD) == 3 && is(&a, OLD, sizeof OLD));
    EXPECT(back(empty, 6, 6) == 0 && is(&a, empty, 6));
    EXPECT(back(empty, 6, 5) == refusal(18, 0) && untouched(&a));
    EXPECT(rtt_back(empty, 6, NULL, 0) == refusal(18, 0));
    size_t n = 0;
    while (n < 200 && (n == sizeof OLD || (back(P, sizeof P, n) == refusal(18, 0) && untouched(&a))))
        n++;
    EXPECT(n == 200);
    EXPECT(back(OLD, sizeof OLD, sizeof OLD) == refusal(3, 0) && untouched(&a));
    EXPECT(back(with_serials(3, 2, 1), sizeof P, sizeof OLD) == refusal(19, 0) && untouched(&a));
    EXPECT(back(with_serials(1, 3, 2), sizeof P, sizeof OLD) == refusal(19, 1) && untouched(&a));
    EXPECT(back(with_serials(1, 2, 4), sizeof P, sizeof OLD) == refusal(19, 2) && untouched(&a));
    EXPECT(back(with_serials(257, 2, 3), sizeof P, sizeof OLD) == refusal(19, 0) && untouched(&a));
    EXPECT(back(with_serials(1, 2, 16777219), sizeof P, sizeof OLD) == refusal(19, 2) && untouched(&a));
    /* 18 before 19, 17 before both. */
    EXPECT(back(with_serials(1, 3, 2), sizeof P, sizeof OLD + 1) == refusal(18, 0) && untouched(&a));
    EXPECT(back(with_serials(3, 2, 3), sizeof P, sizeof OLD) == refusal(17, 2) && untouched(&a));
}

/* 256 credentials 0.0 <- 0 in periods of one minute, forward and back. With 32 minutes there are 64 ends; with 33 there are 66, and 8 is given before 18. */
static void largest(void)
{
    static uint8_t old[RTT_OLD_FILE_BYTES], file[RTT_FILE_BYTES];
    for (unsigned minutes = 32; minutes <= 33; minutes++) {
        static const uint8_t sizes[] = {1, 0, 1, 0, 0, 1};
        memset(old, 0, sizeof old);
        memset(file, 0, sizeof file);
        memcpy(old, sizes, sizeof sizes);
        memcpy(file, sizes, sizeof sizes);
        for (unsigned i = 0; i < 256; i++) {
            file[6 + 12 * i + 8] = (uint8_t)(i + 1);
            file[6 + 12 * i + 9] = i == 255;
            file[6 + 12 * 256 + 8 * i] = file[6 + 12 * 256 + 8 * i + 4] = (uint8_t)(2 * (i % minutes));
            old[6 + 8 * 256 + 8 * i] = (uint8_t)(2 * (i % minutes));
            old[6 + 8 * 256 + 8 * i + 4] = (uint8_t)(2 * (i % minutes) + 1);
        }
        if (minutes == 32) {
            EXPECT(forward(old, sizeof old, sizeof file) == 256 && is(&a, file, sizeof file));
            EXPECT(back(file, sizeof file, sizeof old) == 256 && is(&a, old, sizeof old));
            bounded(__LINE__, file, sizeof file);
        } else {
            old_refused(__LINE__, old, sizeof old, refusal(8, 0));
            refused_by_all(__LINE__, file, sizeof file, refusal(8, 0));
        }
    }
}

/* P with a withdrawal list, and what is then so, worked out by hand: of each credential the first minute that it covers and the one after the last, 0 and 0
   if it covers none; the ends; of each membership role, set, spans, and first minute and the one after the last. */
typedef struct {
    int line;
    uint32_t count, pairs[6];
    uint32_t covered[3][2];
    uint32_t ends, in_ends[6];
    uint32_t members, in_members[3][5];
} cut;

static const cut cuts[] = {
    /* Serial 1, the period 10..20: at 10 or before nothing is left of it, at 20 it loses its last minute, from 21 on it stays. */
    {__LINE__, 1, {1, 0}, {{0, 0}, {15, 31}, {0, 19}}, 4, {0, 15, 19, 31}, 1, {{0, 4, 6, 15, 31}}},
    {__LINE__, 1, {1, 9}, {{0, 0}, {15, 31}, {0, 19}}, 4, {0, 15, 19, 31}, 1, {{0, 4, 6, 15, 31}}},
    {__LINE__, 1, {1, 10}, {{0, 0}, {15, 31}, {0, 19}}, 4, {0, 15, 19, 31}, 1, {{0, 4, 6, 15, 31}}},
    {__LINE__, 1, {1, 11}, {{10, 11}, {15, 31}, {0, 19}}, 6, {0, 10, 11, 15, 19, 31}, 2, {{0, 2, 2, 10, 11}, {0, 4, 24, 15, 31}}},
    {__LINE__, 1, {1, 15}, {{10, 15}, {15, 31}, {0, 19}}, 5, {0, 10, 15, 19, 31}, 2, {{0, 2, 2, 10, 15}, {0, 4, 12, 15, 31}}},
    {__LINE__, 1, {1, 16}, {{10, 16}, {15, 31}, {0, 19}}, 6, {0, 10, 15, 16, 19, 31}, 3, {{0, 2, 6, 10, 16}, {0, 4, 28, 15, 31}, {1, 6, 4, 15, 16}}},
    {__LINE__, 1, {1, 18}, {{10, 18}, {15, 31}, {0, 19}}, 6, {0, 10, 15, 18, 19, 31}, 3, {{0, 2, 6, 10, 18}, {0, 4, 28, 15, 31}, {1, 6, 4, 15, 18}}},
    {__LINE__, 1, {1, 19}, {{10, 19}, {15, 31}, {0, 19}}, 5, {0, 10, 15, 19, 31}, 3, {{0, 2, 6, 10, 19}, {0, 4, 12, 15, 31}, {1, 6, 4, 15, 19}}},
    {__LINE__, 1, {1, 20}, {{10, 20}, {15, 31}, {0, 19}}, 6, {0, 10, 15, 19, 20, 31}, 3, {{0, 2, 14, 10, 20}, {0, 4, 28, 15, 31}, {1, 6, 4, 15, 19}}},
    {__LINE__, 1, {1, 21}, {{10, 21}, {15, 31}, {0, 19}}, 6, {0, 10, 15, 19, 21, 31}, 3, {{0, 2, 14, 10, 21}, {0, 4, 28, 15, 31}, {1, 6, 4, 15, 19}}},
    {__LINE__, 1, {1, 22}, {{10, 21}, {15, 31}, {0, 19}}, 6, {0, 10, 15, 19, 21, 31}, 3, {{0, 2, 14, 10, 21}, {0, 4, 28, 15, 31}, {1, 6, 4, 15, 19}}},
    {__LINE__, 1, {1, 4294967294u}, {{10, 21}, {15, 31}, {0, 19}}, 6, {0, 10, 15, 19, 21, 31}, 3, {{0, 2, 14, 10, 21}, {0, 4, 28, 15, 31}, {1, 6, 4, 15, 19}}},
    {__LINE__, 1, {1, 4294967295u}, {{10, 21}, {15, 31}, {0, 19}}, 6, {0, 10, 15, 19, 21, 31}, 3, {{0, 2, 14, 10, 21}, {0, 4, 28, 15, 31}, {1, 6, 4, 15, 19}}},
    /* Serial 2, the period 15..30. */
    {__LINE__, 1, {2, 0}, {{10, 21}, {0, 0}, {0, 19}}, 4, {0, 10, 19, 21}, 1, {{0, 2, 6, 10, 21}}},
    {__LINE__, 1, {2, 14}, {{10, 21}, {0, 0}, {0, 19}}, 4, {0, 10, 19, 21}, 1, {{0, 2, 6, 10, 21}}},
    {__LINE__, 1, {2, 15}, {{10, 21}, {0, 0}, {0, 19}}, 4, {0, 10, 19, 21}, 1, {{0, 2, 6, 10, 21}}},
    {__LINE__, 1, {2, 16}, {{10, 21}, {15, 16}, {0, 19}}, 6, {0, 10, 15, 16, 19, 21}, 3, {{0, 2, 30, 10, 21}, {0, 4, 4, 15, 16}, {1, 6, 4, 15, 16}}},
    {__LINE__, 1, {2, 19}, {{10, 21}, {15, 19}, {0, 19}}, 5, {0, 10, 15, 19, 21}, 3, {{0, 2, 14, 10, 21}, {0, 4, 4, 15, 19}, {1, 6, 4, 15, 19}}},
    {__LINE__, 1, {2, 20}, {{10, 21}, {15, 20}, {0, 19}}, 6, {0, 10, 15, 19, 20, 21}, 3, {{0, 2, 30, 10, 21}, {0, 4, 12, 15, 20}, {1, 6, 4, 15, 19}}},
    {__LINE__, 1, {2, 21}, {{10, 21}, {15, 21}, {0, 19}}, 5, {0, 10, 15, 19, 21}, 3, {{0, 2, 14, 10, 21}, {0, 4, 12, 15, 21}, {1, 6, 4, 15, 19}}},
    {__LINE__, 1, {2, 30}, {{10, 21}, {15, 30}, {0, 19}}, 6, {0, 10, 15, 19, 21, 30}, 3, {{0, 2, 14, 10, 21}, {0, 4, 28, 15, 30}, {1, 6, 4, 15, 19}}},
    {__LINE__, 1, {2, 31}, {{10, 21}, {15, 31}, {0, 19}}, 6, {0, 10, 15, 19, 21, 31}, 3, {{0, 2, 14, 10, 21}, {0, 4, 28, 15, 31}, {1, 6, 4, 15, 19}}},
    {__LINE__, 1, {2, 4294967295u}, {{10, 21}, {15, 31}, {0, 19}}, 6, {0, 10, 15, 19, 21, 31}, 3, {{0, 2, 14, 10, 21}, {0, 4, 28, 15, 31}, {1, 6, 4, 15, 19}}},
    /* Serial 3, the period 0..18: at 0 nothing is left of it, at 1 its first minute. */
    {__LINE__, 1, {3, 0}, {{10, 21}, {15, 31}, {0, 0}}, 4, {10, 15, 21, 31}, 2, {{0, 2, 3, 10, 21}, {0, 4, 6, 15, 31}}},
    {__LINE__, 1, {3, 1}, {{10, 21}, {15, 31}, {0, 1}}, 6, {0, 1, 10, 15, 21, 31}, 2, {{0, 2, 12, 10, 21}, {0, 4, 24, 15, 31}}},
    {__LINE__, 1, {3, 15}, {{10, 21}, {15, 31}, {0, 15}}, 5, {0, 10, 15, 21, 31}, 2, {{0, 2, 6, 10, 21}, {0, 4, 12, 15, 31}}},
    {__LINE__, 1, {3, 16}, {{10, 21}, {15, 31}, {0, 16}}, 6, {0, 10, 15, 16, 21, 31}, 3, {{0, 2, 14, 10, 21}, {0, 4, 28, 15, 31}, {1, 6, 4, 15, 16}}},
    {__LINE__, 1, {3, 18}, {{10, 21}, {15, 31}, {0, 18}}, 6, {0, 10, 15, 18, 21, 31}, 3, {{0, 2, 14, 10, 21}, {0, 4, 28, 15, 31}, {1, 6, 4, 15, 18}}},
    {__LINE__, 1, {3, 19}, {{10, 21}, {15, 31}, {0, 19}}, 6, {0, 10, 15, 19, 21, 31}, 3, {{0, 2, 14, 10, 21}, {0, 4, 28, 15, 31}, {1, 6, 4, 15, 19}}},
    {__LINE__, 1, {3, 4294967295u}, {{10, 21}, {15, 31}, {0, 19}}, 6, {0, 10, 15, 19, 21, 31}, 3, {{0, 2, 14, 10, 21}, {0, 4, 28, 15, 31}, {1, 6, 4, 15, 19}}},
    /* Two of them. In the second list pairs in place of serials and minutes would be 1 at 2 and 3 at 16, which is also a list of P. */
    {__LINE__, 2, {2, 20, 1, 16}, {{10, 16}, {15, 20}, {0, 19}}, 6, {0, 10, 15, 16, 19, 20}, 3, {{0, 2, 6, 10, 16}, {0, 4, 28, 15, 20}, {1, 6, 4, 15, 16}}},
    {__LINE__, 2, {1, 3, 2, 16}, {{0, 0}, {15, 16}, {0, 19}}, 4, {0, 15, 16, 19}, 1, {{0, 4, 2, 15, 16}}},
    {__LINE__, 2, {1, 19, 2, 19}, {{10, 19}, {15, 19}, {0, 19}}, 4, {0, 10, 15, 19}, 3, {{0, 2, 6, 10, 19}, {0, 4, 4, 15, 19}, {1, 6, 4, 15, 19}}},
    {__LINE__, 2, {1, 10, 2, 15}, {{0, 0}, {0, 0}, {0, 19}}, 2, {0, 19}, 0, {{0}}},
    {__LINE__, 2, {3, 0, 1, 10}, {{0, 0}, {15, 31}, {0, 0}}, 2, {15, 31}, 1, {{0, 4, 1, 15, 31}}},
    /* All three: where each loses its last minute, document 01's first table is left; then its first minute alone, nothing, nothing, and everything. */
    {__LINE__, 3, {3, 18, 1, 20, 2, 30}, {{10, 20}, {15, 30}, {0, 18}}, 6, {0, 10, 15, 18, 20, 30}, 3, {{0, 2, 14, 10, 20}, {0, 4, 28, 15, 30}, {1, 6, 4, 15, 18}}},
    {__LINE__, 3, {1, 11, 2, 16, 3, 1}, {{10, 11}, {15, 16}, {0, 1}}, 6, {0, 1, 10, 11, 15, 16}, 2, {{0, 2, 4, 10, 11}, {0, 4, 16, 15, 16}}},
    {__LINE__, 3, {3, 0, 2, 15, 1, 10}, {{0, 0}, {0, 0}, {0, 0}}, 0, {0}, 0, {{0}}},
    {__LINE__, 3, {1, 0, 2, 0, 3, 0}, {{0, 0}, {0, 0}, {0, 0}}, 0, {0}, 0, {{0}}},
    {__LINE__, 3, {2, 31, 3, 19, 1, 21}, {{10, 21}, {15, 31}, {0, 19}}, 6, {0, 10, 15, 19, 21, 31}, 3, {{0, 2, 14, 10, 21}, {0, 4, 28, 15, 31}, {1, 6, 4, 15, 19}}},
};

static int within(const uint32_t *bounds, uint32_t minute)
{
    return bounds[0] <= minute && minute < bounds[1];
}

/* The minutes of a membership, NULL where there is none. */
static const uint32_t *minutes_of(const cut *k, uint32_t role, uint32_t set)
{
    for (uint32_t i = 0; i < k->members; i++)
        if (k->in_members[i][0] == role && k->in_members[i][1] == set)
            return k->in_members[i] + 3;
    return NULL;
}

static void cut_table(const cut *k)
{
    uint32_t in_roles[3], in_sets[3], in_spans[6];
    for (uint32_t i = 0; i < k->members; i++) {
        in_roles[i] = k->in_members[i][0];
        in_sets[i] = k->in_members[i][1];
        in_spans[2 * i] = k->in_members[i][2];
        in_spans[2 * i + 1] = 0;
    }
    expect(k->line, complete(P, sizeof P, L) == k->members, "the count of memberships");
    expect(k->line, has(&a, 4 * L, k->members, in_roles) && has(&b, 4 * L, k->members, in_sets) && has(&c, 8 * L, 2 * k->members, in_spans), "the table");
    expect(k->line, k->members == 0 || complete(P, sizeof P, k->members) == k->members, "it fits as many entries");
    expect(k->line, k->members < 2 || (complete(P, sizeof P, k->members - 1) == refusal(10, 0) && zero(&a, 4 * k->members - 4)), "and not one less");
}

static void cut_ends(const cut *k)
{
    uint64_t beyond = (uint64_t)1 << (k->ends == 0 ? 0 : k->ends - 1);
    const uint32_t whole[] = {k->in_ends[0], k->ends == 0 ? 0 : k->in_ends[k->ends - 1]};
    expect(k->line, ends(P, sizeof P, RTT_ENDS_BYTES) == k->ends && has(&a, RTT_ENDS_BYTES, k->ends, k->in_ends), "the ends");
    for (uint32_t i = 0; i < k->members; i++)
        expect(k->line, intervals(P, sizeof P, k->in_members[i][2], RTT_BOUNDS_BYTES) == 1 && has(&a, RTT_BOUNDS_BYTES, 2, k->in_members[i] + 3),
               "the membership's interval");
    expect(k->line, intervals(P, sizeof P, beyond - 1, RTT_BOUNDS_BYTES) == (k->ends > 0), "all spans are one interval");
    expect(k->line, has(&a, RTT_BOUNDS_BYTES, k->ends > 0 ? 2 : 0, whole), "from the first end to the last");
    expect(k->line, intervals(P, sizeof P, beyond, RTT_BOUNDS_BYTES) == refusal(11, 0) && untouched(&a), "there is no further span");
}

/* A proof is handed out in the membership's minutes and in no others, and checked with the same withdrawal list. */
static int cut_query(const cut *k, uint32_t role, uint32_t set, uint32_t minute)
{
    const uint32_t *minutes = minutes_of(k, role, set), by[] = {set == 2 ? 0u : 1u}, none[] = {0}, result[] = {set};
    uint64_t got = query(P, sizeof P, role, set, minute, L);
    if (minutes == NULL || !within(minutes, minute))
        return got == refusal(13, 0) && zero(&a, 4 * L) && zero(&b, 4 * L) && zero(&c, 4 * L) && zero(&d, 4 * L)
               && may_release(P, sizeof P, role, set, minute) == 0;
    if (role == 1)
        return got == 3 + 2 * 65536 && is_k1(4 * L) && check_left(P, sizeof P, role, set, minute, L, 3) == 2
               && may_release(P, sizeof P, role, set, minute) == 1;
    return got == 1 + 1 * 65536 && has(&a, 4 * L, 1, by) && has(&b, 4 * L, 1, none) && has(&c, 4 * L, 1, none) && has(&d, 4 * L, 1, result)
           && check_left(P, sizeof P, role, set, minute, L, 1) == 1 && may_release(P, sizeof P, role, set, minute) == 1;
}

/* K1's proof has level 2 where all three credentials cover the minute; else the first that does not is used by the first wrong step. */
static int cut_check(const cut *k, uint32_t minute)
{
    uint64_t step = 0;
    while (step < 3 && within(k->covered[step], minute))
        step++;
    return check(P, sizeof P, rtt_role(0, 1), 6, minute, 3) == (step == 3 ? 2 : refusal(15, step));
}

/* All minutes up to one beyond every period, and the last of all. */
static void cut_minutes(const cut *k)
{
    int ones = 1, twos = 1, both = 1, checked = 1;
    for (uint32_t i = 0; i <= 33; i++) {
        uint32_t minute = i < 33 ? i : 4294967294u;
        ones &= cut_query(k, 0, 2, minute);
        twos &= cut_query(k, 0, 4, minute);
        both &= cut_query(k, 1, 6, minute);
        checked &= cut_check(k, minute);
    }
    expect(k->line, ones, "0.0 {1} has proofs in its minutes and in no others");
    expect(k->line, twos, "0.0 {2} likewise");
    expect(k->line, both, "0.1 {1,2} likewise");
    expect(k->line, checked, "K1's proof passes at the minutes that its credentials cover");
}

static void cutting(void)
{
    for (size_t i = 0; i < sizeof cuts / sizeof *cuts; i++) {
        const cut *k = cuts + i;
        uint8_t kept[26];
        withdraw(k->count, k->pairs);
        memcpy(kept, withdrawals, withdrawals_length);
        cut_table(k);
        cut_ends(k);
        cut_minutes(k);
        bounded(k->line, P, sizeof P);
        expect(k->line, back(P, sizeof P, sizeof OLD) == 3 && is(&a, OLD, sizeof OLD), "going back cuts nothing");
        expect(k->line, memcmp(kept, withdrawals, withdrawals_length) == 0, "the withdrawal list is as it was");
    }
    lend_none();
}

/* 0.0 <- 0 from `from` to `to`, withdrawn at w: `until` is the first minute after those that are left, and `from` where none are. */
static void left(int line, uint32_t from, uint32_t to, uint32_t w, uint32_t until)
{
    const uint8_t *file = in_period(from, to);
    const uint32_t bounds[] = {from, until};
    int any = until != from;
    withdraw_one(1, w);
    expect(line, ends(file, 26, RTT_ENDS_BYTES) == (any ? 2 : 0) && has(&a, RTT_ENDS_BYTES, any ? 2 : 0, bounds), "two ends, or none");
    expect(line, complete(file, 26, 1) == (any ? 1 : 0) && rtt_entry64(c.bytes, 0) == (any ? 1 : 0), "one span, or no membership");
    expect(line, intervals(file, 26, 1, RTT_BOUNDS_BYTES) == (any ? 1 : refusal(11, 0)), "one interval, or no span");
    expect(line, query(file, 26, 0, 1, from, 1) == (any ? 1 + 1 * 65536 : refusal(13, 0)), "the first minute");
    expect(line, !any || query(file, 26, 0, 1, until - 1, 1) == 1 + 1 * 65536, "the last minute");
    expect(line, query(file, 26, 0, 1, until, 1) == refusal(until == 4294967295u ? 12 : 13, 0), "the minute after");
    expect(line, query(file, 26, 0, 1, to, 1) == (until > to ? 1 + 1 * 65536 : refusal(13, 0)), "`to`");
    bounded(line, file, 26);
    lend_none();
}

static void cut_periods(void)
{
    left(__LINE__, 10, 20, 9, 10);
    left(__LINE__, 10, 20, 10, 10);
    left(__LINE__, 10, 20, 11, 11);
    left(__LINE__, 10, 20, 20, 20);
    left(__LINE__, 10, 20, 21, 21);
    left(__LINE__, 10, 20, 22, 21);
    left(__LINE__, 10, 20, 0, 10);
    left(__LINE__, 10, 20, 4294967295u, 21);
    left(__LINE__, 9, 9, 8, 9);
    left(__LINE__, 9, 9, 9, 9);
    left(__LINE__, 9, 9, 10, 10);
    left(__LINE__, 9, 9, 4294967295u, 10);
    left(__LINE__, 0, 0, 0, 0);
    left(__LINE__, 0, 0, 1, 1);
    left(__LINE__, 0, 4294967294u, 0, 0);
    left(__LINE__, 0, 4294967294u, 1, 1);
    left(__LINE__, 0, 4294967294u, 2147483648u, 2147483648u);
    left(__LINE__, 0, 4294967294u, 4294967294u, 4294967294u);
    left(__LINE__, 0, 4294967294u, 4294967295u, 4294967295u);
    left(__LINE__, 4294967294u, 4294967294u, 0, 4294967294u);
    left(__LINE__, 4294967294u, 4294967294u, 4294967293u, 4294967294u);
    left(__LINE__, 4294967294u, 4294967294u, 4294967294u, 4294967294u);
    left(__LINE__, 4294967294u, 4294967294u, 4294967295u, 4294967295u);
    /* Every byte of a minute counts. */
    left(__LINE__, 255, 16777217, 256, 256);
    left(__LINE__, 255, 16777217, 65536, 65536);
    left(__LINE__, 255, 16777217, 16777216, 16777216);
    left(__LINE__, 255, 16777217, 255, 255);
}

/* The serials decide which period is cut, and not the positions: K1's proof at minute 16 fails at the step that uses the credential. */
static void cut_by_serial(int line, const uint8_t *file, uint32_t serial, size_t position)
{
    static const uint32_t in_ends[3][6] = {{0, 10, 15, 16, 19, 31}, {0, 10, 15, 16, 19, 21}, {0, 10, 15, 16, 21, 31}};
    withdraw_one(serial, 16);
    expect(line, ends(file, sizeof P, RTT_ENDS_BYTES) == 6 && has(&a, RTT_ENDS_BYTES, 6, in_ends[position]), "16 is an end");
    expect(line, check(file, sizeof P, rtt_role(0, 1), 6, 16, 3) == refusal(15, position), "a step uses the credential");
    expect(line, check(file, sizeof P, rtt_role(0, 1), 6, 15, 3) == 2, "a minute earlier it may");
    expect(line, query(file, sizeof P, rtt_role(0, 1), 6, 15, L) == 3 + 2 * 65536 && is_k1(4 * L), "the proof cites positions");
    expect(line, query(file, sizeof P, rtt_role(0, 1), 6, 16, L) == refusal(13, 0), "no proof");
    bounded(line, file, sizeof P);
    lend_none();
}

/* A withdrawal of this serial is refused with 21, whatever its minute. */
static void unknown_serial(int line, const uint8_t *file, size_t length, uint32_t serial)
{
    static const uint32_t minutes[] = {0, 15, 4294967295u};
    for (size_t i = 0; i < sizeof minutes / sizeof *minutes; i++) {
        withdraw_one(serial, minutes[i]);
        refused_with_list(line, file, length, refusal(21, 0));
    }
    lend_none();
}

static void withdrawn_serials(void)
{
    static const uint8_t nobody[] = {3, 0, 2, 0, 0, 0};
    for (uint32_t i = 0; i < 3; i++) {
        cut_by_serial(__LINE__, P, i + 1, i);
        cut_by_serial(__LINE__, with_serials(3, 2, 1), 3 - i, i);
        cut_by_serial(__LINE__, with_serials(9, 8, 7), 9 - i, i);
    }
    cut_by_serial(__LINE__, with_serials(2, 4294967295u, 1), 4294967295u, 1);
    cut_by_serial(__LINE__, with_serials(16777216, 256, 2147483648u), 16777216, 0);
    cut_by_serial(__LINE__, with_serials(16777216, 256, 2147483648u), 256, 1);
    cut_by_serial(__LINE__, with_serials(16777216, 256, 2147483648u), 2147483648u, 2);
    cut_by_serial(__LINE__, with_serials(65536, 1, 65537), 65537, 2);
    for (uint32_t i = 0; i < 4; i++)
        unknown_serial(__LINE__, with_serials(9, 8, 7), sizeof P, i);
    unknown_serial(__LINE__, P, sizeof P, 0);
    unknown_serial(__LINE__, P, sizeof P, 4);
    unknown_serial(__LINE__, P, sizeof P, 257);
    unknown_serial(__LINE__, P, sizeof P, 65537);
    unknown_serial(__LINE__, P, sizeof P, 16777217);
    unknown_serial(__LINE__, P, sizeof P, 4294967295u);
    unknown_serial(__LINE__, with_serials(16777216, 256, 2147483648u), sizeof P, 1);
    unknown_serial(__LINE__, nobody, sizeof nobody, 0);
    unknown_serial(__LINE__, nobody, sizeof nobody, 1);
}

/* Lists of P with a serial twice or on no credential, or both: serials and minutes in turn. */
static void refused_serials(void)
{
    static const struct {
        int line;
        uint32_t count, pairs[10];
    } lists[] = {
        {__LINE__, 2, {1, 15, 1, 15}},
        {__LINE__, 2, {1, 15, 1, 16}},
        {__LINE__, 2, {2, 4294967295u, 2, 4294967295u}},
        {__LINE__, 2, {3, 0, 3, 4294967295u}},
        {__LINE__, 3, {1, 15, 2, 15, 1, 15}},
        {__LINE__, 3, {1, 15, 2, 15, 2, 15}},
        {__LINE__, 3, {3, 15, 3, 15, 1, 15}},
        {__LINE__, 4, {1, 15, 2, 15, 3, 15, 1, 15}},
        {__LINE__, 4, {3, 15, 2, 15, 1, 15, 1, 15}},
        {__LINE__, 4, {1, 15, 2, 15, 3, 15, 4, 15}},
        {__LINE__, 5, {4, 15, 1, 15, 2, 15, 3, 15, 0, 15}},
        {__LINE__, 2, {1, 15, 0, 15}},
        {__LINE__, 2, {0, 15, 1, 15}},
        {__LINE__, 2, {1, 15, 4, 15}},
        {__LINE__, 2, {4, 15, 1, 15}},
        {__LINE__, 3, {1, 15, 4, 15, 2, 15}},
        {__LINE__, 2, {4, 15, 4, 15}},
        {__LINE__, 2, {0, 0, 0, 0}},
        {__LINE__, 1, {15, 1}},
        {__LINE__, 2, {16, 1, 20, 2}},
    };
    for (size_t i = 0; i < sizeof lists / sizeof *lists; i++) {
        withdraw(lists[i].count, lists[i].pairs);
        refused_with_list(lists[i].line, P, sizeof P, refusal(21, 0));
    }
    lend_none();
}

/* Counts with lengths that do not fit them, and counts above 256 with any length. The serials are 1, 2, 3 and so on. */
static void refused_lists(void)
{
    static const size_t wrong[][2] = {
        {0, 0}, {0, 1}, {1, 1}, {0, 3}, {0, 4}, {0, 10}, {1, 2}, {1, 6}, {1, 9}, {1, 11}, {1, 18}, {1, 2050}, {2, 10}, {2, 17}, {2, 19}, {3, 25}, {3, 27},
        {255, 2041}, {255, 2043}, {255, 2050}, {256, 2}, {256, 10}, {256, 2042}, {256, 2049}, {256, 2051}, {256, 2058}, {257, 2}, {257, 10}, {257, 2050},
        {257, 2057}, {257, 2058}, {257, 2059}, {258, 18}, {512, 2}, {512, 2050}, {512, 4098}, {32768, 262146}, {65535, 2}, {65535, 2042}, {65535, 2050},
        {65535, 524281}, {65535, 524282}, {65535, 524283},
    };
    static uint8_t bytes[2 + 8 * 65535 + 1];
    for (unsigned i = 0; i < 65535; i++) {
        bytes[2 + 4 * i] = (uint8_t)(i + 1);
        bytes[3 + 4 * i] = (uint8_t)((i + 1) >> 8);
    }
    for (size_t i = 0; i < sizeof wrong / sizeof *wrong; i++) {
        bytes[0] = (uint8_t)wrong[i][0];
        bytes[1] = (uint8_t)(wrong[i][0] >> 8);
        lend(bytes, wrong[i][1]);
        refused_with_list(__LINE__, P, sizeof P, refusal(20, 0));
    }
    lend(NULL, 0);
    refused_with_list(__LINE__, P, sizeof P, refusal(20, 0));
    /* 20 before 21: a serial twice, and serial 0, each in a list that is a byte too short or too long. */
    static uint8_t twice[19] = {2, 0, 1, 0, 0, 0, 1}, none[11] = {1};
    for (size_t length = 17; length <= 19; length++) {
        lend(twice, length);
        refused_with_list(__LINE__, P, sizeof P, refusal(length == 18 ? 21 : 20, 0));
        lend(none, length - 8);
        refused_with_list(__LINE__, P, sizeof P, refusal(length == 18 ? 21 : 20, 0));
    }
    lend_none();
}

/* After the list comes what came after the file. Withdrawn at 16, serial 1 leaves three memberships at minute 15 and one at 16. */
static void after_the_list(void)
{
    uint32_t release = rtt_role(0, 1), reviewer = rtt_role(0, 0);
    withdraw_one(1, 16);
    EXPECT(complete(P, sizeof P, 0) == refusal(9, 0));
    EXPECT(complete(P, sizeof P, RTT_ENTRIES + 1) == refusal(9, 0) && untouched(&a) && untouched(&b) && untouched(&c));
    EXPECT(complete(P, sizeof P, 2) == refusal(10, 0) && zero(&a, 8) && zero(&b, 8) && zero(&c, 16));
    EXPECT(query(P, sizeof P, release, 0, 4294967295u, 0) == refusal(9, 0));
    EXPECT(query(P, sizeof P, release, 0, 4294967295u, 2) == refusal(11, 0) && untouched(&a));
    EXPECT(query(P, sizeof P, release, 6, 4294967295u, 2) == refusal(12, 0) && untouched(&a));
    EXPECT(query(P, sizeof P, release, 6, 15, 2) == refusal(10, 0) && zero(&a, 8) && zero(&b, 8) && zero(&c, 8) && zero(&d, 8));
    EXPECT(query(P, sizeof P, release, 6, 16, 2) == refusal(13, 0) && zero(&a, 8) && zero(&b, 8) && zero(&c, 8) && zero(&d, 8));
    EXPECT(query(P, sizeof P, reviewer, 4, 16, 1) == 1 + 1 * 65536);
    EXPECT(query(P, sizeof P, reviewer, 2, 16, 1) == refusal(13, 0));
    EXPECT(check(P, sizeof P, release, 0, 4294967295u, 0) == refusal(11, 0));
    EXPECT(check(P, sizeof P, release, 6, 4294967295u, 0) == refusal(12, 0));
    EXPECT(check(P, sizeof P, release, 6, 16, 0) == refusal(14, 0));
    EXPECT(check(P, sizeof P, release, 6, 16, 5) == refusal(14, 0));
    EXPECT(check(P, sizeof P, release, 7, 16, 3) == refusal(15, 0));
    EXPECT(check(P, sizeof P, release, 7, 15, 3) == refusal(16, 0));
    EXPECT(check(P, sizeof P, release, 6, 15, 3) == 2);
    EXPECT(ends(P, sizeof P, 255) == refusal(9, 0) && untouched(&a));
    EXPECT(intervals(P, sizeof P, 32, 255) == refusal(9, 0) && untouched(&a));
    EXPECT(intervals(P, sizeof P, 32, 256) == refusal(11, 0) && untouched(&a));
    /* 10 counts what the cut leaves: without serial 3 there are two memberships. */
    withdraw_one(3, 0);
    EXPECT(complete(P, sizeof P, 2) == 2);
    EXPECT(query(P, sizeof P, reviewer, 2, 15, 2) == 1 + 1 * 65536);
    EXPECT(query(P, sizeof P, release, 6, 15, 2) == refusal(13, 0) && zero(&a, 8));
    EXPECT(query(P, sizeof P, reviewer, 2, 15, 1) == refusal(10, 0) && zero(&a, 4));
    lend_none();
}

/* A proof that was handed out passes with the withdrawal list that it was handed out with, and need not with another. */
static void with_another_list(void)
{
    uint32_t release = rtt_role(0, 1);
    withdraw_one(1, 16);
    EXPECT(query(P, sizeof P, release, 6, 15, L) == 3 + 2 * 65536 && is_k1(4 * L));
    uint64_t place = rtt_entry32(a.bytes, 0) == 0 ? 0 : 1;
    EXPECT(check_left(P, sizeof P, release, 6, 15, L, 3) == 2);
    EXPECT(check_left(P, sizeof P, release, 6, 16, L, 3) == refusal(15, place));
    withdraw_one(1, 15);
    EXPECT(check_left(P, sizeof P, release, 6, 15, L, 3) == refusal(15, place));
    withdraw_one(2, 15);
    EXPECT(check_left(P, sizeof P, release, 6, 15, L, 3) == refusal(15, 1 - place));
    withdraw_one(3, 15);
    EXPECT(check_left(P, sizeof P, release, 6, 15, L, 3) == refusal(15, 2));
    withdraw_one(3, 16);
    EXPECT(check_left(P, sizeof P, release, 6, 15, L, 3) == 2);
    lend_none();
    EXPECT(check_left(P, sizeof P, release, 6, 15, L, 3) == 2);
    EXPECT(check_left(P, sizeof P, release, 6, 16, L, 3) == 2);
    EXPECT(query(P, sizeof P, release, 6, 18, L) == 3 + 2 * 65536);
    withdraw_one(1, 18);
    EXPECT(check_left(P, sizeof P, release, 6, 18, L, 3) == refusal(15, rtt_entry32(a.bytes, 0) == 0 ? 0 : 1));
    lend_none();
}

/* 0.0 <- 1, 0.0 <- 0.1 and 0.1 <- 1, all from 0 to 9: without the first credential the least level of 0.0 {1} is 2. */
static void least_levels(void)
{
    static const uint8_t file[] = {
        2, 0, 2, 0, 3, 0,
        0, 0, 0, 1, 0, 0, 0, 0, 1, 0, 0, 0,
        1, 0, 0, 0, 1, 0, 0, 0, 2, 0, 0, 0,
        0, 0, 1, 1, 0, 0, 0, 0, 3, 0, 0, 0,
        0, 0, 0, 0, 9, 0, 0, 0,
        0, 0, 0, 0, 9, 0, 0, 0,
        0, 0, 0, 0, 9, 0, 0, 0,
    };
    static const uint32_t nothing[] = {0, 0}, by[] = {2, 1}, results[] = {2, 2};
    bounded(__LINE__, file, sizeof file);
    withdraw_one(1, 5);
    bounded(__LINE__, file, sizeof file);
    EXPECT(query(file, sizeof file, 0, 2, 4, L) == 1 + 1 * 65536 && has(&a, 4 * L, 1, nothing) && has(&d, 4 * L, 1, results));
    EXPECT(query(file, sizeof file, 0, 2, 5, L) == 2 + 2 * 65536);
    EXPECT(has(&a, 4 * L, 2, by) && has(&b, 4 * L, 2, nothing) && has(&c, 4 * L, 2, nothing) && has(&d, 4 * L, 2, results));
    EXPECT(check_left(file, sizeof file, 0, 2, 5, L, 2) == 2);
    EXPECT(check(file, sizeof file, 0, 2, 4, 1) == 1 && check(file, sizeof file, 0, 2, 5, 1) == refusal(15, 0));
    withdraw_one(2, 5);
    bounded(__LINE__, file, sizeof file);
    EXPECT(query(file, sizeof file, 0, 2, 5, L) == 1 + 1 * 65536);
    withdraw_one(3, 5);
    bounded(__LINE__, file, sizeof file);
    EXPECT(query(file, sizeof file, 0, 2, 5, L) == 1 + 1 * 65536);
    EXPECT(query(file, sizeof file, 1, 2, 5, L) == refusal(13, 0));
    static const uint32_t both[] = {3, 5, 1, 5};
    withdraw(2, both);
    bounded(__LINE__, file, sizeof file);
    EXPECT(query(file, sizeof file, 0, 2, 4, L) == 1 + 1 * 65536);
    EXPECT(query(file, sizeof file, 0, 2, 5, L) == refusal(13, 0));
    lend_none();
}

/* `count` roles, 0.0, 0.1 and so on to 0.31, then 1.0: each but the last includes the next, and the last has {0}; all from 0 to 9. A role's number is its
   position, and each level has one membership. */
static size_t chain(uint8_t *file, unsigned count)
{
    memset(file, 0, 6 + 20 * (size_t)count);
    file[0] = file[2] = 32;
    file[4] = (uint8_t)count;
    file[5] = (uint8_t)(count >> 8);
    for (unsigned i = 0; i < count; i++) {
        uint8_t *statement = file + 6 + 12 * i;
        int inclusion = i + 1 < count;
        statement[0] = inclusion ? 1 : 0;
        statement[1] = (uint8_t)(i / 32);
        statement[2] = (uint8_t)(i % 32);
        statement[3] = inclusion ? (uint8_t)((i + 1) / 32) : 0;
        statement[4] = inclusion ? (uint8_t)((i + 1) % 32) : 0;
        statement[8] = (uint8_t)(i + 1);
        statement[9] = (uint8_t)((i + 1) >> 8);
        file[6 + 12 * count + 8 * i + 4] = 9;
    }
    return 6 + 20 * (size_t)count;
}

/* Step i is that of the chain's role `top` + `held` - 1 - i, and cites the one before it. */
static int is_chain(size_t length, uint32_t top, uint32_t held)
{
    static uint32_t by[256], cited[256], none[256], results[256];
    for (uint32_t i = 0; i < held; i++) {
        by[i] = top + held - 1 - i;
        cited[i] = i == 0 ? 0 : i - 1;
        results[i] = 1;
    }
    return has(&a, length, held, by) && has(&b, length, held, cited) && has(&c, length, held, none) && has(&d, length, held, results);
}

/* In a chain the first role's level is the number of memberships: a proof with L that number, and 10 with one less. A withdrawal in the middle leaves the
   roles after it. */
static void chains(void)
{
    static uint8_t file[RTT_FILE_BYTES];
    static const uint32_t counts[] = {1, 2, 3, 31, 32, 255, 256};
    for (size_t i = 0; i < sizeof counts / sizeof *counts; i++) {
        uint32_t n = counts[i];
        size_t length = chain(file, n);
        EXPECT(query(file, length, 0, 1, 9, n) == n + n * 65536u && is_chain(4 * (size_t)n, 0, n));
        EXPECT(check_left(file, length, 0, 1, 9, n, n) == n);
        EXPECT(query(file, length, 0, 1, 0, RTT_ENTRIES) == n + n * 65536u && is_chain(4 * RTT_ENTRIES, 0, n));
        EXPECT(one_less_refused(file, length, 0, 1, 9, n));
        EXPECT(query(file, length, 0, 1, 10, n) == refusal(13, 0) && all_zero(4 * (size_t)n));
    }
    size_t length = chain(file, 31);
    bounded(__LINE__, file, length);
    /* Serial 16 is that of role 15, which includes role 16. */
    withdraw_one(16, 5);
    EXPECT(query(file, length, 0, 1, 4, 31) == 31 + 31 * 65536 && is_chain(4 * 31, 0, 31));
    EXPECT(check_left(file, length, 0, 1, 4, 31, 31) == 31 && check_left(file, length, 0, 1, 5, 31, 31) == refusal(15, 15));
    EXPECT(one_less_refused(file, length, 0, 1, 4, 31));
    EXPECT(query(file, length, 16, 1, 5, 15) == 15 + 15 * 65536 && is_chain(4 * 15, 16, 15));
    EXPECT(one_less_refused(file, length, 16, 1, 5, 15));
    EXPECT(query(file, length, 15, 1, 5, 15) == refusal(13, 0) && all_zero(4 * 15));
    EXPECT(query(file, length, 0, 1, 5, 15) == refusal(13, 0) && all_zero(4 * 15));
    bounded(__LINE__, file, length);
    /* Of 256 roles all but the first. */
    length = chain(file, 256);
    withdraw_one(1, 5);
    EXPECT(query(file, length, 0, 1, 4, 256) == 256 + 256 * 65536 && is_chain(4 * 256, 0, 256));
    EXPECT(query(file, length, 1, 1, 5, 255) == 255 + 255 * 65536 && is_chain(4 * 255, 1, 255));
    EXPECT(query(file, length, 0, 1, 5, 255) == refusal(13, 0) && all_zero(4 * 255));
    EXPECT(one_less_refused(file, length, 1, 1, 5, 255));
    lend_none();
}

/* `count` credentials 0.0 <- 0 of one minute each, 0, 3, 6 and so on, or the last from 0 to 93. Serials are position plus one. */
static size_t one_minute_each(uint8_t *file, unsigned count, int last_is_long)
{
    memset(file, 0, 6 + 20 * (size_t)count);
    file[0] = file[2] = 1;
    file[4] = (uint8_t)count;
    for (unsigned i = 0; i < count; i++) {
        file[6 + 12 * i + 8] = (uint8_t)(i + 1);
        file[6 + 12 * count + 8 * i] = file[6 + 12 * count + 8 * i + 4] = (uint8_t)(3 * i);
    }
    if (last_is_long) {
        file[6 + 12 * count + 8 * (count - 1)] = 0;
        file[6 + 12 * count + 8 * (count - 1) + 4] = 93;
    }
    return 6 + 20 * (size_t)count;
}

/* 33 minutes have 66 ends: too many, unless one of them is withdrawn. */
static void fewer_ends(void)
{
    static uint8_t file[6 + 20 * 33];
    uint32_t in_ends[64];
    size_t length = one_minute_each(file, 33, 0);
    refused_by_all(__LINE__, file, length, refusal(8, 0));
    /* Serial 33 is minute 96, and 0 to 93 stay. */
    for (uint32_t i = 0; i < 32; i++) {
        in_ends[2 * i] = 3 * i;
        in_ends[2 * i + 1] = 3 * i + 1;
    }
    withdraw_one(33, 96);
    EXPECT(ends(file, length, RTT_ENDS_BYTES) == 64 && has(&a, RTT_ENDS_BYTES, 64, in_ends));
    EXPECT(complete(file, length, 1) == 1 && rtt_entry64(c.bytes, 0) == UINT64_C(0x5555555555555555));
    EXPECT(intervals(file, length, UINT64_C(0x5555555555555555), RTT_BOUNDS_BYTES) == 32 && has(&a, RTT_BOUNDS_BYTES, 64, in_ends));
    EXPECT(intervals(file, length, UINT64_C(0x8000000000000000), RTT_BOUNDS_BYTES) == refusal(11, 0));
    EXPECT(query(file, length, 0, 1, 93, 1) == 1 + 1 * 65536 && check_left(file, length, 0, 1, 93, 1, 1) == 1);
    EXPECT(query(file, length, 0, 1, 96, 1) == refusal(13, 0));
    EXPECT(back(file, length, rtt_back_length(length)) == refusal(8, 0) && untouched(&a));
    bounded(__LINE__, file, length);
    /* Serial 1 is minute 0, and 3 to 96 stay. */
    for (uint32_t i = 0; i < 64; i++)
        in_ends[i] += 3;
    withdraw_one(1, 0);
    EXPECT(ends(file, length, RTT_ENDS_BYTES) == 64 && has(&a, RTT_ENDS_BYTES, 64, in_ends));
    bounded(__LINE__, file, length);
    EXPECT(query(file, length, 0, 1, 0, 1) == refusal(13, 0) && query(file, length, 0, 1, 96, 1) == 1 + 1 * 65536);
    EXPECT(check_left(file, length, 0, 1, 96, 1, 1) == 1 && check_left(file, length, 0, 1, 0, 1, 1) == refusal(15, 0));
    withdraw_one(33, 96);
    EXPECT(check_left(file, length, 0, 1, 96, 1, 1) == refusal(15, 0));
    /* A minute later nothing changes; nor does the largest minute. */
    withdraw_one(33, 97);
    refused_with_list(__LINE__, file, length, refusal(8, 0));
    withdraw_one(1, 4294967295u);
    refused_with_list(__LINE__, file, length, refusal(8, 0));
    /* 20 and 21 before 8, also where the cut would leave 64 ends. */
    static const uint32_t twice[] = {33, 96, 33, 96}, unknown[] = {33, 96, 34, 96};
    withdraw(2, twice);
    refused_with_list(__LINE__, file, length, refusal(21, 0));
    withdraw(2, unknown);
    refused_with_list(__LINE__, file, length, refusal(21, 0));
    withdraw_one(33, 96);
    lend(withdrawals, withdrawals_length - 1);
    refused_with_list(__LINE__, file, length, refusal(20, 0));
    lend_none();
}

/* 32 minutes and 0..93, whose ends are theirs: 64 ends. The cut gives the long period an end of its own, unless it falls on another. */
static void more_ends(void)
{
    static uint8_t file[6 + 20 * 33];
    size_t length = one_minute_each(file, 33, 1);
    EXPECT(ends(file, length, RTT_ENDS_BYTES) == 64);
    withdraw_one(33, 2);
    refused_with_list(__LINE__, file, length, refusal(8, 0));
    EXPECT(back(file, length, rtt_back_length(length)) == 33);
    withdraw_one(33, 3);
    EXPECT(ends(file, length, RTT_ENDS_BYTES) == 64);
    withdraw_one(33, 93);
    EXPECT(ends(file, length, RTT_ENDS_BYTES) == 64);
    withdraw_one(33, 94);
    EXPECT(ends(file, length, RTT_ENDS_BYTES) == 64);
    /* Without minute 93 the long period alone ends at 94, and at 92 in its place where it is cut there. */
    withdraw_one(32, 93);
    EXPECT(ends(file, length, RTT_ENDS_BYTES) == 63);
    static const uint32_t both[] = {33, 92, 32, 93};
    withdraw(2, both);
    EXPECT(ends(file, length, RTT_ENDS_BYTES) == 63);
    bounded(__LINE__, file, length);
    lend_none();
}

/* 256 credentials 0.0 <- 0 of one minute each, 0, 2 and so on up to 62 and again from 0, all of them in the list, the last serial first. */
static void longest_list(void)
{
    static uint8_t file[RTT_FILE_BYTES];
    static uint32_t pairs[2 * 256], in_ends[32];
    file[0] = file[2] = file[5] = 1;
    for (unsigned i = 0; i < 256; i++) {
        file[6 + 12 * i + 8] = (uint8_t)(i + 1);
        file[6 + 12 * i + 9] = i == 255;
        file[6 + 12 * 256 + 8 * i] = file[6 + 12 * 256 + 8 * i + 4] = (uint8_t)(2 * (i % 32));
    }
    /* Every second one is emptied: the minutes 0, 4 and so on up to 60 stay. */
    for (uint32_t i = 0; i < 256; i++) {
        pairs[2 * i] = 256 - i;
        pairs[2 * i + 1] = i % 2 == 0 ? 0 : 4294967295u;
    }
    for (uint32_t i = 0; i < 16; i++) {
        in_ends[2 * i] = 4 * i;
        in_ends[2 * i + 1] = 4 * i + 1;
    }
    withdraw(256, pairs);
    EXPECT(withdrawals_length == RTT_WITHDRAWALS_BYTES);
    EXPECT(ends(file, sizeof file, RTT_ENDS_BYTES) == 32 && has(&a, RTT_ENDS_BYTES, 32, in_ends));
    EXPECT(complete(file, sizeof file, 1) == 1 && rtt_entry64(c.bytes, 0) == 0x55555555);
    EXPECT(intervals(file, sizeof file, 0x55555555, RTT_BOUNDS_BYTES) == 16 && has(&a, RTT_BOUNDS_BYTES, 32, in_ends));
    EXPECT(query(file, sizeof file, 0, 1, 60, 1) == 1 + 1 * 65536 && check_left(file, sizeof file, 0, 1, 60, 1, 1) == 1);
    EXPECT(query(file, sizeof file, 0, 1, 62, 1) == refusal(13, 0));
    EXPECT(may_release(file, sizeof file, 0, 1, 4) == 1 && may_release(file, sizeof file, 0, 1, 2) == 0);
    bounded(__LINE__, file, sizeof file);
    /* The last place has the first serial again, then one that is on no credential. */
    pairs[2 * 255] = 256;
    withdraw(256, pairs);
    refused_with_list(__LINE__, file, sizeof file, refusal(21, 0));
    pairs[2 * 255] = 257;
    withdraw(256, pairs);
    refused_with_list(__LINE__, file, sizeof file, refusal(21, 0));
    /* All of them emptied. */
    pairs[2 * 255] = 1;
    for (uint32_t i = 0; i < 256; i++)
        pairs[2 * i + 1] = 0;
    withdraw(256, pairs);
    EXPECT(complete(file, sizeof file, 1) == 0 && zero(&a, 4) && zero(&b, 4) && zero(&c, 8));
    EXPECT(ends(file, sizeof file, RTT_ENDS_BYTES) == 0 && zero(&a, RTT_ENDS_BYTES));
    EXPECT(query(file, sizeof file, 0, 1, 0, 1) == refusal(13, 0));
    lend_none();
    bounded(__LINE__, file, sizeof file);
    EXPECT(query(file, sizeof file, 0, 1, 0, 1) == 1 + 1 * 65536);
    withdraw(256, pairs);
    EXPECT(check_left(file, sizeof file, 0, 1, 0, 1, 1) == refusal(15, 0));
    lend_none();
}

/* What is only read may overlap: two zero bytes of the file, or of a step list, are a withdrawal list; all of the file is none. */
static void overlapping(void)
{
    static const uint8_t steps[] = {1, 0, 2, 0, 0, 0, 16, 0, 0, 0, 0, 0};
    lend(P + 6, 2);
    EXPECT(complete(P, sizeof P, L) == 3 && query(P, sizeof P, rtt_role(0, 1), 6, 15, L) == 3 + 2 * 65536);
    EXPECT(check(P, sizeof P, rtt_role(0, 1), 6, 15, 3) == 2 && ends(P, sizeof P, RTT_ENDS_BYTES) == 6);
    lend(credential, 2);
    EXPECT(check(P, sizeof P, rtt_role(0, 1), 6, 15, 3) == 2);
    lend(P, sizeof P);
    refused_with_list(__LINE__, P, sizeof P, refusal(20, 0));
    /* The first word of these steps, and what follows: serial 2 withdrawn at 16. As a step it names a credential beyond the last. */
    lend(steps, 10);
    EXPECT(ends(P, sizeof P, RTT_ENDS_BYTES) == 6 && rtt_entry32(a.bytes, 5) == 21);
    EXPECT(rtt_check(P, sizeof P, steps, 10, 0, 2, 15, steps, 12, steps, 12, steps, 12, steps, 12, 1) == refusal(15, 0));
    lend_none();
}

static void withdrawal_lengths(void)
{
    EXPECT(rtt_withdrawals_length(0) == 2 && rtt_withdrawals_length(1) == 10 && rtt_withdrawals_length(3) == 26);
    EXPECT(rtt_withdrawals_length(255) == 2042 && rtt_withdrawals_length(256) == RTT_WITHDRAWALS_BYTES);
    EXPECT(rtt_withdrawals_length(257) == 0 && rtt_withdrawals_length(65535) == 0 && rtt_withdrawals_length(65536) == 0);
    EXPECT(rtt_withdrawals_length(SIZE_MAX) == 0 && rtt_withdrawals_length(SIZE_MAX / 8 + 1) == 0);
}

/* What is so of P when nothing is withdrawn, or nothing before the minute after a period. */
static void of_p(void)
{
    completing();
    querying();
    checking();
    listing_ends();
    listing_intervals();
    releasing();
    bounded(__LINE__, P, sizeof P);
}

static void without_effect(void)
{
    static const uint32_t after[] = {1, 21, 2, 31, 3, 19}, never[] = {3, 4294967295u, 2, 4294967295u, 1, 4294967295u};
    withdraw(3, after);
    of_p();
    withdraw(3, never);
    of_p();
    withdraw(0, never);
    of_p();
    lend_none();
}

int main(void)
{
    replies();
    texts();
    names();
    version();
    entries();
    roles();
    of_p();
    empty();
    refused_files();
    serials();
    periods();
    too_many_ends();
    lengths();
    going_forward();
    old_periods();
    going_back();
    largest();
    without_effect();
    cutting();
    cut_periods();
    withdrawn_serials();
    refused_serials();
    refused_lists();
    after_the_list();
    with_another_list();
    least_levels();
    chains();
    fewer_ends();
    more_ends();
    longest_list();
    overlapping();
    withdrawal_lengths();
    printf("%u expectations, %u failed\n", expected, failed);
    return failed != 0;
}
