/* Makes the calls of include/rtt.h on one credentials file and one withdrawal list, by the library or by the yardstick.

     bench FILE LIST ask                      role, set, minute of the deepest membership, a set that its role does not have,
                                              level, steps
     bench FILE LIST steps N                  the same for the membership whose proof is nearest to N steps at minute 0
     bench FILE LIST agree QUESTION [WHOSE]   compares the library with the yardstick, or with this part of it; prints the
                                              number of comparisons
     bench FILE LIST time QUESTION SECONDS CALL WHOSE     reply and least time of repeated calls, in microseconds
     bench FILE LIST once QUESTION CALL WHOSE ...         each call once, in `measured`

   LIST is the name of a withdrawal list, or `-` for that of count 0. QUESTION is ROLE SET MINUTE ABSENT; CALL is complete,
   query, absent (a query of the absent set), check, ends, intervals (of every other span), forward (of the file's old
   form) or back (of the file), and with `bare-` before it the call is lent the list of count 0; WHOSE is rtt, plain or
   grouped. Where the list is refused, questions are asked and proofs are made without it. */
#include <stdio.h>
#include <stdlib.h>
#include <string.h>
#include <time.h>

#include "plain.h"
#include "rtt.h"

enum { BYTES = 4 * RTT_ENTRIES, LIST = 256 };

struct lists {
    uint8_t a[BYTES], b[BYTES], c[BYTES], d[BYTES], wide[2 * BYTES];
};

/* The file and its old form, each with room for one byte more. */
static uint8_t file[6 + 20 * 256 + 1], old[6 + 16 * 256 + 1];
static size_t length, old_length;

/* Withdrawal lists: of count 0, the one that was named, and the one that calls are lent. */
static struct withdrawals {
    const uint8_t *bytes;
    size_t length;
} none = {RTT_NO_WITHDRAWALS, RTT_NO_WITHDRAWALS_LENGTH}, named, lent;

static struct question {
    uint32_t role, set, minute, absent;
} asked;

typedef uint64_t completing(const uint8_t *, size_t, const uint8_t *, size_t, uint8_t *, size_t, uint8_t *, size_t, uint8_t *,
                            size_t);
typedef uint64_t querying(const uint8_t *, size_t, const uint8_t *, size_t, uint32_t, uint32_t, uint32_t, uint8_t *, size_t,
                          uint8_t *, size_t, uint8_t *, size_t, uint8_t *, size_t);
typedef uint64_t checking(const uint8_t *, size_t, const uint8_t *, size_t, uint32_t, uint32_t, uint32_t, const uint8_t *,
                          size_t, const uint8_t *, size_t, const uint8_t *, size_t, const uint8_t *, size_t, uint64_t);
typedef uint64_t listing_ends(const uint8_t *, size_t, const uint8_t *, size_t, uint8_t *, size_t);
typedef uint64_t listing_intervals(const uint8_t *, size_t, const uint8_t *, size_t, uint64_t, uint8_t *, size_t);
typedef uint64_t bringing(const uint8_t *, size_t, uint8_t *, size_t);

static struct one {
    const char *name;
    completing *complete;
    querying *query;
    checking *check;
    listing_ends *ends;
    listing_intervals *intervals;
    bringing *forward, *back;
} ones[] = {
    {"rtt", rtt_complete, rtt_query, rtt_check, rtt_ends, rtt_intervals, rtt_forward, rtt_back},
    {"plain", plain_complete, plain_query, plain_check, plain_ends, plain_intervals, plain_forward, plain_back},
    {"grouped", grouped_complete, grouped_query, plain_check, plain_ends, plain_intervals, plain_forward, plain_back},
};

/* Makes the old form: the serials are left out, and each `to` is one higher. */
static void make_old(void)
{
    size_t n = length < 6 ? 0 : (length - 6) / 20;
    old_length = 6 + 16 * n;
    memcpy(old, file, 6);
    for (size_t i = 0; i < n; i++) {
        uint8_t *period = old + 6 + 8 * n + 8 * i;
        uint32_t to;
        memcpy(old + 6 + 8 * i, file + 6 + 12 * i, 8);
        memcpy(period, file + 6 + 12 * n + 8 * i, 8);
        memcpy(&to, period + 4, 4);
        to++;
        memcpy(period + 4, &to, 4);
    }
}

static uint64_t complete(const struct one *o, struct lists *l, size_t entries)
{
    return o->complete(file, length, lent.bytes, lent.length, l->a, 4 * entries, l->b, 4 * entries, l->wide, 8 * entries);
}

static uint64_t query(const struct one *o, struct lists *l, uint32_t role, uint32_t set, uint32_t minute)
{
    return o->query(file, length, lent.bytes, lent.length, role, set, minute, l->a, BYTES, l->b, BYTES, l->c, BYTES, l->d,
                    BYTES);
}

static uint64_t check(const struct one *o, const struct lists *l, uint32_t role, uint32_t set, uint32_t minute, uint64_t steps)
{
    return o->check(file, length, lent.bytes, lent.length, role, set, minute, l->a, BYTES, l->b, BYTES, l->c, BYTES, l->d,
                    BYTES, steps);
}

static uint64_t list_ends(const struct one *o, uint8_t *to, size_t to_length)
{
    return o->ends(file, length, lent.bytes, lent.length, to, to_length);
}

static uint64_t list_intervals(const struct one *o, uint64_t spans, uint8_t *to, size_t to_length)
{
    return o->intervals(file, length, lent.bytes, lent.length, spans, to, to_length);
}

/* What is timed and counted; a check is lent the proof that stands in the lists. */
static struct lists work;
static uint64_t steps, alternate;

__attribute__((noinline)) uint64_t measured(const struct one *o, int call)
{
    switch (call) {
    case 'c':
        return complete(o, &work, RTT_ENTRIES);
    case 'q':
        return query(o, &work, asked.role, asked.set, asked.minute);
    case 'a':
        return query(o, &work, asked.role, asked.absent, asked.minute);
    case 'e':
        return list_ends(o, work.a, LIST);
    case 'i':
        return list_intervals(o, alternate, work.a, LIST);
    case 'f':
        return o->forward(old, old_length, work.wide, length);
    case 'b':
        return o->back(file, length, work.wide, old_length);
    default:
        return check(o, &work, asked.role, asked.set, asked.minute, steps);
    }
}

/* The span number of all spans. */
static uint64_t every_span(void)
{
    uint8_t ends[LIST];
    uint64_t count = list_ends(&ones[1], ends, sizeof ends);
    return count < 2 || rtt_number(count) ? 0 : ~0ull >> (65 - count);
}

/* Lends the named list, or that of count 0 where the named one is refused. */
static void lend_accepted(void)
{
    uint8_t ends[LIST];
    lent = named;
    if (rtt_number(list_ends(&ones[1], ends, sizeof ends)))
        lent = none;
}

static const struct one *one_called(const char *name)
{
    for (size_t i = 0; i < sizeof ones / sizeof *ones; i++)
        if (!strcmp(name, ones[i].name))
            return &ones[i];
    fprintf(stderr, "bench: no %s\n", name);
    exit(2);
}

/* First letters differ: complete, query, absent, ends, intervals, forward, back; check is 'k'. */
static int call_called(const char *name)
{
    int bare = !strncmp(name, "bare-", 5);
    name += bare ? 5 : 0;
    int call = strcmp(name, "check") ? name[0] : 'k';
    if (call == 'k') {
        lend_accepted();
        steps = rtt_steps(query(one_called("grouped"), &work, asked.role, asked.set, asked.minute));
    }
    lent = bare ? none : named;
    if (call == 'i')
        alternate = every_span() & 0x5555555555555555;
    return call;
}

static double now(clockid_t clock)
{
    struct timespec t;
    clock_gettime(clock, &t);
    return t.tv_sec + t.tv_nsec * 1e-9;
}

/* ---- agreement ---- */

static int compared, parts = 3;

static void same(int holds, const char *what)
{
    compared++;
    if (!holds) {
        printf("differs: %s\n", what);
        exit(1);
    }
}

/* Returns the library's reply and leaves its lists in had[0]. */
static struct lists had[3];

static uint64_t agree_completing(size_t entries)
{
    uint64_t reply[3] = {0};
    for (int i = 0; i < parts; i++) {
        memset(&had[i], 0x5A, sizeof had[i]);
        reply[i] = complete(&ones[i], &had[i], entries);
        same(reply[i] == reply[0], "reply of completing");
        same(!memcmp(&had[i], &had[0], sizeof had[i]), "lists of completing");
    }
    return reply[0];
}

static void agree_checking(struct lists *l, uint32_t role, uint32_t set, uint32_t minute, uint32_t count, uint32_t level)
{
    same(check(&ones[0], l, role, set, minute, count) == level, "level of checking");
    same(check(&ones[1], l, role, set, minute, count) == level, "level of the yardstick's checking");
    uint8_t *list[] = {l->a, l->b, l->c, l->d};
    for (uint32_t i = 0; i < count; i += 1 + count / 7)
        for (int k = 0; k < 4; k++) {
            uint8_t *byte = &list[k][4 * i];
            *byte ^= 1;
            same(check(&ones[0], l, role, set, minute, count) == check(&ones[1], l, role, set, minute, count),
                 "checking of a changed proof");
            *byte ^= 1;
        }
}

static void agree_querying(uint32_t role, uint32_t set, uint32_t minute)
{
    static struct lists proof;
    uint64_t first = 0;
    for (int i = 0; i < parts; i++) {
        memset(&proof, 0xA5, sizeof proof);
        uint64_t reply = query(&ones[i], &proof, role, set, minute);
        if (i == 0)
            first = reply;
        if (rtt_number(first))
            same(reply == first, "refusal of querying");
        else
            same(!rtt_number(reply) && rtt_level(reply) == rtt_level(first), "level of querying");
        if (!rtt_number(reply))
            agree_checking(&proof, role, set, minute, rtt_steps(reply), rtt_level(reply));
    }
}

/* Of span numbers with gaps and without, and with a bit beyond the last span; in lists of the right length and of others. */
static void agree_listing(void)
{
    uint64_t all = every_span();
    uint64_t numbers[] = {0, all, all & 0x5555555555555555, all & 0x3333333333333333, all + 1, ~0ull};
    size_t lengths[] = {LIST, LIST - 4, LIST + 1};
    for (size_t k = 0; k < sizeof lengths / sizeof *lengths; k++)
        for (size_t n = 0; n < 1 + sizeof numbers / sizeof *numbers; n++) {
            uint64_t reply[2];
            for (int i = 0; i < 2; i++) {
                memset(had[i].a, 0x5A, sizeof had[i].a);
                reply[i] = n == 0 ? list_ends(&ones[i], had[i].a, lengths[k])
                                  : list_intervals(&ones[i], numbers[n - 1], had[i].a, lengths[k]);
            }
            same(reply[0] == reply[1], n == 0 ? "reply of the ends" : "reply of the intervals");
            same(!memcmp(had[0].a, had[1].a, sizeof had[0].a), n == 0 ? "list of the ends" : "list of the intervals");
        }
}

/* One input, into lists of the result's length, of one byte less and one more, and of none. */
static void agree_bringing(int back, const uint8_t *input, size_t input_length)
{
    size_t right = back ? old_length : length, lengths[] = {right, right - 1, right + 1, 0};
    for (size_t k = 0; k < sizeof lengths / sizeof *lengths; k++) {
        uint64_t reply[2];
        for (int i = 0; i < 2; i++) {
            bringing *bring = back ? ones[i].back : ones[i].forward;
            memset(had[i].wide, 0x5A, sizeof had[i].wide);
            reply[i] = bring(input, input_length, had[i].wide, lengths[k]);
        }
        same(reply[0] == reply[1], back ? "reply of going back" : "reply of going forward");
        same(!memcmp(had[0].wide, had[1].wide, sizeof had[0].wide), back ? "list of going back" : "list of going forward");
    }
}

/* The input with a few bytes changed. */
static void agree_changed(int back, size_t at, uint32_t value, size_t bytes)
{
    static uint8_t changed[sizeof file];
    memcpy(changed, back ? file : old, back ? length : old_length);
    memcpy(changed + at, &value, bytes);
    agree_bringing(back, changed, back ? length : old_length);
}

/* Kinds, numbers and unused bytes; serials moved, repeated and zero; periods with no minute, with one and up to the last;
   in the first credential, the middle one and the last. */
static void agree_changed_credentials(int back)
{
    size_t n = (old_length - 6) / 16, statement = back ? 12 : 8, places[] = {0, n / 2, n - 1};
    for (size_t k = 0; n && k < sizeof places / sizeof *places; k++) {
        uint32_t i = places[k], from;
        size_t s = 6 + statement * i, p = 6 + statement * n + 8 * i;
        uint8_t values[] = {0, 1, 6, 32};
        for (size_t j = 0; j < 8 * sizeof values; j++)
            agree_changed(back, s + j % 8, values[j / 8], 1);
        uint32_t serials[] = {0, 1, i + 2, n + 1, UINT32_MAX};
        for (size_t j = 0; back && j < sizeof serials / sizeof *serials; j++)
            agree_changed(back, s + 8, serials[j], 4);
        memcpy(&from, (back ? file : old) + p, 4);
        uint32_t ends[] = {0, from - 1, from, from + 1, UINT32_MAX - 1, UINT32_MAX};
        for (size_t j = 0; j < sizeof ends / sizeof *ends; j++)
            agree_changed(back, p + 4, ends[j], 4);
    }
}

/* The file and its old form, with wrong lengths, sizes and credentials, and there and back. */
static void agree_forward_and_back(void)
{
    for (int back = 0; back < 2; back++) {
        const uint8_t *input = back ? file : old;
        size_t right = back ? length : old_length, lengths[] = {right, right - 1, right + 1, 6, 5, 0};
        for (size_t k = 0; k < sizeof lengths / sizeof *lengths; k++)
            agree_bringing(back, input, lengths[k]);
        uint32_t sizes[] = {0, 1, 33, 256, 257};
        for (size_t at = 0; at < 6; at += 2)
            for (size_t k = 0; k < sizeof sizes / sizeof *sizes; k++)
                agree_changed(back, at, sizes[k], 2);
        agree_changed_credentials(back);
    }
    uint64_t there = rtt_forward(old, old_length, had[0].wide, length);
    if (rtt_ok(there))
        same(rtt_back(had[0].wide, length, had[1].wide, old_length) == there && !memcmp(had[1].wide, old, old_length),
             "an old file brought forward and back");
}

/* Every call with one list, completing and querying where they are quick; a check is lent a proof of the uncut file. */
static struct lists uncut;
static uint32_t uncut_steps;
static int quick;

static void agree_lent(const uint8_t *bytes, size_t list_length)
{
    lent = (struct withdrawals){bytes, list_length};
    agree_listing();
    uint64_t level = check(&ones[0], &uncut, asked.role, asked.set, asked.minute, uncut_steps);
    same(check(&ones[1], &uncut, asked.role, asked.set, asked.minute, uncut_steps) == level, "checking after withdrawals");
    if (!quick)
        return;
    agree_completing(RTT_ENTRIES);
    agree_completing(0);
    agree_querying(asked.role, asked.set, asked.minute);
}

static uint32_t serial_of(size_t i) { return rtt_entry32(file + 6 + 12 * i + 8, 0); }

/* A minute for the credential at position i of n: around the ends of its period, within it, far from it, and where the period
   of another credential begins. */
enum { MINUTES = 9 };

static uint32_t minute_for(size_t i, size_t n, int sort)
{
    const uint8_t *periods = file + 6 + 12 * n;
    uint32_t from = rtt_entry32(periods, 2 * i), to = rtt_entry32(periods, 2 * i + 1);
    uint32_t minutes[MINUTES] = {0,      from,           from + 1,   from + (to - from) / 2, to,
                                 to + 1, UINT32_MAX - 1, UINT32_MAX, rtt_entry32(periods, 2 * ((7 * i + 3) % n))};
    return minutes[sort];
}

static void put_two(uint8_t *at, uint32_t value)
{
    at[0] = value;
    at[1] = value >> 8;
}

static void put_four(uint8_t *at, uint32_t value)
{
    put_two(at, value);
    put_two(at + 2, value >> 16);
}

/* A list of each `apart`th credential, from the last to the first where `down`, with minutes of one sort, or of all sorts in
   turn. Returns its length. */
static size_t draw_list(uint8_t *bytes, size_t n, size_t apart, int down, int sort)
{
    size_t count = (n + apart - 1) / apart;
    put_two(bytes, count);
    for (size_t k = 0; k < count; k++) {
        size_t i = apart * (down ? count - 1 - k : k);
        put_four(bytes + 2 + 4 * k, serial_of(i));
        put_four(bytes + 2 + 4 * count + 4 * k, minute_for(i, n, sort < MINUTES ? sort : (int)k % MINUTES));
    }
    return rtt_withdrawals_length(count);
}

/* Lists that 20 and 21 refuse, made of an accepted one: other lengths and counts; serials that are zero, on no credential, or
   those of the first entry and the last. */
static void agree_refused(const uint8_t *accepted, size_t list_length)
{
    static uint8_t changed[RTT_WITHDRAWALS_BYTES + 8];
    size_t l = list_length, count = (l - 2) / 8, lengths[] = {0, 1, 2, l - 8, l - 4, l - 1, l + 1};
    memcpy(changed, accepted, list_length);
    agree_lent(NULL, 0);
    for (size_t k = 0; k < sizeof lengths / sizeof *lengths; k++)
        agree_lent(changed, lengths[k]);
    uint32_t counts[] = {0, count - 1, count + 1, 256, 257, 65535};
    for (size_t k = 0; k < sizeof counts / sizeof *counts; k++) {
        put_two(changed, counts[k]);
        agree_lent(changed, list_length);
        agree_lent(changed, 2);
        if (2 + 8 * counts[k] <= sizeof changed)
            agree_lent(changed, 2 + 8 * counts[k]);
    }
    memcpy(changed, accepted, 2);
    size_t places[] = {0, count / 2, count - 1};
    for (size_t k = 0; k < sizeof places / sizeof *places; k++) {
        uint32_t serials[] = {0, UINT32_MAX, rtt_entry32(accepted + 2, 0), rtt_entry32(accepted + 2, count - 1)};
        for (size_t j = 0; j < sizeof serials / sizeof *serials; j++) {
            put_four(changed + 2 + 4 * places[k], serials[j]);
            agree_lent(changed, list_length);
        }
        memcpy(changed + 2 + 4 * places[k], accepted + 2 + 4 * places[k], 4);
    }
}

/* More than 64 ends without withdrawals; with all from position 31, 32 and 33 on emptied, 62, 64 and 66. */
static void agree_many_ends(size_t n)
{
    static uint8_t kept[sizeof file], bytes[RTT_WITHDRAWALS_BYTES];
    memcpy(kept, file, length);
    for (size_t i = 0; i < n; i++) {
        put_four(file + 6 + 12 * n + 8 * i, 2 * i);
        put_four(file + 6 + 12 * n + 8 * i + 4, 2 * i);
    }
    agree_lent(none.bytes, none.length);
    for (size_t first = 31; first < 34 && first < n; first++) {
        size_t count = n - first;
        put_two(bytes, count);
        for (size_t k = 0; k < count; k++) {
            put_four(bytes + 2 + 4 * k, serial_of(first + k));
            put_four(bytes + 2 + 4 * count + 4 * k, 2 * (first + k) - k % 3);
        }
        agree_lent(bytes, rtt_withdrawals_length(count));
    }
    memcpy(file, kept, length);
}

/* Lists of many forms, whichever was named. */
static void agree_withdrawing(void)
{
    static uint8_t drawn[RTT_WITHDRAWALS_BYTES];
    size_t n = (length - 6) / 20;
    lent = none;
    uncut_steps = rtt_steps(query(one_called("grouped"), &uncut, asked.role, asked.set, asked.minute));
    for (size_t apart = 1; apart < 12; apart += 5)
        for (int sort = 0; sort <= MINUTES; sort++)
            agree_lent(drawn, draw_list(drawn, n, apart, sort % 2, sort));
    agree_refused(drawn, draw_list(drawn, n, 1, 0, MINUTES));
    agree_refused(drawn, draw_list(drawn, n, 7, 1, 5));
    agree_many_ends(n);
}

/* The deepest membership, an absent one, and memberships of the table, while there is time. */
static void agree(void)
{
    static struct lists table;
    double start = now(CLOCK_MONOTONIC), enough = 0.3;
    uint64_t count = agree_completing(RTT_ENTRIES);
    table = had[0];
    quick = now(CLOCK_MONOTONIC) - start < 0.01;
    agree_listing();
    agree_forward_and_back();
    agree_querying(asked.role, asked.set, asked.minute);
    agree_querying(asked.role, asked.absent, asked.minute);
    for (size_t entries = 1; entries < RTT_ENTRIES && now(CLOCK_MONOTONIC) - start < enough; entries += 1 + entries / 2)
        agree_completing(entries);
    if (rtt_number(count))
        return;
    for (uint64_t i = 0; i < count && now(CLOCK_MONOTONIC) - start < enough; i += 1 + count / 50) {
        uint32_t role, set, minute;
        memcpy(&role, table.a + 4 * i, 4);
        memcpy(&set, table.b + 4 * i, 4);
        agree_querying(role, set, asked.minute);
        const uint8_t *period = file + length - 8 * (1 + i % (length / 20));
        memcpy(&minute, period, 4);
        agree_querying(role, set, minute);
        memcpy(&minute, period + 4, 4);
        agree_querying(role, set, minute);
        agree_querying(role, set, minute + 1);
    }
}

/* ---- questions ---- */

static void say_question(uint32_t role, uint32_t set, uint32_t minute)
{
    const struct one *o = one_called("grouped");
    uint64_t reply = query(o, &work, role, set, minute);
    uint32_t entities = file[0], absent = (uint32_t)((1ull << entities) - 1);
    while (absent && !rtt_number(query(o, &work, role, absent, minute)))
        absent--;
    printf("%u %u %u %u %u %u\n", role, set, minute, absent ? absent : 1, rtt_number(reply) ? 0 : rtt_level(reply),
           rtt_number(reply) ? 0 : rtt_steps(reply));
}

static void ask(void)
{
    uint32_t role = file[7] * 32u + file[8], set = 1, minute = 0;
    plain_deepest(file, length, lent.bytes, lent.length, &role, &set, &minute);
    say_question(role, set, minute);
}

static void ask_steps(uint32_t wanted)
{
    static struct lists table;
    const struct one *o = one_called("grouped");
    uint64_t count = complete(o, &table, RTT_ENTRIES);
    uint32_t role = 0, set = 0, best = UINT32_MAX;
    for (uint64_t i = 0; !rtt_number(count) && i < count; i++) {
        uint32_t r, s;
        memcpy(&r, table.a + 4 * i, 4);
        memcpy(&s, table.b + 4 * i, 4);
        uint64_t reply = query(o, &work, r, s, 0);
        uint32_t n = rtt_steps(reply), away = n > wanted ? n - wanted : wanted - n;
        if (!rtt_number(reply) && away < best) {
            best = away;
            role = r;
            set = s;
        }
    }
    say_question(role, set, 0);
}

static size_t read_bytes(const char *name, uint8_t *to, size_t room)
{
    FILE *f = fopen(name, "rb");
    if (!f) {
        fprintf(stderr, "bench: cannot read %s\n", name);
        exit(2);
    }
    size_t got = fread(to, 1, room, f);
    fclose(f);
    return got;
}

int main(int n, char **v)
{
    static uint8_t list[RTT_WITHDRAWALS_BYTES + 1];
    if (n < 4)
        return 2;
    length = read_bytes(v[1], file, sizeof file);
    make_old();
    named = strcmp(v[2], "-") ? (struct withdrawals){list, read_bytes(v[2], list, sizeof list)} : none;
    lend_accepted();
    const char *mode = v[3];
    if (!strcmp(mode, "ask")) {
        ask();
        return 0;
    }
    if (!strcmp(mode, "steps") && n > 4) {
        ask_steps(strtoul(v[4], NULL, 10));
        return 0;
    }
    if (n < 8)
        return 2;
    asked = (struct question){strtoul(v[4], NULL, 10), strtoul(v[5], NULL, 10), strtoul(v[6], NULL, 10), strtoul(v[7], NULL, 10)};
    if (!strcmp(mode, "agree")) {
        if (n > 8) {
            ones[1] = *one_called(v[8]);
            parts = 2;
        }
        lent = named;
        agree();
        agree_withdrawing();
        printf("%d\n", compared);
    } else if (!strcmp(mode, "time") && n > 10) {
        double seconds = atof(v[8]);
        int call = call_called(v[9]), batch = 1;
        const struct one *o = one_called(v[10]);
        /* Processor time, so that other programs on the machine do not count. On some virtual machines its clock is wrong by a
           tenth of a millisecond now and then: short calls are timed by the clock on the wall, many at once. */
        clockid_t clock = CLOCK_PROCESS_CPUTIME_ID;
        double start = now(clock);
        uint64_t reply = measured(o, call);
        double best = now(clock) - start;
        if (best < 0.005) {
            clock = CLOCK_MONOTONIC;
            start = now(clock);
            batch = best < 0.0001 ? 200 : best < 0.001 ? 20 : 1;
            best = 1;
        }
        while (now(clock) - start < seconds || best == 1) {
            double t = now(clock);
            for (int i = 0; i < batch; i++)
                measured(o, call);
            t = (now(clock) - t) / batch;
            if (t < best)
                best = t;
        }
        printf("%llu %.3f\n", (unsigned long long)reply, best * 1e6);
    } else if (!strcmp(mode, "once")) {
        for (int i = 8; i + 1 < n; i += 2) {
            int call = call_called(v[i]);
            const struct one *o = one_called(v[i + 1]);
            measured(o, call);
        }
    } else {
        return 2;
    }
    return 0;
}
