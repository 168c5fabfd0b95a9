/* rtt_may_release over calls that answer as they are told: what it makes of their replies, and what it asks them. Linked without the library. */
#include <stdio.h>

#include "rtt.h"

static uint64_t query_says, check_says;
static unsigned checks, failed;
static const uint8_t file[] = {1, 2, 3}, withdrawals[] = {4, 5, 6, 7};
static const uint8_t *lent[4];

static void expect(int holds, const char *what)
{
    if (holds)
        return;
    failed++;
    printf("c/told.c: not so: %s\n", what);
}

static int asked(const uint8_t *bytes, size_t length, const uint8_t *list, size_t list_length, uint32_t role, uint32_t set, uint32_t minute)
{
    return bytes == file && length == sizeof file && list == withdrawals && list_length == sizeof withdrawals && role == 33 && set == 6 && minute == 15;
}

uint64_t rtt_query(const uint8_t *bytes, size_t length, const uint8_t *list, size_t list_length, uint32_t role, uint32_t set, uint32_t minute,
                   uint8_t *credential, size_t credential_length, uint8_t *first, size_t first_length, uint8_t *second, size_t second_length,
                   uint8_t *sets, size_t sets_length)
{
    expect(asked(bytes, length, list, list_length, role, set, minute), "the query is for what was asked");
    expect(credential_length == 4096 && first_length == 4096 && second_length == 4096 && sets_length == 4096, "lists of 1,024 entries");
    lent[0] = credential;
    lent[1] = first;
    lent[2] = second;
    lent[3] = sets;
    return query_says;
}

uint64_t rtt_check(const uint8_t *bytes, size_t length, const uint8_t *list, size_t list_length, uint32_t role, uint32_t set, uint32_t minute,
                   const uint8_t *credential, size_t credential_length, const uint8_t *first, size_t first_length, const uint8_t *second,
                   size_t second_length, const uint8_t *sets, size_t sets_length, uint64_t steps)
{
    checks++;
    expect(asked(bytes, length, list, list_length, role, set, minute), "the check is for what was asked");
    expect(credential == lent[0] && first == lent[1] && second == lent[2] && sets == lent[3], "the check gets the query's lists");
    expect(credential_length == 4096 && first_length == 4096 && second_length == 4096 && sets_length == 4096, "as long as they are");
    expect(steps == 3, "the check gets the query's step count");
    return check_says;
}

static void told(uint64_t query, uint64_t check, int answer, unsigned checked, const char *what)
{
    query_says = query;
    check_says = check;
    checks = 0;
    expect(rtt_may_release(file, sizeof file, withdrawals, sizeof withdrawals, 33, 6, 15) == answer, what);
    expect(checks == checked, "a proof is checked, and nothing else");
}

int main(void)
{
    const uint64_t refusal = 4294967296u, found = 3 + 2 * 65536;
    told(found, 2, 1, 1, "a proof that the check gives the query's level releases");
    told(found, 15 * refusal + 2, 0, 1, "a refused proof does not, though its place is the level");
    told(found, 16 * refusal, 0, 1, "nor does one of another membership");
    told(found, 2 * refusal, 0, 1, "nor does a refused file");
    told(found, 21 * refusal, 0, 1, "nor a refused withdrawal list");
    told(found, 1, 0, 1, "nor a lower level");
    told(found, 3, 0, 1, "nor a higher one");
    told(found, found, 0, 1, "nor the query's own reply");
    told(13 * refusal, 0, 0, 0, "without a proof there is no release");
    told(4 * refusal + 2, 2, 0, 0, "nor after any other refusal");
    told(20 * refusal, 2, 0, 0, "nor where the withdrawal list is refused");
    told(10 * refusal, 0, 0, 0, "nor where the lists are too short");
    return failed != 0;
}
