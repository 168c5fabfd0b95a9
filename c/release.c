/* The README's example: somebody brings a proof that Ada and Cara may release a sheet. Reads the office's credentials file on standard input, checks the
   proof for them on Thursday at 10:00 and on Friday at 17:59 and 18:00, and for Ada and Ben, and prints what it got. Then asks, without a proof at hand,
   whether Ada and Cara may release on Thursday, and whether all three may. */
#include <inttypes.h>
#include <stdio.h>

#include "rtt.h"

enum { OFFICE, ADA, BEN, CARA };        /* entities */
enum { REVIEWER, PARTNER, RELEASE };    /* role names */

/* The proof's three steps, 4 bytes a word. */
static const uint8_t credential[] = {0, 0, 0, 0,  3, 0, 0, 0,  5, 0, 0, 0};
static const uint8_t first[]      = {0, 0, 0, 0,  0, 0, 0, 0,  1, 0, 0, 0};
static const uint8_t second[]     = {0, 0, 0, 0,  0, 0, 0, 0,  0, 0, 0, 0};
static const uint8_t sets[]       = {2, 0, 0, 0,  8, 0, 0, 0, 10, 0, 0, 0};

static uint64_t check(const uint8_t *file, size_t length, uint32_t people, uint32_t minute)
{
    return rtt_check(file, length, RTT_NO_WITHDRAWALS, RTT_NO_WITHDRAWALS_LENGTH, rtt_role(OFFICE, RELEASE), people, minute,
                     credential, sizeof credential, first, sizeof first, second, sizeof second, sets, sizeof sets, 3);
}

static void print(const char *question, uint64_t reply)
{
    if (rtt_ok(reply))
        printf("%s: level %" PRIu64 "\n", question, reply);
    else
        printf("%s: refused %" PRIu32 " %" PRIu32 ", %s\n", question, rtt_number(reply), rtt_place(reply),
               rtt_refusal_text(rtt_number(reply)));
}

static void ask(const char *question, const uint8_t *file, size_t length, uint32_t people, uint32_t minute)
{
    int may = rtt_may_release(file, length, RTT_NO_WITHDRAWALS, RTT_NO_WITHDRAWALS_LENGTH, rtt_role(OFFICE, RELEASE), people, minute);
    printf("%s: %s\n", question, may ? "may release" : "may not release");
}

int main(void)
{
    uint8_t file[RTT_FILE_BYTES + 1];
    size_t length = fread(file, 1, sizeof file, stdin);
    uint32_t thursday = 3 * 1440 + 10 * 60, friday = 4 * 1440 + 18 * 60;
    uint32_t ada = 1u << ADA, ben = 1u << BEN, cara = 1u << CARA;
    print("Ada and Cara, Thursday 10:00", check(file, length, ada | cara, thursday));
    print("Ada and Cara, Friday 17:59", check(file, length, ada | cara, friday - 1));
    print("Ada and Cara, Friday 18:00", check(file, length, ada | cara, friday));
    print("Ada and Ben, Thursday 10:00", check(file, length, ada | ben, thursday));
    ask("Ada and Cara, Thursday 10:00", file, length, ada | cara, thursday);
    ask("Ada, Ben and Cara, Thursday 10:00", file, length, ada | ben | cara, thursday);
    return 0;
}
