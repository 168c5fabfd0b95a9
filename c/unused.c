/* Drops the result of each function that the header marks RTT_MUST_USE, once: as many errors with -Werror=unused-result. */
#include "rtt.h"

void drop(const uint8_t *in, uint8_t *out, size_t n, uint64_t reply);

void drop(const uint8_t *in, uint8_t *out, size_t n, uint64_t reply)
{
    rtt_complete(in, n, in, n, out, n, out, n, out, n);
    rtt_query(in, n, in, n, 0, 0, 0, out, n, out, n, out, n, out, n);
    rtt_check(in, n, in, n, 0, 0, 0, in, n, in, n, in, n, in, n, 0);
    rtt_ends(in, n, in, n, out, n);
    rtt_intervals(in, n, in, n, 0, out, n);
    rtt_forward(in, n, out, n);
    rtt_back(in, n, out, n);
    rtt_ok(reply);
    rtt_number(reply);
    rtt_place(reply);
    rtt_steps(reply);
    rtt_level(reply);
    rtt_may_release(in, n, in, n, 0, 0, 0);
}
