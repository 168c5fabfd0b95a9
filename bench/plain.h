/* Plain C with the interface of include/rtt.h: what a programmer would write who proves nothing. */
#ifndef PLAIN_H
#define PLAIN_H

#include <stddef.h>
#include <stdint.h>

/* The given-clause loop with a hash table; `grouped`: equal statements joined and equal bodies of ⊙ and ⊗ evaluated once. */
uint64_t plain_complete(const uint8_t *file, size_t length, const uint8_t *withdrawals, size_t withdrawals_length,
                        uint8_t *roles, size_t roles_length, uint8_t *sets, size_t sets_length, uint8_t *spans,
                        size_t spans_length);
uint64_t grouped_complete(const uint8_t *file, size_t length, const uint8_t *withdrawals, size_t withdrawals_length,
                          uint8_t *roles, size_t roles_length, uint8_t *sets, size_t sets_length, uint8_t *spans,
                          size_t spans_length);

/* The same loop at one minute. */
uint64_t plain_query(const uint8_t *file, size_t length, const uint8_t *withdrawals, size_t withdrawals_length,
                     uint32_t role, uint32_t set, uint32_t minute, uint8_t *credential, size_t credential_length,
                     uint8_t *first, size_t first_length, uint8_t *second, size_t second_length, uint8_t *sets,
                     size_t sets_length);
uint64_t grouped_query(const uint8_t *file, size_t length, const uint8_t *withdrawals, size_t withdrawals_length,
                       uint32_t role, uint32_t set, uint32_t minute, uint8_t *credential, size_t credential_length,
                       uint8_t *first, size_t first_length, uint8_t *second, size_t second_length, uint8_t *sets,
                       size_t sets_length);

uint64_t plain_check(const uint8_t *file, size_t length, const uint8_t *withdrawals, size_t withdrawals_length,
                     uint32_t role, uint32_t set, uint32_t minute, const uint8_t *credential, size_t credential_length,
                     const uint8_t *first, size_t first_length, const uint8_t *second, size_t second_length,
                     const uint8_t *sets, size_t sets_length, uint64_t steps);

uint64_t plain_ends(const uint8_t *file, size_t length, const uint8_t *withdrawals, size_t withdrawals_length, uint8_t *ends,
                    size_t ends_length);
uint64_t plain_intervals(const uint8_t *file, size_t length, const uint8_t *withdrawals, size_t withdrawals_length,
                         uint64_t spans, uint8_t *bounds, size_t bounds_length);

uint64_t plain_forward(const uint8_t *old, size_t old_length, uint8_t *file, size_t file_length);
uint64_t plain_back(const uint8_t *file, size_t file_length, uint8_t *old, size_t old_length);

/* Role, set and minute of the membership with the highest least level; 0 where the file or the list is refused, or there is
   none. */
int plain_deepest(const uint8_t *file, size_t length, const uint8_t *withdrawals, size_t withdrawals_length, uint32_t *role,
                  uint32_t *set, uint32_t *minute);

#endif
