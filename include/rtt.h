/* Who may release this sheet, and when: RT^T_+ credentials with periods.

   Seven calls. Each takes the bytes of a credentials file (rtt(5)), rtt_forward those of an old one, and lists that the
   caller lends, and replies with one 64-bit number. All but rtt_forward and rtt_back take a withdrawal list right after
   the file: RTT_NO_WITHDRAWALS, where nothing is withdrawn. What a call replies and every byte that it leaves are
   proved, for every input that keeps to "What the caller owes" below, against the definitions that the contracts in
   crates/rtt_c cite. The inline functions after the calls are plain C, and tested; rtt_may_release, the last of them, is
   all that a release needs.

   Lists

   A list is lent as bytes, lowest byte first: 4 bytes an entry, 8 in `spans`. rtt_entry32 and rtt_entry64 read entries.
   Every length counts bytes. All lists of one rtt_complete, rtt_query or rtt_check have the same number L of entries, 1
   to 1,024: 4 * L bytes, and 8 * L for `spans`. The list of rtt_ends and that of rtt_intervals have 256 bytes, no more
   and no less; that of rtt_forward and that of rtt_back are as long as the file that is written. The withdrawal list has
   a form of its own, and is meant only where it is called so. A role A.r is the number A * 32 + r, which rtt_role makes;
   a set of entities has bit e for entity e; minutes are 0 to 4,294,967,294, and rtt(5) recommends Unix time / 60.

   Signers

   A set is exactly the people who sign. Where two reviewers together may release, and Ada and Ben are reviewers, the set
   {Ada, Ben} may. {Ada, Ben, Cara} is another set, and refused with 13 unless the credentials give that very set too. So
   where there are more signatures than needed, the caller decides which signers it takes for the release, and asks for
   exactly that set: for instance for the people whom the release form names, once all of them have signed, whoever else
   signed too. If any of the signers may count, it asks for each subset of them that should be allowed to count, one call
   for each, until one is a success. No call tries subsets by itself.

   Steps

   A proof step is four words, at the same place of four lists:

     credential  the position of the credential that it uses, counted from 0 in the file; not its serial
     first       the first step that it cites, counted from 0 in the proof; 0 where none is cited
     second      the second step that it cites, likewise
     sets        the resulting set: the step shows that the credential's role A.r has this set

   It cites no step (kind 0), one that is of b.s (kind 1) or two (kinds 2 to 5), all of them earlier ones. In kind 2 the
   first shows {C} in b.s and the second X in C.t; in kinds 3 to 5 the first is of b.s and the second of c.t. The two may
   be the same step. A step's level is 1 if it cites none, else one more than the highest level that it cites; a proof
   has the level of its last step.

   Withdrawals

   A withdrawal takes from one credential, which it names by its serial, all minutes from a given one on. A withdrawal
   list is bytes, lowest byte first: a count of 2 bytes, 0 to 256, then so many serials of 4 bytes, then as many minutes
   of 4 bytes. All serials stand before all minutes, and the first minute belongs to the first serial. It has
   2 + 8 * count bytes, which rtt_withdrawals_length gives. The serials may have any order; each is that of a credential
   of the file, and none comes twice. A position is no serial. rtt_entry32(withdrawals + 2, i) is serial i, and
   rtt_entry32(withdrawals + 2, count + i) its minute.

   The period of a credential whose serial is in the withdrawal list is cut to its minutes before the minute w that
   belongs to the serial:

     w <= from         no minutes and no ends are left. The credential keeps its position; a step that uses it is
                       refused with 15
     from < w <= to    from to w - 1 are left; w itself is not covered
     w > to            nothing changes. w may be 4,294,967,295

   Everything is judged on the cut periods: ends, spans, memberships, proofs and levels, and so refusals 8, 10, 13, 15
   and the 11 of rtt_intervals. The same file with another withdrawal list is therefore like another file. Lend
   rtt_complete, rtt_query and rtt_check the same withdrawal list, or they speak of different minutes: a proof that was
   handed out with one may be refused with another. Lend rtt_ends and rtt_intervals the withdrawal list that
   rtt_complete was lent: the numbers in `spans` count the ends that this one leaves.

   rtt_forward and rtt_back take no withdrawal list, and cut nothing. A file that has over 64 ends may pass the other
   calls with a withdrawal list that leaves 64 or fewer, and be refused by rtt_back with 8. The other way round, a cut
   can bring an end that the file had not, so that a file that rtt_back passes may be refused here with 8.

   Ends and spans

   A period covers minute m when from <= m and m <= to, and m < w where its credential is withdrawn. The ends of a file
   are the first minute of each period that covers any and the minute after its last, each number once, ascending; end 0
   is the lowest. For a period that is not cut these are from and to + 1, for one that is they are from and w. Span i
   runs from end i up to, not including, end i + 1. So n ends make n - 1 spans, and no ends make none. The last end can
   be 4,294,967,295, which is no minute. rtt_ends writes the ends, rtt_intervals turns spans into minutes.

   Old files

   An old file is one of version 1 of this interface: 6 + 16 * N bytes, statements of 8 bytes without a serial, and
   periods that cover minute m when from <= m and m < to. rtt_forward writes the file that it becomes, rtt_back the old
   file that a file becomes: going forward, the serial is the credential's position plus one, and `to` is lowered by
   one; going back undoes both. Both files have the same memberships at the same minutes and the same proofs. All other
   calls read files, and refuse an old one with 3 unless N is 0.

   Files of version 2, without serials but with `to` covered, look like old files and are not. rtt_forward takes the last
   minute of each of their periods away. It refuses such a file only where a period has from = to (7) or where the from
   and to values are over 64 (8), and cannot tell the others apart.

   Replies

   A reply below 2^32 is a success, and rtt_ok(reply) is 1. Any other is a refusal, and rtt_ok(reply) is 0;
   rtt_number(reply) is its number, rtt_place(reply) its place. Two ways to ask look right, give no warning with
   -Wall -Wextra, and release what was refused:

     if (rtt_check(..))           true for every refusal, for a refusal is not 0
     int level = rtt_check(..);   cuts off the number of a refusal: 15 at step 2 becomes 2, the level of a true proof;
                                  -Wconversion warns of this one

   Keep the reply in a uint64_t, and ask rtt_ok before anything else is read from it:

     uint64_t reply = rtt_check(..);
     if (!rtt_ok(reply))
         refuse, and say rtt_refusal_text(rtt_number(reply));

   The first condition that holds, from top to bottom, is the refusal; credentials are tested in file order, each
   through 4 to 7 and 17. Places count from 0. enum rtt_refusal has a name for each number.

     number  condition                                             place       given by
        1    the file has under 6 bytes                            0           all
        2    E or R outside 1 to 32, or N above 256                0           all
        3    the file's length is not 6 + 20 * N                   0           all but forward
        3    the old file's length is not 6 + 16 * N               0           forward
        4    a credential's kind is above 5                        credential  all
        5    its issuer or a used entity is not below E, or        credential  all
             its name or a used name is not below R
        6    an unused byte or byte 7 is not zero                  credential  all
        7    from is above to, or to is 4,294,967,295              credential  all but forward
        7    from is not below to, in an old file                  credential  forward
       17    its serial is zero or that of an earlier credential   credential  all but forward
       20    the withdrawal list has under 2 bytes, a count above  0           all but forward, back
             256, or a length that is not 2 + 8 * count
       21    the withdrawal list has a serial twice, or one that   0           all but forward, back
             is on no credential
        8    the cut periods have over 64 ends                     0           all but forward, back
        8    the periods have over 64 ends                         0           forward, back
       18    the list to write has another length than the         0           forward, back
             resulting file
       19    a serial is not its position plus one (the first      credential  back
             such credential)
        9    a list is not whole entries, the lists are not of     0           complete, query, check
             one length, or L is outside 1 to 1,024
        9    the list has not 256 bytes                            0           ends, intervals
       11    the role's issuer or name is out of range, or the     0           query, check
             set is empty or has an entity not below E
       11    `spans` has a bit beyond the last span                0           intervals
       12    the minute is 4,294,967,295                           0           query, check
       10    there are more than L memberships: over all minutes   0           complete, query
             (complete), at that minute (query)
       13    there is no proof                                     0           query
       14    the step count is outside 1 to L                      0           check
       15    a step breaks the rules for a proof step or names     step        check
             a credential not below N (the first such step)
       16    the last step is not the queried membership           0           check

   After 10 and 13 every byte of the lent lists is zero. After any other refusal they are as they were.

   What the caller owes

   - Each pointer is good for its length: to read, and to write where it is not const. Nobody else writes to these bytes
     during the call.
   - A list that the call writes overlaps nothing else that the call is lent: no file is brought forward or back in
     place. What is only read may overlap.
   - Threads may call at the same time. They may share the file, the withdrawal list and lists that all of them only
     read; a list that a call writes is used by no other call.
   - A pointer may be NULL if its length is 0. An empty file is refused with 1, empty lists with 9 or 18, and with 20 a
     withdrawal list without bytes, which RTT_NO_WITHDRAWALS is not.
   - No alignment is asked for.
   - Stack: see RTT_STACK. The calls use no heap, no files and no shared state.
   - x86-64 Linux, linked with librtt.a (-lrtt), which needs memcpy and memset and nothing else.  */
#ifndef RTT_H
#define RTT_H

#include <stddef.h>
#include <stdint.h>

#ifdef __cplusplus
extern "C" {
#endif

/* The version of this interface; the pkg-config file and the manual pages take it from here. The number is
   major * 10,000 + minor * 100 + patch. */
#define RTT_VERSION "4.1.1"
#define RTT_VERSION_NUMBER 40101

/* Bytes of stack that are enough for any call, beside what the caller itself uses. Measured, no call takes more than

     rtt_complete   78,000 bytes
     rtt_query      59,000 bytes
     rtt_check      30,000 bytes
     rtt_ends        5,000 bytes
     rtt_intervals   5,000 bytes
     rtt_forward    15,000 bytes
     rtt_back        5,000 bytes

   which is rounded up to the next thousand. One rtt_query, by part:

     memberships found: role and set                   8,192
       how each came about, three 16-bit words         6,144
       looked up by role and set                       6,144
       listed by role                                  4,096
       at the minute or not, and which have given     16,384
     credentials other than sets, by what they use    14,404
     sets that wait to be given to several roles         776
     marks, while a proof is kept                      2,050
     frames                                              715

   and while the file is judged, in the room of what comes later, 4,096 for its credentials. A level is in none of them: it is
   counted when the membership is found. */
#define RTT_STACK 81920

/* Bytes of stack that are enough for rtt_query, for a server that runs many queries at a time. */
#define RTT_QUERY_STACK 59000

/* The bytes of the longest file. A longer one is refused, also where only RTT_FILE_BYTES + 1 bytes of it were read. */
#define RTT_FILE_BYTES 5126

/* The bytes of the longest old file; likewise. */
#define RTT_OLD_FILE_BYTES 4102

/* The bytes of the longest withdrawal list, of 256 withdrawals; likewise. */
#define RTT_WITHDRAWALS_BYTES 2050

/* The withdrawal list of count 0, which withdraws nothing, and its bytes.

   A caller of version 3 puts RTT_NO_WITHDRAWALS, RTT_NO_WITHDRAWALS_LENGTH after the file in rtt_complete, rtt_query,
   rtt_check, rtt_ends, rtt_intervals and rtt_may_release, and gets the replies and the bytes that it got from version 3.
   Every object that makes these calls has to be compiled anew: the linker does not see that they take more. */
#define RTT_NO_WITHDRAWALS ((const uint8_t *)"\0")
#define RTT_NO_WITHDRAWALS_LENGTH 2

/* The most entries of a list. */
#define RTT_ENTRIES 1024

/* The bytes of the list of rtt_ends, 64 entries of 4, and of the list of rtt_intervals, 32 pairs of two times 4. */
#define RTT_ENDS_BYTES 256
#define RTT_BOUNDS_BYTES 256

/* gcc and clang warn where the result of a function that is marked so is not used. */
#ifdef __GNUC__
#define RTT_MUST_USE __attribute__((warn_unused_result))
#else
#define RTT_MUST_USE
#endif

/* The numbers of the refusals; the table under "Replies" has the conditions. */
enum rtt_refusal {
    RTT_FILE_TOO_SHORT = 1,
    RTT_SIZES_OUT_OF_RANGE = 2,
    RTT_WRONG_FILE_LENGTH = 3,
    RTT_UNKNOWN_KIND = 4,
    RTT_CREDENTIAL_OUT_OF_RANGE = 5,
    RTT_BYTE_NOT_ZERO = 6,
    RTT_WRONG_PERIOD = 7,
    RTT_TOO_MANY_ENDS = 8,
    RTT_WRONG_LISTS = 9,
    RTT_TOO_MANY_MEMBERSHIPS = 10,
    RTT_REQUEST_OUT_OF_RANGE = 11,
    RTT_NOT_A_MINUTE = 12,
    RTT_NO_PROOF = 13,
    RTT_WRONG_STEP_COUNT = 14,
    RTT_WRONG_STEP = 15,
    RTT_OTHER_MEMBERSHIP = 16,
    RTT_WRONG_SERIAL = 17,
    RTT_WRONG_OUTPUT_LENGTH = 18,
    RTT_SERIAL_OUT_OF_PLACE = 19,
    RTT_WRONG_WITHDRAWALS = 20,
    RTT_WRONG_WITHDRAWN_SERIAL = 21
};

/* Completes the table of the file: every membership that is valid at one minute or more, with all spans in which it is.

   file          the bytes of a credentials file, read
   withdrawals   the bytes of a withdrawal list, read
   roles         4 bytes an entry, written
   sets          4 bytes an entry, written
   spans         8 bytes an entry, written; bit i stands for span i

   Returns the count of memberships. Entry i of the lists is the i-th membership, ascending by role, then by set; every
   entry after the last is zero. Refuses with 1 to 10, 17, 20 and 21.  */
RTT_MUST_USE
uint64_t rtt_complete(const uint8_t *file, size_t file_length,
                      const uint8_t *withdrawals, size_t withdrawals_length,
                      uint8_t *roles, size_t roles_length,
                      uint8_t *sets, size_t sets_length,
                      uint8_t *spans, size_t spans_length);

/* Hands out a proof that the set is a member of the role at the minute, of the least level that any such proof has.

   file                              the bytes of a credentials file, read
   withdrawals                       the bytes of a withdrawal list, read
   role, set, minute                 the membership, and when it is to hold
   credential, first, second, sets   4 bytes an entry, written: the words of the proof's steps

   Returns steps + level * 65,536 (rtt_steps, rtt_level). Entry i is step i; the last step shows the queried membership;
   no membership is shown twice, and every step is one that the last rests on; every entry after the last is zero.
   Refuses with 1 to 13, 17, 20 and 21.  */
RTT_MUST_USE
uint64_t rtt_query(const uint8_t *file, size_t file_length,
                   const uint8_t *withdrawals, size_t withdrawals_length,
                   uint32_t role, uint32_t set, uint32_t minute,
                   uint8_t *credential, size_t credential_length,
                   uint8_t *first, size_t first_length,
                   uint8_t *second, size_t second_length,
                   uint8_t *sets, size_t sets_length);

/* Checks the first `steps` entries as a proof that the set is a member of the role at the minute. Writes nothing, and
   reads no entry past the step count.

   file                              the bytes of a credentials file, read
   withdrawals                       the bytes of a withdrawal list, read
   role, set, minute                 the membership, and when it is to hold
   credential, first, second, sets   4 bytes an entry, read: the words of the proof's steps
   steps                             how many steps the proof has, 1 to L; further entries may hold anything

   Returns the proof's level as it is, without steps: rtt_level is not for this reply. Refuses with 1 to 9, 11, 12, 14
   to 17, 20 and 21.  */
RTT_MUST_USE
uint64_t rtt_check(const uint8_t *file, size_t file_length,
                   const uint8_t *withdrawals, size_t withdrawals_length,
                   uint32_t role, uint32_t set, uint32_t minute,
                   const uint8_t *credential, size_t credential_length,
                   const uint8_t *first, size_t first_length,
                   const uint8_t *second, size_t second_length,
                   const uint8_t *sets, size_t sets_length,
                   uint64_t steps);

/* Lists the ends of the file.

   file          the bytes of a credentials file, read
   withdrawals   the bytes of a withdrawal list, read
   ends          RTT_ENDS_BYTES bytes, 4 an entry, written

   Returns the count of ends, at most 64. Entry i is end i, ascending; every entry after the last is zero. Refuses with
   1 to 9, 17, 20 and 21.  */
RTT_MUST_USE
uint64_t rtt_ends(const uint8_t *file, size_t file_length,
                  const uint8_t *withdrawals, size_t withdrawals_length,
                  uint8_t *ends, size_t ends_length);

/* Turns spans of the file, such as those of a membership, into the intervals of minutes that they cover.

   file          the bytes of a credentials file, read
   withdrawals   the bytes of a withdrawal list, read: the one that rtt_complete was lent
   spans         bit i stands for span i, as in the list that rtt_complete writes
   bounds        RTT_BOUNDS_BYTES bytes, 4 an entry, written: entries 2 * i and 2 * i + 1 are from and to of interval i,
                 which covers minute m when from <= m and m < to: unlike a period of the file, it does not cover `to`

   Returns the count of intervals, at most 32. They ascend and never touch, since spans that touch are joined; every
   entry after the last interval is zero. Refuses with 1 to 9, 11, 17, 20 and 21.  */
RTT_MUST_USE
uint64_t rtt_intervals(const uint8_t *file, size_t file_length,
                       const uint8_t *withdrawals, size_t withdrawals_length,
                       uint64_t spans,
                       uint8_t *bounds, size_t bounds_length);

/* Brings an old file forward: writes the file that has position plus one as serial and each `to` lowered by one.

   old    the bytes of an old file, read
   file   rtt_forward_length(old_length) bytes, written

   Returns the count of credentials, which may be 0. The written file passes 1 to 8 and 17. Refuses with 1 to 8 as they
   are for an old file, and 18.  */
RTT_MUST_USE
uint64_t rtt_forward(const uint8_t *old, size_t old_length,
                     uint8_t *file, size_t file_length);

/* Brings a file back: writes the old file without serials and with each `to` raised by one. Of the result of
   rtt_forward it gives the old file's own bytes.

   file   the bytes of a credentials file, read
   old    rtt_back_length(file_length) bytes, written

   Returns the count of credentials, which may be 0. The old file is one that rtt_forward accepts. Refuses with 1 to 8
   and 17, 18 and 19.  */
RTT_MUST_USE
uint64_t rtt_back(const uint8_t *file, size_t file_length,
                  uint8_t *old, size_t old_length);

/* The bytes of the list that rtt_forward and rtt_back write, by the length of what they read; at most RTT_FILE_BYTES and
   RTT_OLD_FILE_BYTES. With a list of this length 18 is never given: where the length that is read fits no file, the call
   refuses with 1 to 3. */
static inline size_t rtt_forward_length(size_t old_length)
{
    return old_length < 6 ? 0 : old_length > RTT_OLD_FILE_BYTES ? RTT_FILE_BYTES : 6 + (old_length - 6) / 16 * 20;
}

static inline size_t rtt_back_length(size_t file_length)
{
    return file_length < 6 ? 0 : file_length > RTT_FILE_BYTES ? RTT_OLD_FILE_BYTES : 6 + (file_length - 6) / 20 * 16;
}

/* The bytes of a withdrawal list of this count, at most RTT_WITHDRAWALS_BYTES. For a count above 256 it is 0, and a
   withdrawal list of 0 bytes is refused with 20. */
static inline size_t rtt_withdrawals_length(size_t count)
{
    return count > 256 ? 0 : 2 + 8 * count;
}

/* A reply taken apart. rtt_ok is 1 for a success and 0 for a refusal. rtt_number and rtt_place are those of a refusal,
   and 0 for a success. rtt_steps and rtt_level are for the reply of rtt_query alone: those of its proof, and 0 for a
   refusal. */
RTT_MUST_USE static inline int rtt_ok(uint64_t reply) { return reply >> 32 == 0; }
RTT_MUST_USE static inline uint32_t rtt_number(uint64_t reply) { return (uint32_t)(reply >> 32); }
RTT_MUST_USE static inline uint32_t rtt_place(uint64_t reply) { return rtt_ok(reply) ? 0 : (uint32_t)reply; }
RTT_MUST_USE static inline uint32_t rtt_steps(uint64_t reply) { return rtt_ok(reply) ? (uint32_t)reply & 65535 : 0; }
RTT_MUST_USE static inline uint32_t rtt_level(uint64_t reply) { return rtt_ok(reply) ? (uint32_t)reply >> 16 : 0; }

/* A refusal's number, which is rtt_number(reply), in words: a constant string. 0 is "no refusal"; any number above 21,
   such as the whole reply of a refusal, is "not the number of a refusal". */
static inline const char *rtt_refusal_text(uint64_t number)
{
    switch (number) {
    case 0: return "no refusal";
    case RTT_FILE_TOO_SHORT: return "the file has under 6 bytes";
    case RTT_SIZES_OUT_OF_RANGE: return "the file's number of entities, role names or credentials is out of range";
    case RTT_WRONG_FILE_LENGTH: return "the file's length does not fit its number of credentials";
    case RTT_UNKNOWN_KIND: return "a credential's kind is above 5";
    case RTT_CREDENTIAL_OUT_OF_RANGE: return "a credential has an entity or a role name that is out of range";
    case RTT_BYTE_NOT_ZERO: return "a credential's unused byte is not zero";
    case RTT_WRONG_PERIOD: return "a credential's period has no minute or ends after the last one";
    case RTT_TOO_MANY_ENDS: return "the periods have over 64 ends";
    case RTT_WRONG_LISTS: return "a lent list has a wrong length";
    case RTT_TOO_MANY_MEMBERSHIPS: return "there are more memberships than the lists have entries";
    case RTT_REQUEST_OUT_OF_RANGE: return "the role, the set or the spans are not within the file's numbers";
    case RTT_NOT_A_MINUTE: return "4294967295 is not a minute";
    case RTT_NO_PROOF: return "there is no proof";
    case RTT_WRONG_STEP_COUNT: return "the step count is 0 or more than the lists have entries";
    case RTT_WRONG_STEP: return "a step breaks the rules for a proof step";
    case RTT_OTHER_MEMBERSHIP: return "the last step is not the queried membership";
    case RTT_WRONG_SERIAL: return "a credential's serial is zero or that of an earlier credential";
    case RTT_WRONG_OUTPUT_LENGTH: return "the list to write has another length than the resulting file";
    case RTT_SERIAL_OUT_OF_PLACE: return "a credential's serial is not its position plus one";
    case RTT_WRONG_WITHDRAWALS: return "the withdrawal list has no count, a count above 256, or another length than its count takes";
    case RTT_WRONG_WITHDRAWN_SERIAL: return "the withdrawal list has a serial twice or one that is on no credential";
    default: return "not the number of a refusal";
    }
}

/* The role issuer.name as a number, issuer * 32 + name. If either is above 31 it is 4,294,967,295, a role of no file,
   which rtt_query and rtt_check refuse with 11: the sum alone would turn 0.34 into 1.2. */
static inline uint32_t rtt_role(uint64_t issuer, uint64_t name)
{
    return issuer < 32 && name < 32 ? (uint32_t)(issuer * 32 + name) : 4294967295u;
}

/* Entry i of a list, counted in entries from 0: of 4 bytes, and of 8 bytes as in `spans`. */
static inline uint32_t rtt_entry32(const uint8_t *list, size_t i)
{
    const uint8_t *entry = list + 4 * i;
    return entry[0] | (uint32_t)entry[1] << 8 | (uint32_t)entry[2] << 16 | (uint32_t)entry[3] << 24;
}

static inline uint64_t rtt_entry64(const uint8_t *list, size_t i)
{
    return rtt_entry32(list, 2 * i) | (uint64_t)rtt_entry32(list, 2 * i + 1) << 32;
}

/* May this set of people release the sheet at this minute? 1 only if there is a proof that the set is a member of the
   role at the minute, and the check of that proof, for the same file, withdrawal list, role, set and minute, gives the
   query's level. Else 0, also where the file, the withdrawal list or the request is refused, and where there are more
   than 1,024 memberships at that minute (10); rtt_query says why. The result is no reply, and rtt_ok is not for it.

   Its four lists take 4 * 4,096 = 16,384 bytes of its own stack, beside the RTT_STACK that its calls may take. */
RTT_MUST_USE
static inline int rtt_may_release(const uint8_t *file, size_t file_length,
                                  const uint8_t *withdrawals, size_t withdrawals_length,
                                  uint32_t role, uint32_t set, uint32_t minute)
{
    uint8_t credential[4 * RTT_ENTRIES], first[4 * RTT_ENTRIES], second[4 * RTT_ENTRIES], sets[4 * RTT_ENTRIES];
    uint64_t checked, got = rtt_query(file, file_length, withdrawals, withdrawals_length, role, set, minute,
                                      credential, sizeof credential, first, sizeof first,
                                      second, sizeof second, sets, sizeof sets);
    if (!rtt_ok(got))
        return 0;
    checked = rtt_check(file, file_length, withdrawals, withdrawals_length, role, set, minute,
                        credential, sizeof credential, first, sizeof first,
                        second, sizeof second, sets, sizeof sets, rtt_steps(got));
    return rtt_ok(checked) && checked == rtt_level(got);
}

#ifdef __cplusplus
}
#endif

#endif
