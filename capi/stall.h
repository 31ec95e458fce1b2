/* The stall calculator, for C: six calls, each proved (crates/stall in the repository).
 *
 * Link with target/staticlib/libstall.a, which `tools/build stall` writes for x86-64 Linux.
 *
 * What a caller owes, for every call:
 *   - A slice is a pointer, then the number of its elements. The pointer leads to that many elements, which the caller may
 *     read, and, where the pointer is not const, write; it is aligned for its type and not null. For a slice of no
 *     elements any aligned pointer that is not null does, as the address of a variable of that type.
 *   - A slice that is not const overlaps no other slice of the same call.
 *   - No other thread writes the const slices, or reads or writes the others, before the call returns.
 * Nothing else is asked: any order, any lengths and any contents are answered.
 *
 * Thread-safety: each call is a pure function of what it is lent. It keeps nothing between calls, allocates no memory, does no
 * input or output, and of the C library it uses memcpy and memset alone, so calls on different memory may run at once.
 * Every call ends, and uses little of the stack: less than STALL_SOLVE_STACK bytes and so on, below.
 *
 * The returned number is 0 (accepted), or the number of the first refusal that applies. docs/FORMAT.md in the repository has, for each
 * number, what it means and its two places ("The refusals"), and for each call which it tries, in which order ("The order"); a call here
 * tries what the call of the same name without "stall_" does, stall_write_short what write does. From stall_read the bytes are at fault,
 * from every other call the chain.
 * After a refusal all lent memory is unchanged, the answer slice apart.
 *
 * The answer slice. Where it has three places or more, four or more for stall_join, the first three or four are written, always:
 *    after 0          what the call below says
 *    after a refusal  answer[0], answer[1]: the refusal's two places, 0 where FORMAT.md names none;
 *                     answer[2]: the side at fault, STALL_CHAIN or STALL_BYTES;
 *                     answer[3], of stall_join alone: whose refusal it is, STALL_JOINT, STALL_FIRST or STALL_SECOND
 * Its further places keep what they held. A slice with fewer is not written; the returned number is the same.
 * The answer slice never leads to refusal 5.
 */
#ifndef STALL_H
#define STALL_H

#include <stddef.h>
#include <stdint.h>

#ifdef __cplusplus
extern "C" {
#endif

#define STALL_MAX_ORDER 64
#define STALL_MAX_ENTRIES 4032       /* 64 * 63 */
#define STALL_MAX_BYTES 17153        /* of a stored chain, in either form: 1 + 2 * 64 * 8 + 4 * 4032 */
#define STALL_MAX_BYTES_FORM_1 16641 /* in form 1: 1 + 64 * 8 + 4 * 4032 */
#define STALL_GROUPS 16

#define STALL_CHAIN 0
#define STALL_BYTES 1

#define STALL_JOINT 0
#define STALL_FIRST 1
#define STALL_SECOND 2

/* Each call uses less than so many bytes of the stack, its arguments there counted (measured, not proved: the C test holds it). What
 * the dynamic linker takes when a program first calls memcpy or memset is not counted. */
#define STALL_SOLVE_STACK 4096
#define STALL_SOLVE_GROUPS_STACK 5120
#define STALL_READ_STACK 1024
#define STALL_WRITE_STACK 1024
#define STALL_WRITE_SHORT_STACK 1024
#define STALL_JOIN_STACK 1024

/* A chain of order n in rows (compressed sparse rows, places from 0, no diagonal).
 *   starts   n + 1 numbers: the first is 0, none is below the one before, the last is columns_length
 *   columns  the entries of row i stand at places starts[i] up to, not including, starts[i + 1]; within a row they rise
 *            strictly, are below n and never equal the row
 *   rates    one for each column, each above 0; where there is no move there is no entry
 *
 * A non-empty set of states is closed if each of them reaches all the others of the set and nothing outside it: once there, a
 * station never leaves it. A chain has an answer if it has exactly one closed set; let r be the number of its states. A state
 * outside, such as one that is met only after power-on, is left for good: its weight and its share are Zero.
 *
 * A result (m, e) means m * 2^e: 2^31 <= m < 2^32 and -16384 <= e <= 16383, or is Zero, (0, 0). Of weights and shares those of the
 * states outside the closed set are Zero, and no others. */

/* Solves a chain: its closed set as a chain of its own, in state order.
 *   needs     work_m, work_e: n * n places each; the four result slices: n places each, whatever r is; places beyond keep what
 *             they held
 *   after 0   weight_m[i], weight_e[i] are the weight of state i (that of the closed set's last state is 1), share_m[i],
 *             share_e[i] its share; all n * n needed work places are 0; answer[0] is the bound count
 *             K(r) = (2 r^3 + 6 r^2 - 8 r) / 3, answer[1] and answer[2] are 0. With F = 2^32 / (2^32 - 1), each weight lies within
 *             K(r) factors F of the exact one, each share within 2 K(r) + r
 *   after a refusal  the work and result slices are unchanged */
uint32_t stall_solve(size_t n,
                     const uint32_t *starts, size_t starts_length,
                     const uint32_t *columns, size_t columns_length,
                     const uint32_t *rates, size_t rates_length,
                     uint32_t *work_m, size_t work_m_length,
                     int32_t *work_e, size_t work_e_length,
                     uint32_t *weight_m, size_t weight_m_length,
                     int32_t *weight_e, size_t weight_e_length,
                     uint32_t *share_m, size_t share_m_length,
                     int32_t *share_e, size_t share_e_length,
                     size_t *answer, size_t answer_length);

/* Solves a chain as stall_solve does, and sums its shares by group.
 *   table     three numbers a row: a first state, a last state, and the group, 0 to 15, of all states from the first to the last;
 *             each state is in one row; the rows stand in any order. Rows count from 0, and a last row of one or two numbers
 *             is a row cut short
 *   needs     what stall_solve needs; group_m, group_e: STALL_GROUPS places each; places beyond keep what they held
 *   after 0   all that stall_solve says; and group_m[g], group_e[g] are the share of group g: the sum, from Zero, of the shares of
 *             its states, the lowest state first. A group without states in the closed set is Zero. Each lies within
 *             2 K(r) + 2 n factors F of the exact one
 *   after a refusal  the work and result slices are unchanged, those of the groups too */
uint32_t stall_solve_groups(size_t n,
                            const uint32_t *starts, size_t starts_length,
                            const uint32_t *columns, size_t columns_length,
                            const uint32_t *rates, size_t rates_length,
                            const uint32_t *table, size_t table_length,
                            uint32_t *work_m, size_t work_m_length,
                            int32_t *work_e, size_t work_e_length,
                            uint32_t *weight_m, size_t weight_m_length,
                            int32_t *weight_e, size_t weight_e_length,
                            uint32_t *share_m, size_t share_m_length,
                            int32_t *share_e, size_t share_e_length,
                            uint32_t *group_m, size_t group_m_length,
                            int32_t *group_e, size_t group_e_length,
                            size_t *answer, size_t answer_length);

/* Reads a stored chain of either form, which its first byte tells.
 *   form 1    one byte n; then for each row a map of (n + 7) / 8 bytes, bit j in byte j / 8, lowest bit first, and the rates whose bit
 *             stands, columns rising, four bytes each, low byte first
 *   form 2    one byte 128 + n; then for each row its map, a second map of as many bytes, in which the bits of the rates below 65,536
 *             stand and no others, and the rates, two bytes each where that bit stands and four where not
 *   needs     starts: n + 1 places; columns and rates: one place for each entry (STALL_MAX_ORDER + 1 and STALL_MAX_ENTRIES
 *             always do); places beyond keep what they held
 *   after 0   the chain stands in the three slices; answer[0] is n, answer[1] the number of entries, answer[2] the form, 1 or 2. To solve
 *             or to write it, pass n + 1 starts and answer[1] columns and rates
 *   after a refusal  the three slices are unchanged */
uint32_t stall_read(const uint8_t *bytes, size_t bytes_length,
                    uint32_t *starts, size_t starts_length,
                    uint32_t *columns, size_t columns_length,
                    uint32_t *rates, size_t rates_length,
                    size_t *answer, size_t answer_length);

/* Stores a chain in form 1. A chain without an answer (refusal 6 of solving) is stored too.
 *   needs     out: 1 + n * ((n + 7) / 8) + 4 * (entries) bytes (STALL_MAX_BYTES_FORM_1 always do); bytes beyond keep what they held
 *   after 0   the file stands in the first answer[0] bytes of out; answer[1] and answer[2] are 0
 *   after a refusal  out is unchanged */
uint32_t stall_write(size_t n,
                     const uint32_t *starts, size_t starts_length,
                     const uint32_t *columns, size_t columns_length,
                     const uint32_t *rates, size_t rates_length,
                     uint8_t *out, size_t out_length,
                     size_t *answer, size_t answer_length);

/* Stores a chain in form 2, and is as stall_write in all else. Where 2 * (rates below 65,536) is below n * ((n + 7) / 8), the file is
 * longer than that of form 1.
 *   needs     out: 1 + 2 * n * ((n + 7) / 8) + 2 * (rates below 65,536) + 4 * (other rates) bytes (STALL_MAX_BYTES always do); bytes
 *             beyond keep what they held
 *   after 0   the file stands in the first answer[0] bytes of out; answer[1] and answer[2] are 0
 *   after a refusal  out is unchanged */
uint32_t stall_write_short(size_t n,
                           const uint32_t *starts, size_t starts_length,
                           const uint32_t *columns, size_t columns_length,
                           const uint32_t *rates, size_t rates_length,
                           uint8_t *out, size_t out_length,
                           size_t *answer, size_t answer_length);

/* Joins the chains of two stations side by side, of orders n1 and n2, into one chain of order n1 * n2: its state i * n2 + j has the
 * first in state i and the second in state j. One of the two moves at a time, with its own rate. The two may be one chain, lent by the
 * same pointers.
 *   needs     starts: n1 * n2 + 1 places; columns and rates: n2 * (entries of the first) + n1 * (entries of the second) places
 *             (STALL_MAX_ORDER + 1 and STALL_MAX_ENTRIES always do); places beyond keep what they held
 *   refusal   places of a part's refusal are those in that part; 15 and 5 are the joint chain's, STALL_JOINT. A part without an answer
 *             (refusal 6 of solving) is joined too
 *   after 0   the joint chain stands in the three slices; answer[0] is the number of its entries, answer[1], answer[2] and answer[3]
 *             are 0. To solve or to write it, pass n1 * n2 + 1 starts and answer[0] columns and rates. Where both parts have an
 *             answer it has one, and its exact shares are the products of theirs
 *   after a refusal  the three slices are unchanged */
uint32_t stall_join(size_t n1,
                    const uint32_t *starts1, size_t starts1_length,
                    const uint32_t *columns1, size_t columns1_length,
                    const uint32_t *rates1, size_t rates1_length,
                    size_t n2,
                    const uint32_t *starts2, size_t starts2_length,
                    const uint32_t *columns2, size_t columns2_length,
                    const uint32_t *rates2, size_t rates2_length,
                    uint32_t *starts, size_t starts_length,
                    uint32_t *columns, size_t columns_length,
                    uint32_t *rates, size_t rates_length,
                    size_t *answer, size_t answer_length);

#ifdef __cplusplus
}
#endif

#endif
