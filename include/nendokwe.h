/* The calls of libnendokwe.a (`rt lib` in crates/nendokwe), for C on x86-64.
 *
 * A text or a buffer goes over as a pointer and a length: bytes for texts, 64-bit words for picks and states, 32-bit entries for steps.
 * What is only read is const. Buffers must not overlap each other, nor `number`, `place` or any other result; with a length of 0 any
 * pointer will do, a null pointer too.
 *
 * Every call answers whatever is handed over. It writes a refusal's number to *number and its place to *place, or 0 and the count named
 * at the call. docs/GUIDE.md says what the numbers mean. A buffer that is too short is 12, and the place is the length that is needed; a
 * refused call leaves every buffer as it was, except that 13, 14 and 15 leave the state before the step that failed (15, and 13 for a
 * page: the last one).
 * Words and entries past what is written stay as they were. With 1.5 MiB of stack every call answers.
 *
 * A text has at most 1,048,576 bytes, a list 1,048,576 steps, a case 64 elements, 1,048,576 atoms and 4,194,304 actions; the relation of an
 * `every` line 8 tuples, and no more than 1,048,576 steps may be built of such a case (23). The desk program
 * keeps to 16,384 bytes, 16 elements, 65,536 atoms, 131,072 actions and 8,192 built steps.
 */
#ifndef NENDOKWE_H
#define NENDOKWE_H

#include <stddef.h>
#include <stdint.h>

#ifdef __cplusplus
extern "C" {
#endif

/* Where the rule's formula lies in the question's own bytes; length 0 where the question is refused. */
void nendokwe_rule(const uint8_t *question, size_t question_length, size_t *start, size_t *length);

/* Elements, atoms, actions and the most steps that are ever built; success is 0 and 0. A refusal leaves the four as they were. */
void nendokwe_sizes(const uint8_t *question, size_t question_length, const uint8_t *site, size_t site_length,
                    uint32_t *number, size_t *place, size_t *elements, size_t *atoms, size_t *actions, size_t *bound);

/* The action of number k: kind 0 set, 1 begin-proof, 2 and, 3 or, 4 exists, 5 forall, 6 prove-goal, and with an `every` line 7 round-end
 * (in the place of 6), 8 mark-in, 9 mark-out; its relation or node; its row; the part or element that is chosen. Relations are numbered from 0: EQ, LT, SUC, ZERO, MAX, then those of the `rel` lines, then those of
 * the `choose` lines, each in order, then that of an `every` line; so the first `choose` has number 5 and one more for each `rel` line. 13
 * and k where there is none.
 * Success is 0 and 0; a refusal leaves the four as they were. */
void nendokwe_action(const uint8_t *question, size_t question_length, const uint8_t *site, size_t site_length, size_t k,
                     uint32_t *number, size_t *place, uint32_t *kind, size_t *subject, size_t *row, size_t *choice);

/* Checks steps, as a text or as numbers; success is 0 and the step count. The state needs a word for each 64 atoms. */
void nendokwe_check_text(const uint8_t *question, size_t question_length, const uint8_t *site, size_t site_length,
                         const uint8_t *steps, size_t steps_length, uint64_t *state, size_t state_length,
                         uint32_t *number, size_t *place);
void nendokwe_check(const uint8_t *question, size_t question_length, const uint8_t *site, size_t site_length,
                    const uint32_t *steps, size_t steps_length, uint64_t *state, size_t state_length,
                    uint32_t *number, size_t *place);

/* Checks steps and reads their picks: for each `choose`, from a word of its own on, a bit for each tuple. Only accepted steps write
 * picks. */
void nendokwe_picks_text(const uint8_t *question, size_t question_length, const uint8_t *site, size_t site_length,
                         const uint8_t *steps, size_t steps_length, uint64_t *picks, size_t picks_length,
                         uint64_t *state, size_t state_length, uint32_t *number, size_t *place);
void nendokwe_picks(const uint8_t *question, size_t question_length, const uint8_t *site, size_t site_length,
                    const uint32_t *steps, size_t steps_length, uint64_t *picks, size_t picks_length,
                    uint64_t *state, size_t state_length, uint32_t *number, size_t *place);

/* Builds steps from picks, as a text or as words; success is 0 and the step count. The steps need as many entries as the bound says. */
void nendokwe_build_text(const uint8_t *question, size_t question_length, const uint8_t *site, size_t site_length,
                         const uint8_t *picks, size_t picks_length, uint64_t *state, size_t state_length,
                         uint32_t *steps, size_t steps_length, uint32_t *number, size_t *place);
void nendokwe_build(const uint8_t *question, size_t question_length, const uint8_t *site, size_t site_length,
                    const uint64_t *picks, size_t picks_length, uint64_t *state, size_t state_length,
                    uint32_t *steps, size_t steps_length, uint32_t *number, size_t *place);

/* Says whether the rule is true of picks, as a text or as words, and writes nothing: a yes is 0 and 0, a no or any other refusal is what
 * building answers with buffers that are long enough. Values are tried until the rule is decided, and nothing is kept for later: at worst,
 * with four quantifiers over 64 elements, these are 16,777,216 turns with some 50 tests each, which takes seconds. A server that takes
 * rules from strangers limits the elements, or the time of a call. */
void nendokwe_judge_text(const uint8_t *question, size_t question_length, const uint8_t *site, size_t site_length,
                         const uint8_t *picks, size_t picks_length, uint32_t *number, size_t *place);
void nendokwe_judge(const uint8_t *question, size_t question_length, const uint8_t *site, size_t site_length,
                    const uint64_t *picks, size_t picks_length, uint32_t *number, size_t *place);

/* How far one pick can move the built steps: for each `choose`, in order, one number. Where picks that steps are built from get one
 * tuple of that relation more, or one less, and steps are built again, the two step counts differ by at most this number. The buffer
 * needs one entry for each `choose`; success is 0 and 0. */
void nendokwe_allowances(const uint8_t *question, size_t question_length, const uint8_t *site, size_t site_length,
                         uint64_t *allowances, size_t allowances_length, uint32_t *number, size_t *place);

/* Many step lists of one case: a record says where its list begins among the steps and how long it is, and gets the number and place of
 * a check of that list alone (1 over the step limit; 12 and the sum where it is not all lent). Success is 0 and 0, and the initial state
 * is left; a refused case leaves records and state as they were. Lists may overlap, so the call's time goes by the sum of their lengths,
 * whatever is lent: a server caps that sum. */
typedef struct nendokwe_try {
    uint32_t first;
    uint32_t length;
    uint32_t number;
    uint64_t place;
} nendokwe_try;
void nendokwe_tries(const uint8_t *question, size_t question_length, const uint8_t *site, size_t site_length,
                    const uint32_t *steps, size_t steps_length, nendokwe_try *tries, size_t tries_length,
                    uint64_t *state, size_t state_length, uint32_t *number, size_t *place);

/* One page of the proof on paper, of steps as a text or as numbers: 60 lines of 72 columns and byte 10. Pages are counted from 1. The
 * steps are checked first, and the state is left as a check leaves it; then 13 and the page asked for where there is no such page. The
 * page needs NENDOKWE_PAGE bytes; success is 0 and that number. */
#define NENDOKWE_PAGE 4380
void nendokwe_page_text(const uint8_t *question, size_t question_length, const uint8_t *site, size_t site_length,
                        const uint8_t *steps, size_t steps_length, size_t page, uint64_t *state, size_t state_length,
                        uint8_t *out, size_t out_length, uint32_t *number, size_t *place);
void nendokwe_page(const uint8_t *question, size_t question_length, const uint8_t *site, size_t site_length,
                   const uint32_t *steps, size_t steps_length, size_t page, uint64_t *state, size_t state_length,
                   uint8_t *out, size_t out_length, uint32_t *number, size_t *place);

/* The least picks of the declared kinds that make the rule true, for a site without a planner: all tuples of the `choose` lines, in their
 * order and in row order, are read as a binary number, the first the most significant. At most 20 tuples (else 20); 21 says that no
 * picks of the declared kinds make the rule true. The buffer is that of lent picks; success is 0 and 0, any refusal leaves it. */
void nendokwe_find(const uint8_t *question, size_t question_length, const uint8_t *site, size_t site_length,
                   uint64_t *picks, size_t picks_length, uint32_t *number, size_t *place);

/* Whether some picks make the rule true, for rules that only ever want more: each `choose` plain and, once negation is pushed inward, none
 * negated (else 24). All tuples picked are tried, and nothing is written: a yes is 0 and 0, 21 says that no picks will do. */
void nendokwe_monotone(const uint8_t *question, size_t question_length, const uint8_t *site, size_t site_length,
                       uint32_t *number, size_t *place);

/* Plans in layers. A layer is steps that may all be taken in the state before it, none of which removes what another needs or adds. A plan
 * is lent as all its steps, layer after layer, and for each layer the index after its last step; ends that fall, or whose last is not the
 * step count (0 without layers), are 3 with the layer as place. Places of 13, 14 and 15 are layers too, and the state left is that before
 * the layer. Success is 0 and the number of layers.
 *
 * The window: how many layers accepted plans have at the least, and built ones at the most; success is 0 and 0, a refusal leaves the two. */
void nendokwe_window(const uint8_t *question, size_t question_length, const uint8_t *site, size_t site_length,
                     uint32_t *number, size_t *place, size_t *lower, size_t *upper);
void nendokwe_check_layers(const uint8_t *question, size_t question_length, const uint8_t *site, size_t site_length,
                           const uint32_t *steps, size_t steps_length, const uint32_t *ends, size_t ends_length,
                           uint64_t *state, size_t state_length, uint32_t *number, size_t *place);

/* The steps that nendokwe_build builds, each in the earliest layer that it may join. Room is needed as there, and for the ends as many
 * entries as the window's upper number. */
void nendokwe_build_layers_text(const uint8_t *question, size_t question_length, const uint8_t *site, size_t site_length,
                                const uint8_t *picks, size_t picks_length, uint64_t *state, size_t state_length,
                                uint32_t *steps, size_t steps_length, uint32_t *ends, size_t ends_length,
                                uint32_t *number, size_t *place);
void nendokwe_build_layers(const uint8_t *question, size_t question_length, const uint8_t *site, size_t site_length,
                           const uint64_t *picks, size_t picks_length, uint64_t *state, size_t state_length,
                           uint32_t *steps, size_t steps_length, uint32_t *ends, size_t ends_length,
                           uint32_t *number, size_t *place);

/* A case as PDDL (docs/PDDL.md has the layout to the byte): its domain, its instance, and plans. A text needs exactly as many bytes as it has
 * (12 tells how many), and success is 0 and that number; the bytes are not ended by a 0. A case with a `type` line is 22, one with an `every`
 * line 23. Steps are written whether they lead anywhere or not; 13 and the step's index comes before 12. */
void nendokwe_pddl_domain(const uint8_t *question, size_t question_length, const uint8_t *site, size_t site_length,
                          uint8_t *out, size_t out_length, uint32_t *number, size_t *place);
void nendokwe_pddl_instance(const uint8_t *question, size_t question_length, const uint8_t *site, size_t site_length,
                            uint8_t *out, size_t out_length, uint32_t *number, size_t *place);
void nendokwe_pddl_plan_text(const uint8_t *question, size_t question_length, const uint8_t *site, size_t site_length,
                             const uint8_t *steps, size_t steps_length, uint8_t *out, size_t out_length,
                             uint32_t *number, size_t *place);
void nendokwe_pddl_plan(const uint8_t *question, size_t question_length, const uint8_t *site, size_t site_length,
                        const uint32_t *steps, size_t steps_length, uint8_t *out, size_t out_length,
                        uint32_t *number, size_t *place);

/* The step numbers of a plan, a line each such as "(prove_or_2_0 o0 o1)", in capitals or small letters; the steps are neither run nor judged.
 * They need as many entries as the plan has lines; success is 0 and how many they are. 22 and the line's place where a line is no step. */
void nendokwe_pddl_read(const uint8_t *question, size_t question_length, const uint8_t *site, size_t site_length,
                        const uint8_t *plan, size_t plan_length, uint32_t *steps, size_t steps_length,
                        uint32_t *number, size_t *place);

/* The desk program's reply to an input, to a buffer of exactly NENDOKWE_REPLY bytes; returns how many bytes it has. */
#define NENDOKWE_REPLY 573952
size_t nendokwe_desk(const uint8_t *input, size_t input_length, uint8_t *out);

#ifdef __cplusplus
}
#endif

#endif
