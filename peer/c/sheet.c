/* The sheet of the desk program through the C header: sizes, built steps, a check of them, the picks read back, allowances, the least picks,
 * two lists in one call, a page. */
#include "../../include/nendokwe.h"

#include <stdio.h>
#include <string.h>

static const char *QUESTION = "rel\tD\t1\nchoose\tT\t1\nrule\t(forall (?y) (or (D ?y) (T ?y)))\n";
static const char *SITE = "size\t2\nfact\tD\t0\n";
static const char *PICKS = "pick\tT\t1\n";

#define TEXT(s) (const uint8_t *)(s), strlen(s)

int main(void) {
    uint32_t number = 99;
    size_t place = 99, elements = 0, atoms = 0, actions = 0, bound = 0, start = 0, length = 0;
    nendokwe_sizes(TEXT(QUESTION), TEXT(SITE), &number, &place, &elements, &atoms, &actions, &bound);
    printf("sizes %u %zu: %zu %zu %zu %zu\n", number, place, elements, atoms, actions, bound);
    nendokwe_rule(TEXT(QUESTION), &start, &length);
    printf("rule %zu %zu: %.*s\n", start, length, (int)length, QUESTION + start);

    uint64_t state[1] = {0}, picks[1] = {0};
    uint32_t steps[8] = {0};
    nendokwe_build_text(TEXT(QUESTION), TEXT(SITE), TEXT(PICKS), state, 1, steps, 8, &number, &place);
    printf("build %u %zu:", number, place);
    for (size_t i = 0; number == 0 && i < place; i++)
        printf(" %u", steps[i]);
    size_t count = number == 0 ? place : 0;
    printf("\n");
    nendokwe_check(TEXT(QUESTION), TEXT(SITE), steps, count, state, 1, &number, &place);
    printf("check %u %zu\n", number, place);
    nendokwe_picks(TEXT(QUESTION), TEXT(SITE), steps, count, picks, 1, state, 1, &number, &place);
    printf("picks %u %zu: %llu\n", number, place, (unsigned long long)picks[0]);
    nendokwe_build(TEXT(QUESTION), TEXT(SITE), picks, 1, state, 1, steps, 8, &number, &place);
    printf("build again %u %zu\n", number, place);

    uint32_t kind = 9;
    size_t subject = 9, row = 9, choice = 9;
    nendokwe_action(TEXT(QUESTION), TEXT(SITE), 8, &number, &place, &kind, &subject, &row, &choice);
    printf("action %u %zu: %u %zu %zu %zu\n", number, place, kind, subject, row, choice);

    uint64_t allowances[2] = {7, 7};
    nendokwe_allowances(TEXT(QUESTION), TEXT(SITE), allowances, 2, &number, &place);
    printf("allowances %u %zu: %llu %llu\n", number, place, (unsigned long long)allowances[0], (unsigned long long)allowances[1]);

    uint64_t found[1] = {7};
    nendokwe_find(TEXT(QUESTION), TEXT(SITE), found, 1, &number, &place);
    printf("find %u %zu: %llu\n", number, place, (unsigned long long)found[0]);

    nendokwe_monotone(TEXT(QUESTION), TEXT(SITE), &number, &place);
    printf("monotone %u %zu\n", number, place);

    nendokwe_try tries[2] = {{0, 7, 0, 0}, {0, 6, 0, 0}};
    nendokwe_tries(TEXT(QUESTION), TEXT(SITE), steps, count, tries, 2, state, 1, &number, &place);
    printf("tries %u %zu: %u %llu, %u %llu\n", number, place, tries[0].number, (unsigned long long)tries[0].place,
           tries[1].number, (unsigned long long)tries[1].place);

    static uint8_t page[NENDOKWE_PAGE];
    nendokwe_page(TEXT(QUESTION), TEXT(SITE), steps, count, 1, state, 1, page, NENDOKWE_PAGE, &number, &place);
    printf("page %u %zu:\n%.*s", number, place, (int)(73 * count), (const char *)page);
    nendokwe_page_text(TEXT(QUESTION), TEXT(SITE), TEXT("step\t1\nstep\t2\nstep\t5\nstep\t8\nstep\t3\nstep\t4\nstep\t9\n"), 2, state, 1,
                       page, NENDOKWE_PAGE, &number, &place);
    printf("page 2: %u %zu\n", number, place);
    return 0;
}
