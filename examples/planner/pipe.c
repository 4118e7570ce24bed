/* A case to PDDL and a plan back, through the C header:
 *
 *     pipe domain CASE          writes the domain
 *     pipe instance CASE        writes the instance
 *     pipe picks CASE PLAN      reads the plan, checks its steps, and prints the picks that they set
 *
 * CASE is a filed case: question and site, and perhaps picks or steps, which are not looked at. Exit status 1: refused, with number and place.
 */
#include "../../include/nendokwe.h"

#include <stdio.h>
#include <stdlib.h>
#include <string.h>

struct text {
    uint8_t *bytes;
    size_t length;
};

static struct text whole(const char *name) {
    FILE *file = fopen(name, "rb");
    struct text text = {malloc(1 << 22), 0};
    if (file == NULL || text.bytes == NULL) {
        perror(name);
        exit(2);
    }
    text.length = fread(text.bytes, 1, 1 << 22, file);
    fclose(file);
    return text;
}

/* Where the first line begins that starts with one of these words; the end if there is none. */
static size_t line_of(struct text text, const char *one, const char *other) {
    for (size_t at = 0; at < text.length; at++) {
        size_t left = text.length - at;
        int begins = at == 0 || text.bytes[at - 1] == '\n';
        if (begins && ((left >= strlen(one) && memcmp(text.bytes + at, one, strlen(one)) == 0) ||
                       (left >= strlen(other) && memcmp(text.bytes + at, other, strlen(other)) == 0)))
            return at;
    }
    return text.length;
}

static void refused(const char *call, uint32_t number, size_t place) {
    fprintf(stderr, "%s: refused, %u at %zu\n", call, number, place);
    exit(1);
}

/* A call that writes a text: asked for the length first, then for the text. */
typedef void writer(const uint8_t *, size_t, const uint8_t *, size_t, uint8_t *, size_t, uint32_t *, size_t *);

static void write_text(writer *call, const char *name, struct text question, struct text site) {
    uint32_t number = 0;
    size_t place = 0;
    call(question.bytes, question.length, site.bytes, site.length, NULL, 0, &number, &place);
    if (number != 12)
        refused(name, number, place);
    size_t length = place;
    uint8_t *out = malloc(length);
    if (out == NULL)
        exit(2);
    call(question.bytes, question.length, site.bytes, site.length, out, length, &number, &place);
    if (number != 0)
        refused(name, number, place);
    fwrite(out, 1, length, stdout);
}

/* A bit for each tuple, from a word of its own on for each `choose`: its name, a tab, and its number of places or a kind (two places). */
static void print_tuples(struct text question, struct text site, const uint64_t *picks) {
    size_t n = strtoul((const char *)site.bytes + 5, NULL, 10);
    for (size_t at = 0; at < question.length; at++) {
        if ((at > 0 && question.bytes[at - 1] != '\n') || memcmp(question.bytes + at, "choose\t", 7) != 0)
            continue;
        const char *name = (const char *)question.bytes + at + 7, *kind = strchr(name, '\t') + 1;
        size_t places = *kind >= '1' && *kind <= '3' ? (size_t)(*kind - '0') : 2, tuples = 1;
        for (size_t i = 0; i < places; i++)
            tuples *= n;
        for (size_t row = 0; row < tuples; row++) {
            if ((picks[row / 64] >> row % 64 & 1) == 0)
                continue;
            printf("%.*s", (int)(kind - 1 - name), name);
            for (size_t weight = tuples / n; weight > 0; weight /= n)
                printf(" %zu", row / weight % n);
            printf("\n");
        }
        picks += (tuples + 63) / 64;
    }
}

static void print_picks(struct text question, struct text site, struct text plan) {
    uint32_t number = 0;
    size_t count = 0, place = 0, words = 1 << 14, many = 1 << 14;
    uint32_t *steps = malloc(sizeof *steps << 20);
    uint64_t *state = malloc(sizeof *state * words), *picks = malloc(sizeof *picks * many);
    if (steps == NULL || state == NULL || picks == NULL)
        exit(2);
    nendokwe_pddl_read(question.bytes, question.length, site.bytes, site.length, plan.bytes, plan.length, steps, 1 << 20, &number, &count);
    if (number != 0)
        refused("reading the plan", number, count);
    nendokwe_picks(question.bytes, question.length, site.bytes, site.length, steps, count, picks, many, state, words, &number, &place);
    if (number != 0)
        refused("checking its steps", number, place);
    printf("%zu steps, accepted\n", place);
    print_tuples(question, site, picks);
}

int main(int count, char **words) {
    if (count < 3) {
        fprintf(stderr, "pipe domain|instance|picks CASE [PLAN]\n");
        return 2;
    }
    struct text all = whole(words[2]);
    size_t middle = line_of(all, "size\t", "size\t"), end = line_of(all, "pick\t", "step\t");
    struct text question = {all.bytes, middle}, site = {all.bytes + middle, end - middle};
    if (strcmp(words[1], "domain") == 0)
        write_text(nendokwe_pddl_domain, "domain", question, site);
    else if (strcmp(words[1], "instance") == 0)
        write_text(nendokwe_pddl_instance, "instance", question, site);
    else if (count > 3)
        print_picks(question, site, whole(words[3]));
    return 0;
}
