/* Refuses one growth after another in each call. A call answers MEMORY and holds nothing, also nothing of what the answer
 * had before; or it answers as with memory. No block is left.
 * usage: growths FONT FIRST SECOND NAME NAME    the PFA of Tiny, two listings that join, and two glyphs of the font */
#include "t1subset.h"

#include <stdio.h>
#include <stdlib.h>
#include <string.h>

/* A heap that counts its blocks, and refuses the growth with the number refused. */
struct counted {
    long growths, refused, blocks;
};

static void *resize(void *user, void *block, size_t size) {
    struct counted *counts = user;
    if (size == 0) {
        counts->blocks--;
        free(block);
        return user; /* anything */
    }
    if (++counts->growths == counts->refused) return NULL;
    void *given = realloc(block, size);
    if (given && !block) counts->blocks++;
    return given;
}

static t1subset_bytes font, commented, listings[2], names[3], parts[3], documents[2];

static uint32_t check(t1subset_answer *to) { return t1subset_check(font.data, font.size, to); }
static uint32_t list(t1subset_answer *to) { return t1subset_list(font.data, font.size, to); }
static uint32_t list_full(t1subset_answer *to) { return t1subset_list_full(font.data, font.size, to); }
static uint32_t show(t1subset_answer *to) { return t1subset_show(font.data, font.size, names[0].data, names[0].size, to); }
static uint32_t convert(t1subset_answer *to) { return t1subset_convert(font.data, font.size, T1SUBSET_PFB, to); }
static uint32_t mend(t1subset_answer *to) { return t1subset_mend(font.data, font.size, T1SUBSET_PFB, to); }
static uint32_t mends(t1subset_answer *to) { return t1subset_mends(commented.data, commented.size, to); }
static uint32_t subset(t1subset_answer *to) { return t1subset_subset(font.data, font.size, names, 2, T1SUBSET_PFA, to); }
static uint32_t merge(t1subset_answer *to) { return t1subset_merge(parts, 2, T1SUBSET_PFA, to); }
static uint32_t rejoin(t1subset_answer *to) { return t1subset_rejoin(parts, 2, T1SUBSET_PFB, to); }
static uint32_t diff(t1subset_answer *to) { return t1subset_diff(parts[0].data, parts[0].size, parts[1].data, parts[1].size, to); }
static uint32_t join(t1subset_answer *to) {
    return t1subset_join(listings[0].data, listings[0].size, listings[1].data, listings[1].size, to);
}
/* Codes that Tiny's Encoding has. */
static uint32_t subset_codes(t1subset_answer *to) {
    return t1subset_subset_codes(font.data, font.size, names, 2, (const uint8_t *) "AB", 2, T1SUBSET_PFA, to);
}
static const t1subset_limits enough = T1SUBSET_LIMITS, none = {0};
static uint32_t subset_within(t1subset_answer *to) {
    return t1subset_subset_within(font.data, font.size, names, 2, (const uint8_t *) "AB", 2, T1SUBSET_PFA, &enough, to);
}
static uint32_t merge_within(t1subset_answer *to) { return t1subset_merge_within(parts, 2, T1SUBSET_PFA, &enough, to); }
static uint32_t rejoin_within(t1subset_answer *to) { return t1subset_rejoin_within(parts, 2, T1SUBSET_PFB, &enough, to); }
static uint32_t diff_within(t1subset_answer *to) {
    return t1subset_diff_within(parts[0].data, parts[0].size, parts[1].data, parts[1].size, &enough, to);
}
static uint32_t pool(t1subset_answer *to) { return t1subset_pool(documents, 2, 0, to); }
static uint32_t pool_tags(t1subset_answer *to) { return t1subset_pool(documents, 2, T1SUBSET_TAGS, to); }
static uint32_t pool_dsc(t1subset_answer *to) { return t1subset_pool(documents, 2, T1SUBSET_TAGS | T1SUBSET_DSC, to); }
static uint32_t fonts(t1subset_answer *to) { return t1subset_fonts(documents, 2, to); }
static uint32_t extract(t1subset_answer *to) { return t1subset_extract((const uint8_t *) "Tiny", 4, documents, 2, to); }
/* Two documents with one font: if the second has another answer than the first, or holds something where the first is refused,
 * that is no number of the library. */
static uint32_t level(t1subset_answer *to) {
    t1subset_answer both[2];
    memset(both, 0xa5, sizeof both);
    const uint32_t number = t1subset_level(documents, 2, both);
    const size_t wanted = number ? 0 : both[0].bytes.size;
    const int right = both[1].detail == 0 && both[1].input == -1 && both[1].bytes.size == wanted
        && (!wanted || !memcmp(both[0].bytes.data, both[1].bytes.data, wanted));
    t1subset_free(both + 1);
    *to = both[0];
    return right ? number : UINT32_MAX;
}
/* Refusals, whose texts grow too. */
static uint32_t no_glyph(t1subset_answer *to) { return t1subset_subset(font.data, font.size, names, 3, T1SUBSET_PFA, to); }
static uint32_t no_code(t1subset_answer *to) {
    return t1subset_subset_codes(font.data, font.size, names, 2, (const uint8_t *) "AB\xff", 3, T1SUBSET_PFA, to);
}
static uint32_t no_subset_within(t1subset_answer *to) {
    return t1subset_subset_within(font.data, font.size, names, 2, NULL, 0, T1SUBSET_PFA, &none, to);
}
static uint32_t no_merge_within(t1subset_answer *to) { return t1subset_merge_within(parts, 2, T1SUBSET_PFA, &none, to); }
static uint32_t no_rejoin_within(t1subset_answer *to) { return t1subset_rejoin_within(parts, 2, T1SUBSET_PFA, &none, to); }
static uint32_t no_diff_within(t1subset_answer *to) {
    return t1subset_diff_within(parts[0].data, parts[0].size, parts[1].data, parts[1].size, &none, to);
}
static uint32_t no_place(t1subset_answer *to) { return t1subset_extract((const uint8_t *) "Tony", 4, documents, 2, to); }
static uint32_t no_font(t1subset_answer *to) { return t1subset_merge(parts, 3, T1SUBSET_PFA, to); }

static const struct {
    const char *name;
    uint32_t (*make)(t1subset_answer *);
    uint32_t number;
} calls[] = {
    {"check", check, T1SUBSET_OK}, {"list", list, T1SUBSET_OK}, {"list in full", list_full, T1SUBSET_OK},
    {"show", show, T1SUBSET_OK},
    {"convert", convert, T1SUBSET_OK}, {"mend", mend, T1SUBSET_OK}, {"mends", mends, T1SUBSET_OK}, {"subset", subset, T1SUBSET_OK},
    {"subset of codes", subset_codes, T1SUBSET_OK},
    {"merge", merge, T1SUBSET_OK}, {"rejoin", rejoin, T1SUBSET_OK}, {"diff", diff, T1SUBSET_OK}, {"join", join, T1SUBSET_OK},
    {"subset within limits", subset_within, T1SUBSET_OK}, {"merge within limits", merge_within, T1SUBSET_OK},
    {"rejoin within limits", rejoin_within, T1SUBSET_OK}, {"diff within limits", diff_within, T1SUBSET_OK},
    {"pool", pool, T1SUBSET_OK}, {"pool_tags", pool_tags, T1SUBSET_OK}, {"pool_dsc", pool_dsc, T1SUBSET_OK},
    {"level", level, T1SUBSET_OK}, {"fonts", fonts, T1SUBSET_OK}, {"extract", extract, T1SUBSET_OK},
    {"extract of no font", no_place, T1SUBSET_NO_FONT},
    {"subset of no glyph", no_glyph, T1SUBSET_NO_GLYPH}, {"subset of no code", no_code, T1SUBSET_NO_CODE},
    {"merge of no font", no_font, T1SUBSET_NO_EEXEC},
    {"subset of too many tokens", no_subset_within, T1SUBSET_TOO_MANY_TOKENS},
    {"merge of too many tokens", no_merge_within, T1SUBSET_TOO_MANY_TOKENS},
    {"rejoin of too many tokens", no_rejoin_within, T1SUBSET_TOO_MANY_TOKENS},
    {"diff of too many tokens", no_diff_within, T1SUBSET_TOO_MANY_TOKENS},
};

static t1subset_bytes whole(const char *path) {
    static uint8_t room[3][1 << 20];
    static int taken;
    FILE *file = fopen(path, "rb");
    if (!file) exit(2);
    uint8_t *data = room[taken++];
    t1subset_bytes bytes = {data, fread(data, 1, 1 << 20, file)};
    fclose(file);
    return bytes;
}

/* The font with a comment in its Encoding. */
static t1subset_bytes with_comment(void) {
    static char room[(1 << 20) + 3];
    const char *text = (const char *) font.data, *at = strstr(text, "/Encoding");
    if (!at) exit(2);
    const int size = snprintf(room, sizeof room, "%.*s/Encoding%%\n%s", (int) (at - text), text, at + 9);
    return (t1subset_bytes) {(const uint8_t *) room, (size_t) size};
}

/* A document with the subset of the font over one name. */
static t1subset_bytes document(int name) {
    static char room[2][1 << 20];
    t1subset_answer cut;
    if (t1subset_subset(font.data, font.size, names + name, 1, T1SUBSET_PFA, &cut)) exit(2);
    const int size = snprintf(room[name], sizeof room[name], "%%!PS\n%%%%BeginFont: Tiny\n%.*s%%%%EndFont\nshowpage\n",
        (int) cut.bytes.size, (const char *) cut.bytes.data);
    t1subset_free(&cut);
    return (t1subset_bytes) {(const uint8_t *) room[name], (size_t) size};
}

static int same(const t1subset_answer *one, const t1subset_answer *other) {
    return one->detail == other->detail && one->input == other->input && one->bytes.size == other->bytes.size
        && !memcmp(one->bytes.data, other->bytes.data, one->bytes.size);
}

/* What is wrong with an answer, or NULL. */
static const char *fault(uint32_t number, uint32_t wanted, const t1subset_answer *answer, const t1subset_answer *right) {
    if (number != T1SUBSET_MEMORY) return number == wanted && same(answer, right) ? NULL : "another answer";
    if (answer->bytes.size) return "MEMORY with bytes";
    return answer->detail == 0 && answer->input == -1 ? NULL : "MEMORY with a detail or an input";
}

/* Sweeps the growths of one call; tells what is wrong, or NULL. */
static const char *sweep(size_t at, long *refusals) {
    t1subset_answer right = T1SUBSET_ANSWER;
    if (calls[at].make(&right) != calls[at].number) return "wrong with memory";
    struct counted counts = {0, 0, 0};
    const t1subset_heap heap = {resize, &counts};
    const char *wrong = NULL;
    t1subset_use(&heap);
    for (long refused = 1; !wrong; refused++) {
        t1subset_answer answer;
        memset(&answer, 0xa5, sizeof answer);
        counts = (struct counted) {0, refused, 0};
        const uint32_t number = calls[at].make(&answer);
        wrong = fault(number, calls[at].number, &answer, &right);
        *refusals += number == T1SUBSET_MEMORY;
        if (!wrong && counts.blocks != (answer.bytes.size != 0)) wrong = "a block is held";
        t1subset_free(&answer);
        if (!wrong && counts.blocks) wrong = "a block is left";
        if (counts.growths < refused) break;
    }
    t1subset_use(NULL);
    t1subset_free(&right);
    return wrong;
}

int main(int count, char **words) {
    if (count != 6) return 2;
    font = whole(words[1]);
    commented = with_comment();
    for (int at = 0; at < 2; at++) {
        listings[at] = whole(words[2 + at]);
        names[at] = (t1subset_bytes) {(const uint8_t *) words[4 + at], strlen(words[4 + at])};
    }
    names[2] = (t1subset_bytes) {(const uint8_t *) "no such glyph", 13};
    t1subset_answer halves[2];
    for (int at = 0; at < 2; at++) {
        if (t1subset_subset(font.data, font.size, names + at, 1, T1SUBSET_PFB, halves + at)) return 2;
        parts[at] = halves[at].bytes;
    }
    parts[2] = names[2];
    for (int at = 0; at < 2; at++) documents[at] = document(at);
    for (size_t at = 0; at < sizeof calls / sizeof *calls; at++) {
        long refusals = 0;
        const char *wrong = sweep(at, &refusals);
        if (!wrong && !refusals) wrong = "no growth was met";
        if (wrong) {
            printf("%s: %s\n", calls[at].name, wrong);
            return 1;
        }
        printf("%s: %ld growths\n", calls[at].name, refusals);
    }
    t1subset_free(&halves[0]);
    t1subset_free(&halves[1]);
    return 0;
}
