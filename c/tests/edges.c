/* Calls at their edges: NULL with size 0 in each place, forms that there are not, no fonts, no documents, files that are too
 * long, nothing to mend, limits that allow nothing or everything, and answers that are freed twice.
 * usage: edges FONT    the canonical PFA of a font */
#include "t1subset.h"

#include <stdio.h>
#include <stdlib.h>
#include <string.h>

#define TOO_LONG ((size_t) 268435457)

static int faults;
static t1subset_answer answer;

/* A call has returned number; wanted are its number, what it says of a file, and its bytes (NULL: some). */
static void expect(const char *call, uint32_t number, uint32_t wanted, int64_t input, const char *bytes) {
    int right = number == wanted && answer.input == input && answer.detail == 0;
    if (!bytes) right = right && answer.bytes.size;
    else right = right && answer.bytes.size == strlen(bytes) && !memcmp(answer.bytes.data, bytes, answer.bytes.size);
    if (!right) {
        printf("%s: number %u, input %lld, %zu bytes\n", call, number, (long long) answer.input, answer.bytes.size);
        faults++;
    }
    t1subset_free(&answer);
    t1subset_free(&answer);
    if (answer.detail || answer.input != -1 || answer.bytes.size || !answer.bytes.data) {
        printf("%s: t1subset_free leaves another answer\n", call);
        faults++;
    }
    memset(&answer, 0xff, sizeof answer);
}

#define EXPECT(call, wanted, input, bytes) expect(#call, call, wanted, input, bytes)

static void no_bytes(t1subset_bytes font) {
    const t1subset_bytes nothing = {NULL, 0}, two[] = {font, nothing}, no_name[] = {nothing};
    const uint8_t no_code[] = {0};
    EXPECT(t1subset_check(NULL, 0, &answer), T1SUBSET_NO_EEXEC, 0, "no eexec");
    EXPECT(t1subset_list(NULL, 0, &answer), T1SUBSET_NO_EEXEC, 0, "no eexec");
    EXPECT(t1subset_list_full(NULL, 0, &answer), T1SUBSET_NO_EEXEC, 0, "no eexec");
    EXPECT(t1subset_show(NULL, 0, NULL, 0, &answer), T1SUBSET_NO_EEXEC, 0, "no eexec");
    EXPECT(t1subset_show(font.data, font.size, NULL, 0, &answer), T1SUBSET_NO_GLYPH, -1, "no glyph ");
    EXPECT(t1subset_convert(NULL, 0, T1SUBSET_PFA, &answer), T1SUBSET_NO_EEXEC, 0, "no eexec");
    EXPECT(t1subset_mend(NULL, 0, T1SUBSET_PFA, &answer), T1SUBSET_NO_EEXEC, 0, "no eexec");
    EXPECT(t1subset_mends(NULL, 0, &answer), T1SUBSET_NO_EEXEC, 0, "no eexec");
    EXPECT(t1subset_subset(NULL, 0, NULL, 0, T1SUBSET_PFA, &answer), T1SUBSET_NO_EEXEC, 0, "no eexec");
    EXPECT(t1subset_subset(font.data, font.size, NULL, 0, T1SUBSET_PFB, &answer), T1SUBSET_OK, -1, NULL);
    EXPECT(t1subset_subset(font.data, font.size, no_name, 1, T1SUBSET_PFB, &answer), T1SUBSET_NO_GLYPH, -1, "no glyph ");
    EXPECT(t1subset_subset_codes(NULL, 0, NULL, 0, NULL, 0, T1SUBSET_PFA, &answer), T1SUBSET_NO_EEXEC, 0, "no eexec");
    EXPECT(t1subset_subset_codes(font.data, font.size, NULL, 0, NULL, 0, T1SUBSET_PFB, &answer), T1SUBSET_OK, -1, NULL);
    EXPECT(t1subset_subset_codes(font.data, font.size, no_name, 1, NULL, 0, T1SUBSET_PFB, &answer), T1SUBSET_NO_GLYPH, -1, "no glyph ");
    EXPECT(t1subset_subset_codes(font.data, font.size, NULL, 0, no_code, 1, T1SUBSET_PFB, &answer), T1SUBSET_NO_CODE, -1, "no code 0");
    EXPECT(t1subset_merge(NULL, 0, T1SUBSET_PFA, &answer), T1SUBSET_NOTHING_TO_MERGE, -1, "nothing to merge");
    EXPECT(t1subset_merge(two, 2, T1SUBSET_PFA, &answer), T1SUBSET_NO_EEXEC, 1, "no eexec");
    EXPECT(t1subset_rejoin(NULL, 0, T1SUBSET_PFA, &answer), T1SUBSET_NOTHING_TO_MERGE, -1, "nothing to merge");
    EXPECT(t1subset_rejoin(two, 2, T1SUBSET_PFA, &answer), T1SUBSET_NO_EEXEC, 1, "no eexec");
    EXPECT(t1subset_diff(NULL, 0, NULL, 0, &answer), T1SUBSET_NO_EEXEC, 0, "no eexec");
    EXPECT(t1subset_join(NULL, 0, NULL, 0, &answer), T1SUBSET_OK, -1, "");
    EXPECT(t1subset_join((const uint8_t *) "S 0 0B\n", 7, NULL, 0, &answer), T1SUBSET_OK, -1, "S 0 0b\n");
    EXPECT(t1subset_join(NULL, 0, (const uint8_t *) "S 0 0B\n", 7, &answer), T1SUBSET_OK, -1, "S 0 0b\n");
}

/* Documents without fonts, which stay as they are, and files without documents. */
static void no_documents(t1subset_bytes font) {
    const t1subset_bytes two[] = {font, {NULL, 0}};
    EXPECT(t1subset_pool(NULL, 0, 0, &answer), T1SUBSET_OK, -1, "");
    EXPECT(t1subset_pool(two + 1, 1, 0, &answer), T1SUBSET_NO_DOCUMENT, 0, "no document: an empty file");
    EXPECT(t1subset_pool(two, 1, 0, &answer), T1SUBSET_OK, -1, (const char *) font.data);
    EXPECT(t1subset_pool(two, 2, 0, &answer), T1SUBSET_NO_DOCUMENT, 1, "no document: an empty file");
    EXPECT(t1subset_pool(NULL, 0, T1SUBSET_TAGS, &answer), T1SUBSET_OK, -1, "");
    EXPECT(t1subset_pool(two, 1, T1SUBSET_TAGS, &answer), T1SUBSET_OK, -1, (const char *) font.data);
    EXPECT(t1subset_pool(two, 2, T1SUBSET_TAGS, &answer), T1SUBSET_NO_DOCUMENT, 1, "no document: an empty file");
    EXPECT(t1subset_fonts(NULL, 0, &answer), T1SUBSET_OK, -1, "0 places, 0 names, 0 kept\n");
    EXPECT(t1subset_fonts(two, 1, &answer), T1SUBSET_OK, -1, "0 places, 0 names, 0 kept\n");
    EXPECT(t1subset_fonts(two, 2, &answer), T1SUBSET_NO_DOCUMENT, 1, "no document: an empty file");
    EXPECT(t1subset_extract(NULL, 0, NULL, 0, &answer), T1SUBSET_NO_FONT, -1, "no font ");
    EXPECT(t1subset_extract((const uint8_t *) "Tiny", 4, two, 1, &answer), T1SUBSET_NO_FONT, -1, "no font Tiny");
    EXPECT(t1subset_extract((const uint8_t *) "Tiny", 4, two, 2, &answer), T1SUBSET_NO_DOCUMENT, 1, "no document: an empty file");
}

/* A call that levels two documents has returned number; wanted are its number, and the place and the texts of both answers. */
static void expect_both(uint32_t number, uint32_t wanted, int64_t input, t1subset_answer *both, const char *first, const char *second) {
    if (number != wanted) {
        printf("t1subset_level: number %u\n", number);
        faults++;
    }
    answer = both[0];
    expect("the first answer of t1subset_level", 0, 0, input, first);
    answer = both[1];
    expect("the second answer of t1subset_level", 0, 0, -1, second);
    memset(both, 0xff, 2 * sizeof *both);
}

static void levels(t1subset_bytes font, uint8_t *too_long) {
    const t1subset_bytes two[] = {font, {(const uint8_t *) "%!", 2}}, none[] = {font, {NULL, 0}}, long_one[] = {font, {too_long, TOO_LONG}};
    t1subset_answer both[2];
    memset(both, 0xff, sizeof both);
    expect_both(t1subset_level(two, 2, both), T1SUBSET_OK, -1, both, (const char *) font.data, "%!");
    expect_both(t1subset_level(none, 2, both), T1SUBSET_NO_DOCUMENT, 1, both, "no document: an empty file", "");
    EXPECT(t1subset_level(two, 1, &answer), T1SUBSET_OK, -1, (const char *) font.data);
    if (t1subset_level(NULL, 0, NULL) || t1subset_level(two, 0, both) || both[0].detail != UINT64_MAX) {
        puts("t1subset_level of no documents is refused, or writes an answer");
        faults++;
    }
    if (too_long) expect_both(t1subset_level(long_one, 2, both), T1SUBSET_FILE_TOO_LONG, 1, both, "file too long", "");
}

static void no_forms(t1subset_bytes font) {
    const uint32_t forms[] = {2, 0x100, 0x10000, 0xffffffff};
    for (size_t at = 0; at < sizeof forms / sizeof *forms; at++) {
        EXPECT(t1subset_convert(font.data, font.size, forms[at], &answer), T1SUBSET_BAD_CALL, -1, "");
        EXPECT(t1subset_mend(font.data, font.size, forms[at], &answer), T1SUBSET_BAD_CALL, -1, "");
        EXPECT(t1subset_subset(font.data, font.size, NULL, 0, forms[at], &answer), T1SUBSET_BAD_CALL, -1, "");
        EXPECT(t1subset_subset_codes(font.data, font.size, NULL, 0, NULL, 0, forms[at], &answer), T1SUBSET_BAD_CALL, -1, "");
        EXPECT(t1subset_merge(&font, 1, forms[at], &answer), T1SUBSET_BAD_CALL, -1, "");
        EXPECT(t1subset_rejoin(&font, 1, forms[at], &answer), T1SUBSET_BAD_CALL, -1, "");
    }
}

/* Limits that allow no token, and what is told before them. */
static void no_tokens(t1subset_bytes font) {
    static uint8_t room[1 << 20];
    const t1subset_limits none = {0};
    const t1subset_bytes nothing = {NULL, 0}, two[] = {font, nothing}, no_name[] = {nothing}, unlike[] = {font, {room, font.size}};
    const uint8_t *data = font.data, no_code[] = {0};
    const char *name = strstr((const char *) data, "/FontName /");
    if (!name) exit(2);
    memcpy(room, data, font.size);
    room[(const uint8_t *) name + 11 - data] ^= 1;
    EXPECT(t1subset_subset_within(data, font.size, NULL, 0, NULL, 0, T1SUBSET_PFA, &none, &answer), T1SUBSET_TOO_MANY_TOKENS, -1, "too many tokens");
    EXPECT(t1subset_subset_within(data, font.size, no_name, 1, NULL, 0, T1SUBSET_PFA, &none, &answer), T1SUBSET_NO_GLYPH, -1, "no glyph ");
    EXPECT(t1subset_subset_within(data, font.size, no_name, 1, no_code, 1, T1SUBSET_PFA, &none, &answer), T1SUBSET_NO_CODE, -1, "no code 0");
    EXPECT(t1subset_subset_within(NULL, 0, NULL, 0, NULL, 0, T1SUBSET_PFA, &none, &answer), T1SUBSET_NO_EEXEC, 0, "no eexec");
    EXPECT(t1subset_subset_within(data, font.size, NULL, 0, NULL, 0, 2, &none, &answer), T1SUBSET_BAD_CALL, -1, "");
    EXPECT(t1subset_merge_within(&font, 1, T1SUBSET_PFA, &none, &answer), T1SUBSET_TOO_MANY_TOKENS, -1, "too many tokens");
    EXPECT(t1subset_merge_within(unlike, 2, T1SUBSET_PFA, &none, &answer), T1SUBSET_SHELLS_DIFFER, -1, "shells differ in head");
    EXPECT(t1subset_merge_within(two, 2, T1SUBSET_PFA, &none, &answer), T1SUBSET_NO_EEXEC, 1, "no eexec");
    EXPECT(t1subset_merge_within(NULL, 0, T1SUBSET_PFA, &none, &answer), T1SUBSET_NOTHING_TO_MERGE, -1, "nothing to merge");
    EXPECT(t1subset_merge_within(&font, 1, 2, &none, &answer), T1SUBSET_BAD_CALL, -1, "");
    EXPECT(t1subset_rejoin_within(&font, 1, T1SUBSET_PFA, &none, &answer), T1SUBSET_TOO_MANY_TOKENS, -1, "too many tokens");
    EXPECT(t1subset_rejoin_within(two, 2, T1SUBSET_PFA, &none, &answer), T1SUBSET_NO_EEXEC, 1, "no eexec");
    EXPECT(t1subset_rejoin_within(NULL, 0, T1SUBSET_PFA, &none, &answer), T1SUBSET_NOTHING_TO_MERGE, -1, "nothing to merge");
    EXPECT(t1subset_rejoin_within(&font, 1, 2, &none, &answer), T1SUBSET_BAD_CALL, -1, "");
    EXPECT(t1subset_diff_within(data, font.size, data, font.size, &none, &answer), T1SUBSET_TOO_MANY_TOKENS, -1, "too many tokens");
    EXPECT(t1subset_diff_within(data, font.size, room, font.size, &none, &answer), T1SUBSET_TOO_MANY_TOKENS, -1, "too many tokens");
    EXPECT(t1subset_diff_within(NULL, 0, NULL, 0, &none, &answer), T1SUBSET_NO_EEXEC, 0, "no eexec");
    EXPECT(t1subset_diff_within(data, font.size, NULL, 0, &none, &answer), T1SUBSET_NO_EEXEC, 1, "no eexec");
}

/* Within limits that are enough, calls answer as without: the font itself, which is canonical and is merged with itself, and
 * no conflict with itself. */
static void enough_tokens(t1subset_bytes font) {
    const t1subset_bytes two[] = {font, font};
    const char *text = (const char *) font.data;
    t1subset_limits limits = T1SUBSET_LIMITS;
    for (int turn = 0; turn < 2; turn++) {
        EXPECT(t1subset_subset_within(font.data, font.size, NULL, 0, NULL, 0, T1SUBSET_PFB, &limits, &answer), T1SUBSET_OK, -1, NULL);
        EXPECT(t1subset_merge_within(two, 2, T1SUBSET_PFA, &limits, &answer), T1SUBSET_OK, -1, text);
        EXPECT(t1subset_rejoin_within(two, 2, T1SUBSET_PFA, &limits, &answer), T1SUBSET_OK, -1, text);
        EXPECT(t1subset_diff_within(font.data, font.size, font.data, font.size, &limits, &answer), T1SUBSET_OK, -1, "");
        limits.tokens = 10000000;
    }
}

/* Nothing is mended of the font, and a comment where there is one in its Encoding. */
static void mends(t1subset_bytes font) {
    static char room[(1 << 20) + 3], line[64];
    const char *text = (const char *) font.data, *at = strstr(text, "/Encoding");
    if (!at) exit(2);
    const int before = (int) (at - text), size = snprintf(room, sizeof room, "%.*s/Encoding%%\n%s", before, text, at + 9);
    snprintf(line, sizeof line, "comment in Encoding at %d\n", before);
    EXPECT(t1subset_mends(font.data, font.size, &answer), T1SUBSET_OK, -1, "");
    EXPECT(t1subset_mends((const uint8_t *) room, (size_t) size, &answer), T1SUBSET_OK, -1, line);
}

static void too_long(t1subset_bytes font) {
    uint8_t *data = calloc(TOO_LONG, 1);
    if (!data) {
        fputs("no memory for a file that is too long: left out\n", stderr);
        return;
    }
    data[0] = '%', data[1] = '!';
    const t1subset_bytes two[] = {font, {data, TOO_LONG}}, together[] = {font, {data, TOO_LONG - 1}};
    EXPECT(t1subset_check(data, TOO_LONG, &answer), T1SUBSET_FILE_TOO_LONG, 0, "file too long");
    EXPECT(t1subset_mends(data, TOO_LONG, &answer), T1SUBSET_FILE_TOO_LONG, 0, "file too long");
    EXPECT(t1subset_merge(two, 2, T1SUBSET_PFA, &answer), T1SUBSET_FILE_TOO_LONG, 1, "file too long");
    EXPECT(t1subset_join(NULL, 0, data, TOO_LONG, &answer), T1SUBSET_FILE_TOO_LONG, 1, "file too long");
    EXPECT(t1subset_pool(two, 2, 0, &answer), T1SUBSET_FILE_TOO_LONG, 1, "file too long");
    EXPECT(t1subset_pool(together, 2, 0, &answer), T1SUBSET_FILE_TOO_LONG, -1, "file too long");
    EXPECT(t1subset_pool(two, 2, T1SUBSET_TAGS, &answer), T1SUBSET_FILE_TOO_LONG, 1, "file too long");
    EXPECT(t1subset_fonts(two, 2, &answer), T1SUBSET_FILE_TOO_LONG, 1, "file too long");
    EXPECT(t1subset_extract(NULL, 0, two, 2, &answer), T1SUBSET_FILE_TOO_LONG, 1, "file too long");
    levels(font, data);
    free(data);
}

int main(int count, char **words) {
    static uint8_t room[(1 << 20) + 1];
    FILE *file = count == 2 ? fopen(words[1], "rb") : NULL;
    if (!file) return 2;
    const t1subset_bytes font = {room, fread(room, 1, sizeof room - 1, file)};
    fclose(file);
    memset(&answer, 0xff, sizeof answer);
    no_bytes(font);
    no_documents(font);
    levels(font, NULL);
    no_forms(font);
    no_tokens(font);
    enough_tokens(font);
    mends(font);
    too_long(font);
    if (t1subset_version() != T1SUBSET_VERSION) {
        puts("the library is of another version than the header");
        faults++;
    }
    return faults != 0;
}
