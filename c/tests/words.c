/* The commands of the program t1subset over libt1subset: the same files, lines and exit status, but for the command line.
 * A line "NUMBER DETAIL INPUT" about the answer is written to the file that the variable TOLD names. */
#include "t1subset.h"

#include <stdio.h>
#include <stdlib.h>
#include <string.h>

static t1subset_bytes named(const char *text) {
    return (t1subset_bytes) {(const uint8_t *) text, strlen(text)};
}

static void fail(const char *text) {
    fputs(text, stderr);
    exit(3);
}

/* A whole file, in a block of just its size, so that a sanitizer sees each byte that is read beyond it. */
static t1subset_bytes whole(const char *path) {
    FILE *file = fopen(path, "rb");
    if (!file || fseek(file, 0, SEEK_END)) fail("failed: read\n");
    size_t size = (size_t) ftell(file);
    rewind(file);
    uint8_t *data = malloc(size ? size : 1);
    if (!data || fread(data, 1, size, file) != size) fail("failed: read\n");
    fclose(file);
    return (t1subset_bytes) {data, size};
}

/* What the options of the commands say. */
struct options {
    uint32_t form;
    uint8_t codes[1 << 12];
    size_t count;
    const char *extract;
    t1subset_limits limits;
    int limited;
    int full;
    uint32_t pooling;
};

static void add_codes(struct options *options, const char *bytes, size_t size) {
    if (size > sizeof options->codes - options->count) fail("too many codes\n");
    memcpy(options->codes + options->count, bytes, size);
    options->count += size;
}

/* The codes of a list that is one, such as 65-90,97. */
static void add_list(struct options *options, const char *list) {
    for (char *end; *list; list = *end ? end + 1 : end) {
        const unsigned long first = strtoul(list, &end, 10), last = *end == '-' ? strtoul(end + 1, &end, 10) : first;
        for (unsigned long code = first; code <= last; code++) add_codes(options, &(char) {(char) code}, 1);
    }
}

static void set_tokens(struct options *options, const char *tokens) {
    options->limits.tokens = strtoull(tokens, NULL, 10);
    options->limited = 1;
}

/* What stands behind an option: in its own argument behind `=`, or as the next argument. NULL if this argument is not the option. */
static const char *value_of(const char *option, char **words, int *at) {
    const size_t size = strlen(option);
    if (strncmp(words[*at], option, size)) return NULL;
    return words[*at][size] == '=' ? words[*at] + size + 1 : words[*at][size] ? NULL : words[++*at];
}

/* Takes the options out of the arguments, and answers how many are left. */
static int take_options(struct options *options, int count, char **words) {
    int left = 0, plain = 0;
    const char *text = "", *value;
    for (int at = 0; at < count; at++) {
        if (!plain && !strcmp(words[at], "--")) plain = 1;
        else if (!plain && !strcmp(words[at], "--pfb")) options->form = T1SUBSET_PFB;
        else if (!plain && !strcmp(words[at], "--full")) options->full = 1;
        else if (!plain && !strcmp(words[at], "--tags")) options->pooling |= T1SUBSET_TAGS;
        else if (!plain && !strcmp(words[at], "--dsc")) options->pooling |= T1SUBSET_DSC;
        else if (!plain && (value = value_of("--codes", words, &at))) add_list(options, value);
        else if (!plain && (value = value_of("--text", words, &at))) text = value;
        else if (!plain && (value = value_of("--tokens", words, &at))) set_tokens(options, value);
        else if (!plain && (value = value_of("--extract", words, &at))) options->extract = value;
        else words[left++] = words[at];
    }
    add_codes(options, text, strlen(text));
    return left;
}

static uint32_t list(const struct options *options, t1subset_bytes font, t1subset_answer *answer) {
    return options->full ? t1subset_list_full(font.data, font.size, answer) : t1subset_list(font.data, font.size, answer);
}

static uint32_t subset(const struct options *options, t1subset_bytes font, const t1subset_bytes *names, size_t count, t1subset_answer *answer) {
    const uint8_t *codes = options->codes;
    const size_t size = options->count;
    const uint32_t form = options->form;
    if (options->limited) {
        return t1subset_subset_within(font.data, font.size, names, count, codes, size, form, &options->limits, answer);
    }
    if (!size) return t1subset_subset(font.data, font.size, names, count, form, answer);
    return t1subset_subset_codes(font.data, font.size, names, count, codes, size, form, answer);
}

static uint32_t merge(const struct options *options, const t1subset_bytes *fonts, size_t count, t1subset_answer *answer) {
    if (options->limited) return t1subset_merge_within(fonts, count, options->form, &options->limits, answer);
    return t1subset_merge(fonts, count, options->form, answer);
}

static uint32_t rejoin(const struct options *options, const t1subset_bytes *fonts, size_t count, t1subset_answer *answer) {
    if (options->limited) return t1subset_rejoin_within(fonts, count, options->form, &options->limits, answer);
    return t1subset_rejoin(fonts, count, options->form, answer);
}

static uint32_t diff(const struct options *options, t1subset_bytes first, t1subset_bytes second, t1subset_answer *answer) {
    if (options->limited) return t1subset_diff_within(first.data, first.size, second.data, second.size, &options->limits, answer);
    return t1subset_diff(first.data, first.size, second.data, second.size, answer);
}

/* The call of a command; arguments are the files and names behind it, without OUT. */
static uint32_t call(const char *word, const struct options *options, const t1subset_bytes *arguments, size_t count, t1subset_answer *answer) {
    const uint32_t form = options->form;
    const t1subset_bytes first = count > 0 ? arguments[0] : named(""), second = count > 1 ? arguments[1] : named("");
    if (!strcmp(word, "check")) return t1subset_check(first.data, first.size, answer);
    if (!strcmp(word, "list")) return list(options, first, answer);
    if (!strcmp(word, "show")) return t1subset_show(first.data, first.size, second.data, second.size, answer);
    if (!strcmp(word, "pfa")) return t1subset_convert(first.data, first.size, T1SUBSET_PFA, answer);
    if (!strcmp(word, "pfb")) return t1subset_convert(first.data, first.size, T1SUBSET_PFB, answer);
    if (!strcmp(word, "mend")) return t1subset_mend(first.data, first.size, form, answer);
    if (!strcmp(word, "subset")) return subset(options, first, arguments + 1, count - 1, answer);
    if (!strcmp(word, "merge")) return merge(options, arguments, count, answer);
    if (!strcmp(word, "rejoin")) return rejoin(options, arguments, count, answer);
    if (!strcmp(word, "diff")) return diff(options, first, second, answer);
    if (!strcmp(word, "pool")) return t1subset_pool(arguments, count, options->pooling, answer);
    if (!strcmp(word, "fonts")) return t1subset_fonts(arguments, count, answer);
    if (!strcmp(word, "extract")) return t1subset_extract((const uint8_t *) options->extract, strlen(options->extract), arguments, count, answer);
    if (!strcmp(word, "join")) return t1subset_join(first.data, first.size, second.data, second.size, answer);
    fail("no such command\n");
    return 0;
}

/* How many of the arguments behind a command are files, from the first on; and which of them is OUT, or 0. */
static int files_of(const char *word, int count) {
    static const char *const several[] = {"merge", "rejoin", "diff", "join", "pool", "fonts", "extract"};
    for (size_t at = 0; at < sizeof several / sizeof *several; at++) {
        if (!strcmp(word, several[at])) return count;
    }
    return 1;
}

static int out_of(const char *word) {
    if (!strcmp(word, "merge") || !strcmp(word, "rejoin") || !strcmp(word, "pool") || !strcmp(word, "extract")) return 2;
    return !strcmp(word, "pfa") || !strcmp(word, "pfb") || !strcmp(word, "mend") || !strcmp(word, "subset") ? 3 : 0;
}

static void tell(uint32_t number, const t1subset_answer *answer) {
    const char *path = getenv("TOLD");
    FILE *file = path ? fopen(path, "w") : NULL;
    if (!file) return;
    fprintf(file, "%u %llu %lld\n", number, (unsigned long long) answer->detail, (long long) answer->input);
    fclose(file);
}

static int write_to(const char *path, t1subset_bytes bytes) {
    FILE *file = path ? fopen(path, "wb") : stdout;
    if (!file || fwrite(bytes.data, 1, bytes.size, file) != bytes.size || fflush(file)) {
        fputs("failed: write\n", stderr);
        return 3;
    }
    if (path) fclose(file);
    return 0;
}

/* What the command fonts prints: the lines of t1subset_fonts, with the paths of the documents for their places. */
static int print_places(t1subset_bytes lines, char **paths) {
    const char *line = (const char *) lines.data, *const end = line + lines.size;
    while (line < end) {
        char *behind;
        const unsigned long place = strtoul(line, &behind, 10);
        const char *last = memchr(line, '\n', (size_t) (end - line)), *rest = *behind == ':' ? behind : line;
        if (rest == behind) fputs(paths[place], stdout);
        fwrite(rest, 1, (size_t) (last + 1 - rest), stdout);
        line = last + 1;
    }
    return fflush(stdout) ? 3 : 0;
}

/* What the command mend says on standard error once the result is written. */
static void say_mends(t1subset_bytes font) {
    t1subset_answer answer = T1SUBSET_ANSWER;
    if (t1subset_mends(font.data, font.size, &answer)) fail("the mends of a mended font are refused\n");
    fprintf(stderr, "%.*s", (int) answer.bytes.size, (const char *) answer.bytes.data);
    t1subset_free(&answer);
}

/* Whether a name of this size stands in an earlier line of these. */
static int told_before(const char *lines, const char *at, const char *name, size_t size) {
    for (const char *line = lines; line < at; line = strchr(line, '\n') + 1) {
        const char *other = strchr(strchr(line, ' ') + 1, ' ') + 1;
        if (other < at && !strncmp(other, name, size) && other[size] == ' ') return 1;
    }
    return 0;
}

/* What the command pool says on standard error once the result is written: why the fonts of a name stay, by the lines of t1subset_fonts. */
static void say_kept(const t1subset_bytes *documents, size_t count) {
    t1subset_answer answer = T1SUBSET_ANSWER;
    if (t1subset_fonts(documents, count, &answer)) fail("the fonts of pooled documents are refused\n");
    char *lines = calloc(answer.bytes.size + 1, 1);
    if (!lines) fail("failed: read\n");
    memcpy(lines, answer.bytes.data, answer.bytes.size);
    for (char *line = lines, *end; (end = strchr(line, '\n')); line = end + 1) {
        const char *name = strchr(strchr(line, ' ') + 1, ' ') + 1, *why = strstr(line, " kept: ");
        const size_t size = strcspn(name, " \n");
        if (why && why < end && !told_before(lines, line, name, size)) {
            fprintf(stderr, "kept %.*s: %.*s\n", (int) size, name, (int) (end - why - 7), why + 7);
        }
    }
    free(lines);
    t1subset_free(&answer);
}

int main(int count, char **words) {
    if (count < 3) return 2;
    static struct options options;
    count = take_options(&options, count, words);
    const char *word = options.extract ? "extract" : words[1];
    const int out = out_of(word), files = files_of(word, count);
    t1subset_bytes *arguments = calloc((size_t) count, sizeof *arguments);
    if (!arguments) return 2;
    size_t taken = 0;
    for (int at = 2; at < count; at++) {
        if (at == out) continue;
        arguments[taken] = taken < (size_t) files ? whole(words[at]) : named(words[at]);
        taken++;
    }
    t1subset_answer answer = T1SUBSET_ANSWER;
    const uint32_t number = call(word, &options, arguments, taken, &answer);
    tell(number, &answer);
    int status = number ? 1 : strcmp(word, "fonts") ? write_to(out ? words[out] : NULL, answer.bytes) : print_places(answer.bytes, words + 2);
    if (number) fprintf(stderr, "refused: %.*s\n", (int) answer.bytes.size, (const char *) answer.bytes.data);
    else if (!status && !strcmp(word, "mend")) say_mends(arguments[0]);
    else if (!status && !strcmp(word, "pool")) say_kept(arguments, taken);
    else if (!status && !strcmp(word, "diff")) status = answer.bytes.size > 0;
    t1subset_free(&answer);
    for (size_t at = 0; at < taken && at < (size_t) files; at++) free((void *) arguments[at].data);
    free(arguments);
    return status;
}
