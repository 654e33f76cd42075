#include <stdio.h>
#include <string.h>
#include <t1subset.h>

static uint8_t font[1 << 22];

int main(int argc, char **argv)
{
    t1subset_bytes names[100];
    t1subset_answer answer;
    size_t size, count = 0;
    uint32_t number;
    FILE *in;

    if (argc < 2 || argc > 102 || !(in = fopen(argv[1], "rb"))) {
        fprintf(stderr, "usage: cut FONT [NAME]...\n");
        return 2;
    }
    size = fread(font, 1, sizeof font, in);
    if (ferror(in) || size == sizeof font) {
        fprintf(stderr, "%s can't be read, or is too long\n", argv[1]);
        return 2;
    }
    fclose(in);
    for (int i = 2; i < argc; i++) {
        names[count].data = (const uint8_t *) argv[i];
        names[count++].size = strlen(argv[i]);
    }
    number = t1subset_subset(font, size, names, count, T1SUBSET_PFB, &answer);
    if (number == T1SUBSET_MEMORY)
        fprintf(stderr, "out of memory\n");
    else if (number != T1SUBSET_OK)
        fprintf(stderr, "%.*s\n", (int) answer.bytes.size, (const char *) answer.bytes.data);
    else
        fwrite(answer.bytes.data, 1, answer.bytes.size, stdout);
    t1subset_free(&answer);
    return number != T1SUBSET_OK;
}
