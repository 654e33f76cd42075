/* A print filter: it writes a PostScript job with each font once, or as it came if the library refuses that. It is called as
 * CUPS calls its filters: filter JOB USER TITLE COPIES OPTIONS [FILE]    without FILE the job stands on standard input */
#include <stdio.h>
#include <stdlib.h>
#include <t1subset.h>

static int fail(const char *why)
{
    fprintf(stderr, "ERROR: %s\n", why);
    return 1;
}

int main(int argc, char **argv)
{
    size_t size = 0, room = 1 << 16;
    uint8_t *data = malloc(room);
    FILE *in = argc == 7 ? fopen(argv[6], "rb") : stdin;
    t1subset_answer answer;
    t1subset_bytes job, out;
    uint32_t number;

    if (argc != 6 && argc != 7)
        return fail("usage: filter JOB USER TITLE COPIES OPTIONS [FILE]");
    if (!in)
        return fail("the file of the job can't be opened");
    while (data && (size += fread(data + size, 1, room - size, in)) == room)
        data = realloc(data, room *= 2);
    if (!data)
        return fail("there is no memory for the job");
    if (ferror(in))
        return fail("the job can't be read");
    job.data = data;
    job.size = size;
    number = t1subset_pool(&job, 1, T1SUBSET_TAGS, &answer);
    out = number == T1SUBSET_OK ? answer.bytes : job;
    if (number == T1SUBSET_OK)
        fprintf(stderr, "INFO: each font once: %zu bytes of %zu\n", out.size, job.size);
    else
        fprintf(stderr, "INFO: the job stays as it came: refusal %u of libt1subset\n", (unsigned) number);
    if (fwrite(out.data, 1, out.size, stdout) != out.size || fflush(stdout))
        return fail("the job can't be written");
    t1subset_free(&answer);
    free(data);
    return 0;
}
