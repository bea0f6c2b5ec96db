/*
 * turn-sheet: lays out the block of a sheet afresh, as `turn` does and over the same proved job, with a
 * status that a script can test and the reason of a refusal on standard error.
 */
#include <stdio.h>
#include <string.h>
#include <zibsnarda.h>

enum { DONE = 0, REFUSED = 1, TROUBLE = 2 };

static uint8_t text[ZIB_MAX_SHEET_BYTES + 1], out[ZIB_MAX_SHEET_BYTES];
static uint32_t words[ZIB_MAX_SHEET_WORDS], scratch[ZIB_MAX_SHEET_WORDS];

static const char usage[] = "usage: turn-sheet [FILE]\n"
                            "Reads a sheet from FILE, or from standard input where there is none or it is -, and prints\n"
                            "the result sheet. Status: 0 done, 1 refused, 2 could not read or write.\n";

/* What cannot be seen in a sheet, where there is some of it. */
static void hint(size_t count)
{
    if (count >= 3 && memcmp(text, "\xef\xbb\xbf", 3) == 0)
        fputs("turn-sheet: the sheet begins with a byte order mark: take it away\n", stderr);
    if (memchr(text, '\r', count) != NULL)
        fputs("turn-sheet: the sheet has carriage returns: lines end in LF alone\n", stderr);
    if (memchr(text, ' ', count) != NULL)
        fputs("turn-sheet: the sheet has spaces: fields are parted by one tab each\n", stderr);
    if (count > 0 && count <= ZIB_MAX_SHEET_BYTES && text[count - 1] != '\n')
        fputs("turn-sheet: the last line has no LF\n", stderr);
}

/* Says why a file cannot be read or written. */
static int trouble(const char *name)
{
    fputs("turn-sheet: ", stderr);
    perror(name);
    return TROUBLE;
}

int main(int count, char **word)
{
    FILE *in = stdin;
    const char *name = count == 2 ? word[1] : "-";
    if (count > 2 || strcmp(name, "--help") == 0 || strcmp(name, "-h") == 0) {
        fputs(usage, count > 2 ? stderr : stdout);
        return count > 2 ? TROUBLE : DONE;
    }
    if (strcmp(name, "-") == 0)
        name = "standard input";
    else if ((in = fopen(name, "rb")) == NULL)
        return trouble(name);
    size_t bytes = fread(text, 1, sizeof text, in);
    if (ferror(in))
        return trouble(name);

    struct zib_job_answer told = zib_job(text, bytes, words, scratch, out);
    if (fwrite(out, 1, told.count, stdout) != told.count || fflush(stdout) != 0)
        return trouble("standard output");
    if (told.number == ZIB_ACCEPTED)
        return DONE;
    fprintf(stderr, "turn-sheet: %s: %s (number %u, place %zu)\n", name, zib_sentence(told.number),
            (unsigned)told.number, told.place);
    if (told.number == ZIB_BAD_LINE || told.number == ZIB_LONG_SHEET)
        hint(bytes);
    return REFUSED;
}
