/* The whole job on a sheet from standard input: prints the result sheet, or the line that refuses it. */
#include <stdio.h>
#include <zibsnarda.h>

int main(void)
{
    static uint8_t text[ZIB_MAX_SHEET_BYTES + 1], out[ZIB_MAX_SHEET_BYTES]; /* a byte more, so that a sheet that is too long shows */
    static uint32_t words[ZIB_MAX_SHEET_WORDS], scratch[ZIB_MAX_SHEET_WORDS];
    size_t count = fread(text, 1, sizeof text, stdin);
    struct zib_job_answer told = zib_job(text, count, words, scratch, out);
    fwrite(out, 1, told.count, stdout);
    if (told.number == ZIB_ACCEPTED)
        return 0;
    fprintf(stderr, "refused: %s, place %zu\n", zib_sentence(told.number), told.place);
    return 1;
}
