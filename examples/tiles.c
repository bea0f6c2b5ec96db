/* Stores a block of 5 rows and 7 columns as tiles of 2 by 3 words, prints it, and takes it back. */
#include <stdio.h>
#include <zibsnarda.h>

enum { ROWS = 5, COLUMNS = 7, TILE_ROWS = 2, TILE_COLUMNS = 3 };

static int refused(uint32_t number)
{
    if (number != ZIB_ACCEPTED)
        fprintf(stderr, "refused: %s\n", zib_sentence(number));
    return number != ZIB_ACCEPTED;
}

int main(void)
{
    uint32_t block[ROWS * COLUMNS], scratch[TILE_ROWS * COLUMNS]; /* a band of tiles */
    for (uint32_t at = 0; at < ROWS * COLUMNS; at++)
        block[at] = 10 * (at / COLUMNS) + at % COLUMNS;
    if (refused(zib_to_tiles(block, ROWS * COLUMNS, scratch, TILE_ROWS * COLUMNS, ROWS, COLUMNS, TILE_ROWS, TILE_COLUMNS)))
        return 1;
    for (size_t at = 0; at < ROWS * COLUMNS; at++)
        printf("%02u%c", (unsigned)block[at], at % COLUMNS == COLUMNS - 1 ? '\n' : ' ');
    if (refused(zib_from_tiles(block, ROWS * COLUMNS, scratch, TILE_ROWS * COLUMNS, ROWS, COLUMNS, TILE_ROWS, TILE_COLUMNS)))
        return 1;
    printf("back: %02u to %02u\n", (unsigned)block[0], (unsigned)block[ROWS * COLUMNS - 1]);
    return 0;
}
