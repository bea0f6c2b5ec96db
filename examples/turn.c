/* Turns a block of 64 frames by 16 cameras, so that each camera's frames stand together. */
#include <stdio.h>
#include <zibsnarda.h>

enum { FRAMES = 64, CAMERAS = 16 };

int main(void) {
    static uint32_t block[FRAMES * CAMERAS];
    uint32_t scratch[FRAMES]; /* as many words as the longer side */
    for (uint32_t frame = 0; frame < FRAMES; frame++)
        for (uint32_t camera = 0; camera < CAMERAS; camera++) block[frame * CAMERAS + camera] = 100 * camera + frame;

    uint32_t number = zib_turn(block, FRAMES * CAMERAS, scratch, FRAMES, FRAMES, CAMERAS);
    if (number != ZIB_ACCEPTED) {
        printf("refused: %u\n", (unsigned)number);
        return 1;
    }
    for (uint32_t camera = 0; camera < CAMERAS; camera++) {
        const uint32_t *frames = block + camera * FRAMES;
        printf("camera %u: %u to %u\n", (unsigned)camera, (unsigned)frames[0], (unsigned)frames[FRAMES - 1]);
    }
    return 0;
}
