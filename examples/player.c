/* A player that turns 64 frames by 16 cameras one line a video frame, in the gap that each frame leaves, and shows how far it has come. */
#include <stdio.h>
#include <zibsnarda.h>

enum { FRAMES = 64, CAMERAS = 16, BAR = 24 };

/* A line of the progress bar each time another sixteenth of the lines is done. */
static void show(size_t done, size_t count) {
    if (done * 16 % count >= 16) return;
    size_t full = done * BAR / count;
    for (size_t k = 0; k < BAR; k++) putchar(k < full ? '#' : '.');
    printf(" %zu of %zu\n", done, count);
}

int main(void) {
    static uint32_t block[FRAMES * CAMERAS];
    uint32_t scratch[FRAMES]; /* as many words as the longer side */
    for (uint32_t frame = 0; frame < FRAMES; frame++)
        for (uint32_t camera = 0; camera < CAMERAS; camera++) block[frame * CAMERAS + camera] = 100 * camera + frame;

    struct zib_line_count lines = zib_lines(FRAMES, CAMERAS);
    struct zib_line_record record = {0};
    while (record.done < lines.count) {
        /* ... the video frame is shown, and the gap begins ... */
        uint32_t number = zib_tick(block, FRAMES * CAMERAS, scratch, FRAMES, &record, FRAMES, CAMERAS);
        if (number != ZIB_ACCEPTED) {
            printf("refused: %u\n", (unsigned)number);
            return 1;
        }
        show(record.done, lines.count);
    }
    for (uint32_t camera = 0; camera < CAMERAS; camera++) {
        const uint32_t *frames = block + camera * FRAMES;
        printf("camera %u: %u to %u\n", (unsigned)camera, (unsigned)frames[0], (unsigned)frames[FRAMES - 1]);
    }
    return 0;
}
