/* The join desk: of each camera the better of two network paths, its offset in frames, and the frames that all have. */
#include <inttypes.h>
#include <stdio.h>
#include <zibsnarda.h>

enum { CAMERAS = 3, READINGS = 8, TICKS_PER_FRAME = 540000, FRAMES = 1500 };

/* Of each camera two paths, each of two exchanges: sent, received, returned, received back, in ticks of 27 MHz. */
static const int64_t heard[CAMERAS][2][READINGS] = {
    {{0, 5400, 5500, 300, 1000, 6300, 6400, 1200}, {0, 5150, 5200, 250, 900, 900, 1000, 800}},
    {{0, 1620900, 1620950, 1000, 10, 1620800, 1620900, 500}, {0, 1620300, 1620350, 700, 0, 1620200, 1620250, 450}},
    {{0, -1080100, -1080000, 400, 0, -1079900, -1079800, 500}, {50, -1079500, -1079450, 900, 60, -1079800, -1079700, 500}},
};

static int refused(const char *what, uint32_t number)
{
    if (number != ZIB_ACCEPTED)
        fprintf(stderr, "%s refused: %s\n", what, zib_sentence(number));
    return number != ZIB_ACCEPTED;
}

int main(void)
{
    int64_t shifts[CAMERAS];
    for (size_t k = 0; k < CAMERAS; k++) {
        const int64_t *first = heard[k][0], *second = heard[k][1];
        struct zib_part part = {first, READINGS};
        if (refused("choice", zib_choose_number(first, READINGS, second, READINGS)))
            return 1;
        zib_choose(first, READINGS, second, READINGS, &part);
        struct zib_measured measured = zib_offset_delay(part.readings, part.count);
        if (refused("offset", measured.number))
            return 1;
        struct zib_frames frames = zib_to_frames(measured.offset, TICKS_PER_FRAME);
        if (refused("frames", frames.number))
            return 1;
        shifts[k] = frames.frames;
        printf("camera %zu: offset %" PRId64 ", delay %" PRId64 ", %" PRId64 " frames\n", k, measured.offset, measured.delay, shifts[k]);
    }
    struct zib_joined joined = zib_join(shifts, CAMERAS, FRAMES);
    if (refused("join", joined.number))
        return 1;
    printf("common: frames %" PRId64 " up to %" PRId64 "\n", joined.first, joined.end);
    return 0;
}
