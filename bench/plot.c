/* The least times as a plot: shapes across, ns a word upwards on a logarithmic scale, one line a method. */
#include <math.h>
#include <stdio.h>

#include "bench.h"

enum { WIDTH = 1060, HEIGHT = 560, LEFT = 70, RIGHT = 790, TOP = 50, BOTTOM = 500 };

static double low, high; /* the powers of ten around every time */

static double across(size_t shape) { return LEFT + 35 + (double)shape * (RIGHT - LEFT - 70) / (SHAPES - 1); }
static double up(double v) { return BOTTOM - (log10(v) - low) / (high - low) * (BOTTOM - TOP); }

static void find_limits(void) {
    double least = found[0][0].least, most = least;
    for (size_t w = 0; w < method_count; w++)
        for (size_t s = 0; s < SHAPES; s++) {
            least = fmin(least, found[w][s].least);
            most = fmax(most, found[w][s].least);
        }
    low = floor(log10(least)), high = ceil(log10(most));
}

static void draw_scale(FILE *f) {
    int middle = (TOP + BOTTOM) / 2;
    for (double p = low; p <= high; p++) {
        double y = up(pow(10, p));
        fprintf(f, "<line x1='%d' x2='%d' y1='%.1f' y2='%.1f' stroke='#ccc'/>\n", LEFT, RIGHT, y, y);
        fprintf(f, "<text x='%d' y='%.1f' text-anchor='end'>%g</text>\n", LEFT - 8, y + 4, pow(10, p));
    }
    for (size_t s = 0; s < SHAPES; s++)
        fprintf(f, "<text x='%.1f' y='%d' text-anchor='middle'>%zux%zu</text>\n", across(s), BOTTOM + 22, shapes[s].m, shapes[s].n);
    fprintf(f, "<text x='18' y='%d' transform='rotate(-90 18 %d)' text-anchor='middle'>ns a word, least</text>\n", middle, middle);
}

static void draw_method(FILE *f, size_t w) {
    const char *colour = methods[w].colour;
    int y = TOP + 10 + 26 * (int)w;
    fprintf(f, "<polyline fill='none' stroke='%s' stroke-width='2' points='", colour);
    for (size_t s = 0; s < SHAPES; s++) fprintf(f, "%.1f,%.1f ", across(s), up(found[w][s].least));
    fprintf(f, "'/>\n");
    for (size_t s = 0; s < SHAPES; s++) fprintf(f, "<circle cx='%.1f' cy='%.1f' r='3.5' fill='%s'/>\n", across(s), up(found[w][s].least), colour);
    fprintf(f, "<rect x='%d' y='%d' width='16' height='10' fill='%s'/>", RIGHT + 20, y, colour);
    fprintf(f, "<text x='%d' y='%d'>%s</text>\n", RIGHT + 44, y + 10, methods[w].name);
}

int write_plot(const char *path, const char *title) {
    FILE *f = fopen(path, "w");
    if (!f) return 1;
    find_limits();
    fprintf(f, "<svg xmlns='http://www.w3.org/2000/svg' width='%d' height='%d' font-family='sans-serif' font-size='13'>\n", WIDTH, HEIGHT);
    fprintf(f, "<rect width='100%%' height='100%%' fill='white'/>\n<text x='%d' y='26'>%s</text>\n", LEFT, title);
    draw_scale(f);
    for (size_t w = 0; w < method_count; w++) draw_method(f, w);
    fprintf(f, "</svg>\n");
    return fclose(f) != 0;
}
