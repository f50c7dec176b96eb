#include "points.h"

#include <math.h>
#include <stdio.h>
#include <stdlib.h>

int read_range(const char *text, double *points) {
    double from, step, to;
    char rest;
    if (sscanf(text, "%lf:%lf:%lf%c", &from, &step, &to, &rest) != 3 || !(step >= 0.01) || !(to >= from)) return 0;
    int points_read = 0;
    for (; points_read < MAX_POINTS && from + points_read * step <= to + step / 1000; points_read++)
        points[points_read] = from + points_read * step;
    return points_read;
}

void wilson(double errors, double frames, double *low, double *high) {
    double z = 1.959964, rate = errors / frames, width = z * z / frames;
    double middle = rate + width / 2, spread = z * sqrt(rate * (1 - rate) / frames + width / (4 * frames));
    *low = errors > 0 ? (middle - spread) / (1 + width) : 0;
    *high = (middle + spread) / (1 + width);
}

int read_settings(char **words, settings *s) {
    char rest;
    int fits = sscanf(words[0], "%lu:%lu%c", &s->least_frames, &s->most_frames, &rest) == 2;
    s->block_errors = strtoul(words[1], NULL, 10);
    s->compare_every = strtoul(words[2], NULL, 10);
    s->seed = strtoull(words[3], NULL, 10);
    return fits && s->most_frames && s->block_errors && s->compare_every;
}
