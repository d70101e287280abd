/*
 * How far the archive's answers are from PROJ's `laea`, and from the position put in after a way there
 * and back, for ETRS-LAEA: the worst and the root mean square over Europe, over the half of the globe
 * around the centre and over every position that forward accepts. Ends with 1 where one is above its
 * bound.
 *
 * The mean is over positions drawn evenly by area. The worst is looked for from the worst position
 * of each list of them, among positions nearer and nearer to it: a few positions among millions are
 * bad, since the error is a sum of roundings.
 */
#include <math.h>
#include <stdio.h>

#include "globe.h"

#define LISTS 200
#define AROUND 512
#define ROUNDS 12

/* Three minutes of arc, the widest step of the search. */
static const double STEP = 0.05;

typedef struct {
    double value, latitude, longitude;
} Worst;

typedef struct {
    Worst worst;
    double squares;
    long count;
} Found;

static laea_set set;
static PJ *proj;

/* NaN, the mark of a position that is refused with 4, is right only where the region says so. */
static int counts(const Region *region, double value)
{
    if (isnan(value) && region != &ACCEPTED)
        stop("a position near the centre was refused");
    return !isnan(value);
}

/* A position at most a step away; the step is on the ground, so it is more degrees near a pole. */
static void draw_around(const Region *region, const Worst *w, double step, double *latitude,
                        double *longitude)
{
    double wider = step / fmax(cos(radians(w->latitude)), 0.01);
    *latitude = whole_mas(w->latitude + step * (2 * fraction() - 1));
    *longitude = whole_mas(w->longitude + wider * (2 * fraction() - 1));
    if (!is_inside(set, region, *latitude, *longitude)) {
        *latitude = w->latitude;
        *longitude = w->longitude;
    }
}

/* An equal value moves on, too: a gap in whole mas is the same over wide stretches. */
static void climb(const Region *region, Measure *measure, Worst *w)
{
    static double latitudes[AROUND], longitudes[AROUND], values[AROUND];
    double step = STEP;
    for (int round = 0; round < ROUNDS; round++, step /= 2) {
        for (int i = 0; i < AROUND; i++)
            draw_around(region, w, step, &latitudes[i], &longitudes[i]);
        measure(set, proj, latitudes, longitudes, AROUND, values);
        for (int i = 0; i < AROUND; i++)
            if (counts(region, values[i]) && values[i] >= w->value)
                *w = (Worst){values[i], latitudes[i], longitudes[i]};
    }
}

static void add_list(const Region *region, Measure *measure, Found *found)
{
    static double latitudes[LIST], longitudes[LIST], values[LIST];
    Worst w = {-1, 0, 0};
    for (int i = 0; i < LIST; i++)
        draw(set, region, &latitudes[i], &longitudes[i]);
    measure(set, proj, latitudes, longitudes, LIST, values);
    for (int i = 0; i < LIST; i++) {
        if (!counts(region, values[i]))
            continue;
        found->count++;
        found->squares += values[i] * values[i];
        if (values[i] > w.value)
            w = (Worst){values[i], latitudes[i], longitudes[i]};
    }
    climb(region, measure, &w);
    if (w.value > found->worst.value)
        found->worst = w;
}

typedef struct {
    const Region *region;
    double worst, mean; /* bounds */
} Row;

static int print_row(const Row *row, Measure *measure)
{
    Found found = {{-1, 0, 0}, 0, 0};
    for (int i = 0; i < LISTS; i++)
        add_list(row->region, measure, &found);
    double mean = sqrt(found.squares / (double)found.count);
    int good = found.worst.value <= row->worst && mean <= row->mean;
    printf("  %-12s %9.3f %7g %9.3f %7g     %6.2f %7.2f%s\n", row->region->name, found.worst.value,
           row->worst, mean, row->mean, found.worst.latitude, found.worst.longitude,
           good ? "" : "  ABOVE ITS BOUND");
    fflush(stdout);
    return good;
}

static int print_table(const char *name, Measure *measure, const Row *rows, int length)
{
    int good = 1;
    printf("\n%s\n  %-12s %9s %7s %9s %7s     %s\n", name, "region", "worst", "bound", "RMS",
           "bound", "worst at, degrees");
    for (int i = 0; i < length; i++)
        good &= print_row(&rows[i], measure);
    return good;
}

int main(void)
{
    static const Row FORWARD[] = {{&EUROPE, 0.1, 0.03}, {&HALF_GLOBE, 0.13, 0.04}, {&ACCEPTED, 1, 0.07}};
    static const Row INVERSE[] = {{&EUROPE, 0.1, 0.035}, {&HALF_GLOBE, 0.2, 0.055}, {&ACCEPTED, 1, 0.12}};
    static const Row RETURN[] = {{&EUROPE, 0.075, 0.022}, {&HALF_GLOBE, 0.12, 0.03}, {&ACCEPTED, 10, 0.2}};
    static const Row LATITUDE[] = {{&HALF_GLOBE, 4, 0.7}};
    static const Row LONGITUDE[] = {{&HALF_GLOBE, 3, 0.7}};
    int good = 1;
    set = LAEA_ETRS_LAEA;
    proj = projection(set);
    printf("Accuracy for ETRS-LAEA beside PROJ %s, laea: the root mean square (RMS) of %d positions\n"
           "drawn evenly by area, the worst of them and of %d around the worst of them.\n",
           proj_info().version, LIST * LISTS, AROUND * ROUNDS * LISTS);
    good &= print_table("Forward, distance from PROJ's answer, metres on the map", forward_distance, FORWARD, 3);
    good &= print_table("Inverse, distance from PROJ's answer, metres on the ground", inverse_distance, INVERSE, 3);
    good &= print_table("There and back, distance from the position put in, metres on the ground", return_distance,
                        RETURN, 3);
    good &= print_table("There and back, gap of the latitude, mas", return_latitude_gap, LATITUDE, 1);
    good &= print_table("There and back, gap of the longitude, mas", return_longitude_gap, LONGITUDE, 1);
    printf("\n%s\n", good ? "All within their bounds." : "A measure is above its bound.");
    proj_destroy(proj);
    return good ? 0 : 1;
}
