/*
 * Compares the archive with PROJ's `laea`, both ways, over Europe and over the half of the globe
 * around each of several centres. Prints the worst differences and ends with 1 where one is above
 * its bound.
 */
#include <math.h>
#include <stdio.h>

#include "globe.h"

#define LISTS 50

static const double BOUND_METRES = 0.4;
static const double BOUND_MAS = 18.0;

typedef struct {
    const char *name;
    int64_t a, e2, lat0, lon0, false_easting, false_northing;
} Case;

static const Case CASES[] = {
    {"ETRS-LAEA", 637813700, 6694380, 187200000, 36000000, 432100000, 321000000},
    {"oblique, 45 S 170 E", 637813700, 6694380, -162000000, 612000000, 0, 0},
    {"oblique, 85 N 100 W", 637813700, 6694380, 306000000, -360000000, 0, 0},
    {"equatorial, 0 N 0 E", 637813700, 6694380, 0, 0, 0, 0},
    {"equatorial, 0 N 180 E", 637813700, 6694380, 0, 648000000, 0, 0},
    {"north pole", 637813700, 6694380, 324000000, 36000000, 0, 0},
    {"south pole", 637813700, 6694380, -324000000, 0, 100000000, -100000000},
    {"greatest a and e2, 30 N 20 W", 1000000000, 10000000, 108000000, -72000000, 0, 0},
    {"sphere, 40 N 100 W", 637100000, 0, 144000000, -360000000, 0, 0},
    {"sphere, 0 N 0 E", 637100000, 0, 0, 0, 0, 0},
    {"sphere, north pole", 637100000, 0, 324000000, 0, 0, 0},
};

typedef struct {
    double metres, lat_mas, lon_mas;
} Worst;

static laea_set set_of(const Case *s)
{
    laea_set set = LAEA_SPHERE;
    set.a = s->a;
    set.e2 = s->e2;
    set.lat0 = s->lat0;
    set.lon0 = s->lon0;
    set.false_easting = s->false_easting;
    set.false_northing = s->false_northing;
    return set;
}

/* A NaN, the value of a refused position, is kept once it is there. */
static void keep(double *worst, double value)
{
    if (!isnan(*worst) && !(value <= *worst))
        *worst = value;
}

static void compare_list(laea_set set, const Region *r, PJ *p, Worst *worst)
{
    static double latitudes[LIST], longitudes[LIST], metres[LIST], norths[LIST], easts[LIST];
    for (int i = 0; i < LIST; i++)
        draw(set, r, &latitudes[i], &longitudes[i]);
    forward_distance(set, p, latitudes, longitudes, LIST, metres);
    inverse_gaps(set, p, latitudes, longitudes, LIST, norths, easts);
    for (int i = 0; i < LIST; i++) {
        keep(&worst->metres, metres[i]);
        keep(&worst->lat_mas, norths[i] * DEGREE);
        keep(&worst->lon_mas, easts[i] * cos(radians(latitudes[i])) * DEGREE);
    }
}

static int compare(const Case *s, const Region *r)
{
    Worst worst = {0, 0, 0};
    laea_set set = set_of(s);
    PJ *p = projection(set);
    for (int i = 0; i < LISTS; i++)
        compare_list(set, r, p, &worst);
    proj_destroy(p);
    int good = worst.metres <= BOUND_METRES && worst.lat_mas <= BOUND_MAS &&
               worst.lon_mas <= BOUND_MAS;
    printf("%-29s %-11s %12.3f %13.2f %14.2f  %s\n", s->name, r->name, worst.metres, worst.lat_mas,
           worst.lon_mas, good ? "" : "ABOVE ITS BOUND");
    return good;
}

int main(void)
{
    int good = 1;
    printf("Worst differences from PROJ %s, laea, %d points for each line.\n",
           proj_info().version, LIST * LISTS);
    printf("Forward in metres (bound %g); inverse, for whole cm, in mas: latitude, and longitude\n",
           BOUND_METRES);
    printf("times the cosine of the latitude (bound %g each).\n\n", BOUND_MAS);
    printf("%-29s %-11s %12s %13s %14s\n", "centre", "region", "forward, m", "latitude, mas",
           "longitude, mas");
    good &= compare(&CASES[0], &EUROPE);
    for (size_t i = 0; i < sizeof CASES / sizeof CASES[0]; i++)
        good &= compare(&CASES[i], &HALF_GLOBE);
    printf("\n%s\n", good ? "All within their bounds." : "A difference is above its bound.");
    return good ? 0 : 1;
}
