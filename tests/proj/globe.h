/*
 * What the comparisons with PROJ share: the same projection for PROJ, positions drawn from a region
 * of the globe, and measures of the archive's answers.
 */
#ifndef GLOBE_H
#define GLOBE_H

#include <proj.h>

#include "laea.h"

/* The most positions that are measured at once. */
#define LIST LAEA_LIST_MOST

/* One degree in mas. */
#define DEGREE 3600000.0

/* A window in degrees, and how near the centre its positions are at least: 0 to 2, U being 1. */
typedef struct {
    const char *name;
    double south, north, west, east, nearness;
} Region;

extern const Region EUROPE;
/* The half of the globe around the centre: at most 90 degrees from it. */
extern const Region HALF_GLOBE;
/* The whole globe, of which a measure leaves out what is refused with 4: too far from the centre. */
extern const Region ACCEPTED;

void stop(const char *why);
double radians(double degrees);

/* From 0 to below 1, the same sequence in each run (SplitMix64). */
double fraction(void);

/* PROJ gets the same ellipsoid: a and e2 as the set has them, not those of a named one. */
PJ *projection(laea_set set);

/* 0 on the opposite side of the globe, 1 at 90 degrees from the centre, 2 at the centre. */
double nearness(laea_set set, double latitude, double longitude);

int is_inside(laea_set set, const Region *region, double latitude, double longitude);

/* A position of the region on a whole mas, evenly spread by area. */
void draw(laea_set set, const Region *region, double *latitude, double *longitude);

/* The nearest whole mas, in degrees. */
double whole_mas(double degrees);

/* Positions, one value for each: NaN where a call refuses it with 4. Any other refusal stops. */
typedef void Measure(laea_set set, PJ *proj, const double *latitudes, const double *longitudes,
                     size_t length, double *values);

/* Inverse, for PROJ's plane position in whole cm: how far the archive's answer and PROJ's are apart, in
 * degrees of latitude and of longitude; NaN where the call refuses it with 4. */
void inverse_gaps(laea_set set, PJ *proj, const double *latitudes, const double *longitudes,
                  size_t length, double *norths, double *easts);

/* Forward: metres on the map between the archive's answer and PROJ's. */
Measure forward_distance;
/* The gaps of inverse_gaps in metres on the ground. */
Measure inverse_distance;
/* There and back by the archive, against the position put in: metres on the ground; the gap of the
 * latitude in mas; the gap of the longitude in mas, times the cosine of the authalic latitude. */
Measure return_distance;
Measure return_latitude_gap;
Measure return_longitude_gap;

#endif
