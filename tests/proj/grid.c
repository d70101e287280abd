/*
 * Prints what scripts/pictures draws, for ETRS-LAEA. The first word says what:
 *
 *   MEASURE REGION WEST SOUTH SIDE COLUMNS ROWS POSITIONS
 *       a grid of squares of the plane, SIDE metres wide, from its west and south edge in metres: for
 *       each square the worst of as many positions drawn in it, nan where none lies in the region
 *   refused-forward COLUMNS ROWS
 *       a grid over all latitudes and longitudes: the refusal number at the middle of each field
 *   refused-inverse WEST SOUTH SIDE COLUMNS ROWS
 *       the refusal number at the middle of each square of the plane
 *   places
 *       reads lines of latitude and longitude in degrees: easting and northing of each, or nan nan
 *
 * A grid is printed by rows from the south, in a row from the west.
 */
#include <math.h>
#include <stdio.h>
#include <stdlib.h>
#include <string.h>

#include "globe.h"

static laea_set set;
static PJ *proj;

static const struct {
    const char *name;
    Measure *measure;
} MEASURES[] = {
    {"forward-distance", forward_distance},
    {"inverse-distance", inverse_distance},
    {"return-distance", return_distance},
    {"return-latitude-gap", return_latitude_gap},
    {"return-longitude-gap", return_longitude_gap},
};

static const struct {
    const char *name;
    const Region *region;
} REGIONS[] = {{"europe", &EUROPE}, {"half-globe", &HALF_GLOBE}, {"accepted", &ACCEPTED}};

/* Squares of the plane, in metres. */
typedef struct {
    double west, south, side;
    long columns, rows;
} Plane;

static double number(const char *text)
{
    char *end;
    double value = strtod(text, &end);
    if (*text == 0 || *end != 0 || !isfinite(value))
        stop("an argument is no number");
    return value;
}

static long count(const char *text, long most)
{
    double value = number(text);
    if (!(1 <= value && value <= most))
        stop("a count is out of range");
    return (long)value;
}

static Plane plane(char **words)
{
    Plane p = {number(words[0]), number(words[1]), number(words[2]), count(words[3], 10000),
               count(words[4], 10000)};
    return p;
}

/* The position of the globe that the plane has there; 0 where there is none in the region. */
static int unproject(const Region *region, double easting, double northing, double *latitude,
                     double *longitude)
{
    PJ_COORD c = proj_trans(proj, PJ_INV, proj_coord(easting, northing, 0, 0));
    proj_errno_reset(proj);
    if (!isfinite(c.lp.phi) || !isfinite(c.lp.lam))
        return 0;
    *latitude = whole_mas(proj_todeg(c.lp.phi));
    *longitude = whole_mas(proj_todeg(c.lp.lam));
    return is_inside(set, region, *latitude, *longitude);
}

static double worst_of_square(const Region *region, Measure *measure, double west, double south,
                              double side, long positions)
{
    static double latitudes[LIST], longitudes[LIST], values[LIST];
    size_t length = 0;
    double worst = NAN;
    for (long i = 0; i < positions; i++)
        if (unproject(region, west + side * fraction(), south + side * fraction(),
                      &latitudes[length], &longitudes[length]))
            length++;
    measure(set, proj, latitudes, longitudes, length, values);
    for (size_t i = 0; i < length; i++)
        worst = fmax(worst, values[i]);
    return worst;
}

static void print_measure(Measure *measure, const Region *region, Plane p, long positions)
{
    for (long row = 0; row < p.rows; row++)
        for (long column = 0; column < p.columns; column++)
            printf("%.4g%c",
                   worst_of_square(region, measure, p.west + p.side * (double)column,
                                   p.south + p.side * (double)row, p.side, positions),
                   column + 1 < p.columns ? ' ' : '\n');
}

static void print_refused_forward(long columns, long rows)
{
    double out[2];
    for (long row = 0; row < rows; row++)
        for (long column = 0; column < columns; column++) {
            double latitude = -90 + 180 * ((double)row + 0.5) / (double)rows;
            double longitude = -180 + 360 * ((double)column + 0.5) / (double)columns;
            printf("%d%c", laea_forward(set, latitude, longitude, out),
                   column + 1 < columns ? ' ' : '\n');
        }
}

static void print_refused_inverse(Plane p)
{
    double out[2];
    for (long row = 0; row < p.rows; row++)
        for (long column = 0; column < p.columns; column++) {
            double easting = p.west + p.side * ((double)column + 0.5);
            double northing = p.south + p.side * ((double)row + 0.5);
            printf("%d%c", laea_inverse(set, easting, northing, out),
                   column + 1 < p.columns ? ' ' : '\n');
        }
}

static void print_places(void)
{
    double latitude, longitude, out[2];
    while (scanf("%lf %lf", &latitude, &longitude) == 2) {
        if (laea_forward(set, latitude, longitude, out) != 0)
            out[0] = out[1] = NAN;
        printf("%.2f %.2f\n", out[0], out[1]);
    }
}

static Measure *measure_named(const char *name)
{
    for (size_t i = 0; i < sizeof MEASURES / sizeof MEASURES[0]; i++)
        if (strcmp(name, MEASURES[i].name) == 0)
            return MEASURES[i].measure;
    stop("there is no such measure");
    return NULL;
}

static const Region *region_named(const char *name)
{
    for (size_t i = 0; i < sizeof REGIONS / sizeof REGIONS[0]; i++)
        if (strcmp(name, REGIONS[i].name) == 0)
            return REGIONS[i].region;
    stop("there is no such region");
    return NULL;
}

int main(int words, char **word)
{
    set = LAEA_ETRS_LAEA;
    proj = projection(set);
    if (words == 2 && strcmp(word[1], "places") == 0)
        print_places();
    else if (words == 4 && strcmp(word[1], "refused-forward") == 0)
        print_refused_forward(count(word[2], 10000), count(word[3], 10000));
    else if (words == 7 && strcmp(word[1], "refused-inverse") == 0)
        print_refused_inverse(plane(word + 2));
    else if (words == 9)
        print_measure(measure_named(word[1]), region_named(word[2]), plane(word + 3),
                      count(word[8], LIST));
    else
        stop("the words are not of one of the forms at the top of grid.c");
    proj_destroy(proj);
    return 0;
}
