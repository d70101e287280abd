#include <math.h>
#include <stdio.h>
#include <stdlib.h>

#include "globe.h"

const Region EUROPE = {"Europe", 34, 72, -25, 45, 0};
const Region HALF_GLOBE = {"half globe", -90, 90, -180, 180, 1};
const Region ACCEPTED = {"all accepted", -90, 90, -180, 180, 0};

void stop(const char *why)
{
    fprintf(stderr, "%s\n", why);
    exit(2);
}

double radians(double degrees)
{
    return proj_torad(degrees);
}

double fraction(void)
{
    static uint64_t state = 20240229;
    uint64_t z = state += UINT64_C(0x9e3779b97f4a7c15);
    z = (z ^ (z >> 30)) * UINT64_C(0xbf58476d1ce4e5b9);
    z = (z ^ (z >> 27)) * UINT64_C(0x94d049bb133111eb);
    return (double)((z ^ (z >> 31)) >> 11) / 9007199254740992.0;
}

PJ *projection(laea_set set)
{
    char text[300];
    snprintf(text, sizeof text,
             "+proj=laea +a=%.2f +es=%.9f +lat_0=%.17g +lon_0=%.17g +x_0=%.2f +y_0=%.2f +no_defs",
             set.a / 100.0, set.e2 / 1e9, set.lat0 / DEGREE, set.lon0 / DEGREE,
             set.false_easting / 100.0, set.false_northing / 100.0);
    PJ *made = proj_create(PJ_DEFAULT_CTX, text);
    if (made == NULL)
        stop("PROJ refuses the projection");
    return made;
}

/* The sine of the authalic latitude, q/qP of EPSG 9820. */
static double authalic_sine(laea_set set, double latitude)
{
    double e2 = set.e2 / 1e9, e = sqrt(e2), s = sin(radians(latitude));
    if (set.e2 == 0)
        return s;
    double q = s / (1 - e2 * s * s) + atanh(e * s) / e;
    double at_pole = 1 / (1 - e2) + atanh(e) / e;
    return q / at_pole;
}

static double authalic_cosine(laea_set set, double latitude)
{
    double s = authalic_sine(set, latitude);
    return sqrt(fmax(0, (1 - s) * (1 + s)));
}

double nearness(laea_set set, double latitude, double longitude)
{
    double centre = set.lat0 / DEGREE, turn = radians(longitude - set.lon0 / DEGREE);
    return 1 + authalic_sine(set, centre) * authalic_sine(set, latitude) +
           authalic_cosine(set, centre) * authalic_cosine(set, latitude) * cos(turn);
}

int is_inside(laea_set set, const Region *region, double latitude, double longitude)
{
    return region->south <= latitude && latitude <= region->north && region->west <= longitude &&
           longitude <= region->east && nearness(set, latitude, longitude) >= region->nearness;
}

double whole_mas(double degrees)
{
    return round(degrees * DEGREE) / DEGREE;
}

void draw(laea_set set, const Region *region, double *latitude, double *longitude)
{
    double low = sin(radians(region->south)), high = sin(radians(region->north));
    do {
        *latitude = whole_mas(proj_todeg(asin(low + (high - low) * fraction())));
        *longitude = whole_mas(region->west + (region->east - region->west) * fraction());
    } while (!is_inside(set, region, *latitude, *longitude));
}

/* The archive's answers for a list; a mark of 4 stays, any other refusal stops. */

static void check(uint8_t refusal, const uint8_t *marks, size_t length)
{
    if (refusal != 0)
        stop("a list call was refused");
    for (size_t i = 0; i < length; i++)
        if (marks[i] != 0 && marks[i] != LAEA_TOO_FAR)
            stop("a position was refused with another number than 4");
}

/* Forward gives refusal 4 for a nearness below 20,000,000 and only there; so near that a double
 * cannot tell, either is right. */
static void check_nearness(laea_set set, double latitude, double longitude, uint8_t mark)
{
    double over = nearness(set, latitude, longitude) - 0.02;
    if (fabs(over) > 1e-7 && (over < 0) != (mark == LAEA_TOO_FAR))
        stop("refusal 4 does not begin where it should");
}

static void forward(laea_set set, const double *latitudes, const double *longitudes, size_t length,
                    double *eastings, double *northings, uint8_t *marks)
{
    uint64_t count;
    uint8_t refusal =
        laea_forward_list(set, latitudes, length, longitudes, length, eastings, length, northings,
                          length, marks, length, &count);
    check(refusal, marks, length);
    for (size_t i = 0; i < length; i++)
        check_nearness(set, latitudes[i], longitudes[i], marks[i]);
}

static void inverse(laea_set set, const double *eastings, const double *northings, size_t length,
                    double *latitudes, double *longitudes, uint8_t *marks)
{
    uint64_t count;
    uint8_t refusal =
        laea_inverse_list(set, eastings, length, northings, length, latitudes, length, longitudes,
                          length, marks, length, &count);
    check(refusal, marks, length);
}

/* NaN says refused with 4; an answer that is a NaN becomes infinity, which is above any bound. */
static double unless_refused(uint8_t mark, double value)
{
    return mark ? NAN : isnan(value) ? INFINITY : value;
}

/* The size of the difference of two longitudes, in degrees. */
static double turn(double longitude, double other)
{
    return fabs(remainder(other - longitude, 360));
}

/* Metres on the ellipsoid between two positions near each other: degrees, by its radii there. */
static double ground(laea_set set, double latitude, double north, double east)
{
    double e2 = set.e2 / 1e9, s = sin(radians(latitude)), w = 1 - e2 * s * s;
    double across = set.a / 100.0 / sqrt(w), along = across * (1 - e2) / w;
    return hypot(along * radians(north), across * cos(radians(latitude)) * radians(east));
}

void forward_distance(laea_set set, PJ *proj, const double *latitudes, const double *longitudes,
                      size_t length, double *values)
{
    static double eastings[LIST], northings[LIST];
    static uint8_t marks[LIST];
    forward(set, latitudes, longitudes, length, eastings, northings, marks);
    for (size_t i = 0; i < length; i++) {
        PJ_COORD c = proj_coord(radians(longitudes[i]), radians(latitudes[i]), 0, 0);
        c = proj_trans(proj, PJ_FWD, c);
        double metres = hypot(eastings[i] - c.xy.x, northings[i] - c.xy.y);
        values[i] = unless_refused(marks[i], metres);
    }
}

void inverse_gaps(laea_set set, PJ *proj, const double *latitudes, const double *longitudes,
                  size_t length, double *norths, double *easts)
{
    static double eastings[LIST], northings[LIST], back_latitudes[LIST], back_longitudes[LIST];
    static uint8_t marks[LIST];
    for (size_t i = 0; i < length; i++) {
        PJ_COORD c = proj_coord(radians(longitudes[i]), radians(latitudes[i]), 0, 0);
        c = proj_trans(proj, PJ_FWD, c);
        eastings[i] = round(c.xy.x * 100) / 100;
        northings[i] = round(c.xy.y * 100) / 100;
    }
    inverse(set, eastings, northings, length, back_latitudes, back_longitudes, marks);
    for (size_t i = 0; i < length; i++) {
        PJ_COORD c = proj_trans(proj, PJ_INV, proj_coord(eastings[i], northings[i], 0, 0));
        double latitude = proj_todeg(c.lp.phi), longitude = proj_todeg(c.lp.lam);
        norths[i] = unless_refused(marks[i], fabs(back_latitudes[i] - latitude));
        easts[i] = unless_refused(marks[i], turn(longitude, back_longitudes[i]));
    }
}

void inverse_distance(laea_set set, PJ *proj, const double *latitudes, const double *longitudes,
                      size_t length, double *values)
{
    static double easts[LIST];
    inverse_gaps(set, proj, latitudes, longitudes, length, values, easts);
    for (size_t i = 0; i < length; i++)
        values[i] = ground(set, latitudes[i], values[i], easts[i]);
}

/* There and back by the archive: the sizes of the two differences in degrees, NaN where refused. */
static void there_and_back(laea_set set, const double *latitudes, const double *longitudes,
                           size_t length, double *norths, double *easts)
{
    static double eastings[LIST], northings[LIST], back_latitudes[LIST], back_longitudes[LIST];
    static uint8_t there[LIST], back[LIST];
    forward(set, latitudes, longitudes, length, eastings, northings, there);
    inverse(set, eastings, northings, length, back_latitudes, back_longitudes, back);
    for (size_t i = 0; i < length; i++) {
        uint8_t mark = there[i] ? there[i] : back[i];
        norths[i] = unless_refused(mark, fabs(back_latitudes[i] - latitudes[i]));
        easts[i] = unless_refused(mark, turn(longitudes[i], back_longitudes[i]));
    }
}

void return_distance(laea_set set, PJ *proj, const double *latitudes, const double *longitudes,
                     size_t length, double *values)
{
    static double easts[LIST];
    (void)proj;
    there_and_back(set, latitudes, longitudes, length, values, easts);
    for (size_t i = 0; i < length; i++)
        values[i] = ground(set, latitudes[i], values[i], easts[i]);
}

void return_latitude_gap(laea_set set, PJ *proj, const double *latitudes, const double *longitudes,
                         size_t length, double *values)
{
    static double easts[LIST];
    (void)proj;
    there_and_back(set, latitudes, longitudes, length, values, easts);
    for (size_t i = 0; i < length; i++)
        values[i] *= DEGREE;
}

void return_longitude_gap(laea_set set, PJ *proj, const double *latitudes, const double *longitudes,
                          size_t length, double *values)
{
    static double norths[LIST];
    (void)proj;
    there_and_back(set, latitudes, longitudes, length, norths, values);
    for (size_t i = 0; i < length; i++)
        values[i] *= authalic_cosine(set, latitudes[i]) * DEGREE;
}
