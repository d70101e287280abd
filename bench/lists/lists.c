/*
 * Time per point of this library and of PROJ's `laea`, in one process, side by side.
 *
 * Each contestant turns the same lists of 4,096 points, for ETRS-LAEA. A round runs every contestant
 * once, one after the other, on one of several lists; the rounds follow each other, so that a slow
 * spell of the machine meets all alike. Only the call, or the loop over single calls, is timed; the
 * copy of the input that PROJ overwrites is not. The time is the processor time of the thread, which
 * other programs on the machine lengthen less than they do the time of day. The median over all
 * rounds is printed.
 *
 * A call of this library works the constants of its parameter set out anew; a PROJ object is made
 * once, before the first round.
 */
#define _POSIX_C_SOURCE 200809L
#include <math.h>
#include <proj.h>
#include <stdio.h>
#include <stdlib.h>
#include <string.h>
#include <time.h>

#include "laea.h"

#define LIST LAEA_LIST_MOST
#define LISTS 8
#define MOST_ROUNDS 10000

static const double MAS = 3600000.0;
static const double PI = 3.14159265358979323846;

/* One list in every form that a contestant takes; `first` is the latitude or the easting. */
typedef struct {
    double first[LIST], second[LIST];
    double first_radians[LIST], second_radians[LIST];
    int64_t first_whole[LIST], second_whole[LIST];
} List;

static List geodetic[LISTS], plane[LISTS];

/* Where the contestants write. PROJ works in place: x is the longitude or the easting. */
static double out_first[LIST], out_second[LIST], x[LIST], y[LIST];
static int64_t out_whole[LIST][2];
static PJ_COORD coords[LIST];
static uint8_t marks[LIST];

static PJ *in_radians, *in_degrees;

static void stop(const char *why)
{
    fprintf(stderr, "%s\n", why);
    exit(2);
}

/* This library's calls. */

static void laea_lists_forward(const List *l)
{
    uint64_t count = 0;
    laea_forward_list(LAEA_ETRS_LAEA, l->first, LIST, l->second, LIST, out_first, LIST, out_second,
                      LIST, marks, LIST, &count);
}

static void laea_lists_inverse(const List *l)
{
    uint64_t count = 0;
    laea_inverse_list(LAEA_ETRS_LAEA, l->first, LIST, l->second, LIST, out_first, LIST, out_second,
                      LIST, marks, LIST, &count);
}

static void laea_single_forward(const List *l)
{
    for (int i = 0; i < LIST; i++) {
        double out[2] = {0, 0};
        marks[i] = laea_forward(LAEA_ETRS_LAEA, l->first[i], l->second[i], out);
        out_first[i] = out[0];
        out_second[i] = out[1];
    }
}

static void laea_single_inverse(const List *l)
{
    for (int i = 0; i < LIST; i++) {
        double out[2] = {0, 0};
        marks[i] = laea_inverse(LAEA_ETRS_LAEA, l->first[i], l->second[i], out);
        out_first[i] = out[0];
        out_second[i] = out[1];
    }
}

static void laea_whole_forward(const List *l)
{
    for (int i = 0; i < LIST; i++)
        marks[i] = laea_forward_whole(LAEA_ETRS_LAEA, l->first_whole[i], l->second_whole[i],
                                      out_whole[i]);
}

static void laea_whole_inverse(const List *l)
{
    for (int i = 0; i < LIST; i++)
        marks[i] = laea_inverse_whole(LAEA_ETRS_LAEA, l->first_whole[i], l->second_whole[i],
                                      out_whole[i]);
}

/* PROJ's calls, on x and y, or on coords, which are filled before the clock starts. */

static void generic(PJ *p, PJ_DIRECTION direction)
{
    size_t step = sizeof(double);
    if (proj_trans_generic(p, direction, x, step, LIST, y, step, LIST, NULL, 0, 0, NULL, 0, 0) != LIST)
        stop("proj_trans_generic did not turn all points");
}

static void each(PJ *p, PJ_DIRECTION direction)
{
    for (int i = 0; i < LIST; i++)
        coords[i] = proj_trans(p, direction, coords[i]);
}

static void proj_radians_forward(const List *l) { (void)l; generic(in_radians, PJ_FWD); }
static void proj_radians_inverse(const List *l) { (void)l; generic(in_radians, PJ_INV); }
static void proj_degrees_forward(const List *l) { (void)l; generic(in_degrees, PJ_FWD); }
static void proj_degrees_inverse(const List *l) { (void)l; generic(in_degrees, PJ_INV); }
static void proj_single_forward(const List *l) { (void)l; each(in_radians, PJ_FWD); }
static void proj_single_inverse(const List *l) { (void)l; each(in_radians, PJ_INV); }
static void proj_single_degrees_forward(const List *l) { (void)l; each(in_degrees, PJ_FWD); }
static void proj_single_degrees_inverse(const List *l) { (void)l; each(in_degrees, PJ_INV); }

typedef struct {
    const char *name;
    int radians; /* the geodetic values are radians */
    int base;    /* the index of the contestant that the ratio is taken to */
    void (*forward)(const List *);
    void (*inverse)(const List *);
} Contestant;

static const Contestant CONTESTANTS[] = {
    {"list:   laea_*_list, degrees", 0, 0, laea_lists_forward, laea_lists_inverse},
    {"list:   proj_trans_generic, radians", 1, 0, proj_radians_forward, proj_radians_inverse},
    {"list:   proj_trans_generic, degrees", 0, 0, proj_degrees_forward, proj_degrees_inverse},
    {"single: laea_forward/inverse, degrees", 0, 3, laea_single_forward, laea_single_inverse},
    {"single: laea_*_whole, mas and cm", 0, 3, laea_whole_forward, laea_whole_inverse},
    {"single: proj_trans, radians", 1, 3, proj_single_forward, proj_single_inverse},
    {"single: proj_trans, degrees", 0, 3, proj_single_degrees_forward, proj_single_degrees_inverse},
};
#define CONTESTANT_COUNT (sizeof CONTESTANTS / sizeof CONTESTANTS[0])

static double times[CONTESTANT_COUNT][MOST_ROUNDS];

/* SplitMix64. */
static uint64_t state = 20240229;

static double fraction(void)
{
    uint64_t z = state += UINT64_C(0x9e3779b97f4a7c15);
    z = (z ^ (z >> 30)) * UINT64_C(0xbf58476d1ce4e5b9);
    z = (z ^ (z >> 27)) * UINT64_C(0x94d049bb133111eb);
    return (double)((z ^ (z >> 31)) >> 11) / 9007199254740992.0;
}

/* A point of Europe's window, or of the half globe around 52 N 10 E; evenly spread by area. */
static void draw(int europe, double *lat, double *lon)
{
    double low = europe ? sin(34 * PI / 180) : -1, high = europe ? sin(72 * PI / 180) : 1;
    double nearness;
    do {
        *lat = asin(low + (high - low) * fraction()) * 180 / PI;
        *lon = europe ? -25 + 70 * fraction() : -180 + 360 * fraction();
        nearness = sin(52 * PI / 180) * sin(*lat * PI / 180) +
                   cos(52 * PI / 180) * cos(*lat * PI / 180) * cos((*lon - 10) * PI / 180);
    } while (nearness < 0);
}

static void fill(int europe)
{
    for (int k = 0; k < LISTS; k++) {
        for (int i = 0; i < LIST; i++) {
            List *g = &geodetic[k], *p = &plane[k];
            draw(europe, &g->first[i], &g->second[i]);
            g->first_radians[i] = g->first[i] * PI / 180;
            g->second_radians[i] = g->second[i] * PI / 180;
            g->first_whole[i] = llround(g->first[i] * MAS);
            g->second_whole[i] = llround(g->second[i] * MAS);
            PJ_COORD c = proj_coord(g->second_radians[i], g->first_radians[i], 0, 0);
            c = proj_trans(in_radians, PJ_FWD, c);
            p->first[i] = p->first_radians[i] = c.xy.x;
            p->second[i] = p->second_radians[i] = c.xy.y;
            p->first_whole[i] = llround(c.xy.x * 100);
            p->second_whole[i] = llround(c.xy.y * 100);
        }
    }
}

/* PROJ takes longitude before latitude. */
static void prepare(const Contestant *c, const List *l, int forward)
{
    const double *first = c->radians ? l->first_radians : l->first;
    const double *second = c->radians ? l->second_radians : l->second;
    memcpy(x, forward ? second : first, sizeof x);
    memcpy(y, forward ? first : second, sizeof y);
    for (int i = 0; i < LIST; i++)
        coords[i] = proj_coord(x[i], y[i], 0, 0);
}

static double seconds(void)
{
    struct timespec now;
    clock_gettime(CLOCK_THREAD_CPUTIME_ID, &now);
    return (double)now.tv_sec + (double)now.tv_nsec / 1e9;
}

static int by_value(const void *a, const void *b)
{
    double left = *(const double *)a, right = *(const double *)b;
    return (left > right) - (left < right);
}

static double median(double *values, int count)
{
    qsort(values, (size_t)count, sizeof *values, by_value);
    return values[count / 2];
}

/* What is timed must be the same work: the contestants for lists agree, and no point is marked. */
static void check(const List *l, int forward)
{
    const List *answers = forward ? &plane[0] : &geodetic[0];
    double bound = forward ? 1.0 : 30 / MAS;
    for (size_t c = 0; c < 3; c++) {
        prepare(&CONTESTANTS[c], l, forward);
        (forward ? CONTESTANTS[c].forward : CONTESTANTS[c].inverse)(l);
        double unit = CONTESTANTS[c].radians && !forward ? 180 / PI : 1;
        for (int i = 0; i < LIST; i++) {
            double first = c == 0 ? out_first[i] : unit * (forward ? x[i] : y[i]);
            double second = c == 0 ? out_second[i] : unit * (forward ? y[i] : x[i]);
            double weight = forward ? 1 : cos(answers->first[i] * PI / 180);
            if (marks[i] != 0 || !(fabs(first - answers->first[i]) < bound) ||
                !(fabs(second - answers->second[i]) * weight < bound))
                stop("the contestants do not agree");
        }
    }
}

static void run(const char *region, int forward, int rounds)
{
    check(forward ? &geodetic[0] : &plane[0], forward);
    for (int round = -3; round < rounds; round++) {
        const List *l = forward ? &geodetic[(round + 3) % LISTS] : &plane[(round + 3) % LISTS];
        for (size_t c = 0; c < CONTESTANT_COUNT; c++) {
            prepare(&CONTESTANTS[c], l, forward);
            double start = seconds();
            (forward ? CONTESTANTS[c].forward : CONTESTANTS[c].inverse)(l);
            if (round >= 0)
                times[c][round] = (seconds() - start) / LIST * 1e9;
        }
    }
    double medians[CONTESTANT_COUNT];
    for (size_t c = 0; c < CONTESTANT_COUNT; c++)
        medians[c] = median(times[c], rounds);
    printf("\n%s, %s\n", forward ? "Forward" : "Inverse", region);
    for (size_t c = 0; c < CONTESTANT_COUNT; c++)
        printf("  %-40s %9.1f ns a point   %6.2f\n", CONTESTANTS[c].name, medians[c],
               medians[c] / medians[CONTESTANTS[c].base]);
}

static PJ *create(const char *text)
{
    PJ *made = proj_create(PJ_DEFAULT_CTX, text);
    if (made == NULL)
        stop("PROJ refuses the projection");
    return made;
}

#define ETRS "+proj=laea +a=6378137 +es=0.00669438 +lat_0=52 +lon_0=10 +x_0=4321000 +y_0=3210000"

int main(int count, char **arguments)
{
    int rounds = count > 1 ? atoi(arguments[1]) : 201;
    if (rounds < 1 || rounds > MOST_ROUNDS)
        stop("the argument is the number of rounds, 1 to 10000");
    in_radians = create(ETRS);
    in_degrees = create("+proj=pipeline +step +proj=unitconvert +xy_in=deg +xy_out=rad +step " ETRS);
    printf("This library and PROJ %s (laea), ETRS-LAEA, lists of %d points, %d lists in turn.\n",
           proj_info().version, LIST, LISTS);
    printf("Median processor time of %d rounds; each round runs every line once. The last column is\n"
           "the time over that of this library's call of the same kind: above 1 is slower than it.\n",
           rounds);
    for (int europe = 1; europe >= 0; europe--) {
        fill(europe);
        run(europe ? "Europe (34 to 72 N, 25 W to 45 E)" : "half globe around 52 N 10 E", 1, rounds);
        run(europe ? "Europe (34 to 72 N, 25 W to 45 E)" : "half globe around 52 N 10 E", 0, rounds);
    }
    proj_destroy(in_radians);
    proj_destroy(in_degrees);
    return 0;
}
