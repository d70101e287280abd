/* A few calls of the library, most of them with the parameter set ETRS-LAEA. */
#include <inttypes.h>
#include <math.h>
#include <stdio.h>
#include <string.h>

#include "laea.h"

#define POINTS 4

static void forward(laea_set set, double latitude, double longitude)
{
    double out[2];
    uint8_t refusal = laea_forward(set, latitude, longitude, out);

    printf("forward %.6f %.6f: ", latitude, longitude);
    if (refusal == LAEA_OK)
        printf("E %.2f m, N %.2f m\n", out[0], out[1]);
    else
        printf("refused %d: %s\n", refusal, laea_refusal_text(refusal));
}

static void inverse(laea_set set, double easting, double northing)
{
    double out[2];
    uint8_t refusal = laea_inverse(set, easting, northing, out);

    printf("inverse %.2f %.2f: ", easting, northing);
    if (refusal == LAEA_OK)
        printf("latitude %.7f, longitude %.7f degrees\n", out[0], out[1]);
    else
        printf("refused %d: %s\n", refusal, laea_refusal_text(refusal));
}

/* There and back in whole numbers. */
static void whole(laea_set set, int64_t latitude, int64_t longitude)
{
    int64_t out[2];
    uint8_t refusal = laea_forward_whole(set, latitude, longitude, out);

    printf("forward %" PRId64 " %" PRId64 " mas: ", latitude, longitude);
    if (refusal == LAEA_OK) {
        printf("E %" PRId64 " cm, N %" PRId64 " cm; and back: ", out[0], out[1]);
        refusal = laea_inverse_whole(set, out[0], out[1], out);
    }
    if (refusal == LAEA_OK)
        printf("%" PRId64 " %" PRId64 " mas\n", out[0], out[1]);
    else
        printf("refused %d: %s\n", refusal, laea_refusal_text(refusal));
}

static void cell(int64_t side, int64_t easting, int64_t northing)
{
    int64_t out[2];
    uint8_t refusal = laea_cell(side, easting, northing, out);

    printf("cell of side %" PRId64 " cm at %" PRId64 " %" PRId64 " cm: ", side, easting, northing);
    if (refusal == LAEA_OK)
        printf("%" PRId64 " %" PRId64 "\n", out[0], out[1]);
    else
        printf("refused %d: %s\n", refusal, laea_refusal_text(refusal));
}

/* Where coordinates lie along an axis, 0 for east and 1 for north; the other coordinate is 0. */
static void cells_along(int axis, int64_t side)
{
    const int64_t limit = INT64_C(5000000000);
    const int64_t coordinates[] = {-1,     0,         1,          -side,     -side - 1, limit,
                                   -limit, limit + 1, -limit - 1, INT64_MAX, INT64_MIN};
    const size_t count = sizeof coordinates / sizeof *coordinates;

    printf("side %" PRId64 " cm, %s:", side, axis == 0 ? "east" : "north");
    for (size_t i = 0; i < count; i++) {
        int64_t at[2] = {0, 0}, out[2];

        at[axis] = coordinates[i];
        uint8_t refusal = laea_cell(side, at[0], at[1], out);

        if (refusal == LAEA_OK)
            printf(" %" PRId64 " in %" PRId64, coordinates[i], out[axis]);
        else
            printf(" %" PRId64 " refused %d", coordinates[i], refusal);
        putchar(i + 1 < count ? ',' : '\n');
    }
}

/* From a position in mas to the code of its cell, and the code read back. */
static void code(laea_set set, int64_t latitude, int64_t longitude, int64_t side)
{
    int64_t plane[2], numbers[2], out[3];
    char text[LAEA_CODE_MOST];
    uint64_t length = 0;
    uint8_t refusal = laea_forward_whole(set, latitude, longitude, plane);

    if (refusal == LAEA_OK)
        refusal = laea_cell(side, plane[0], plane[1], numbers);
    if (refusal == LAEA_OK)
        refusal = laea_write_code(side, numbers[0], numbers[1], text, sizeof text, &length);
    printf("code at %" PRId64 " %" PRId64 " mas: ", latitude, longitude);
    if (refusal == LAEA_OK) {
        printf("%.*s; and back: ", (int)length, text);
        refusal = laea_read_code(text, length, out);
    }
    if (refusal == LAEA_OK)
        printf("side %" PRId64 " cm, cell %" PRId64 " %" PRId64 "\n", out[0], out[1], out[2]);
    else
        printf("refused %d: %s\n", refusal, laea_refusal_text(refusal));
}

/* A code with more bytes lent than it has, or fewer. */
static void code_into(size_t lent)
{
    char text[] = "...............";
    uint64_t length = 77;
    uint8_t refusal = laea_write_code(100000, 3962, 2999, text, lent, &length);

    printf("code with %d bytes lent: %d, %s; the bytes are %s, the length %" PRIu64 "\n", (int)lent,
           refusal, laea_refusal_text(refusal), text, length);
}

static void read_code(const char *text)
{
    int64_t out[3];
    uint8_t refusal = laea_read_code(text, strlen(text), out);

    printf("text \"%s\": ", text);
    if (refusal == LAEA_OK)
        printf("side %" PRId64 " cm, cell %" PRId64 " %" PRId64 "\n", out[0], out[1], out[2]);
    else
        printf("refused %d: %s\n", refusal, laea_refusal_text(refusal));
}

/* No bytes at all: both calls are refused and write nothing. */
static void no_bytes(void)
{
    int64_t out[3] = {7, 8, 9};
    uint64_t length = 77;
    uint8_t read = laea_read_code(NULL, 0, out);
    uint8_t written = laea_write_code(100000, 3962, 2999, NULL, 0, &length);

    printf("no bytes, by null pointers: read refused %d, out is %" PRId64 " %" PRId64 " %" PRId64
           " still; written refused %d, the length is %" PRIu64 " still\n",
           read, out[0], out[1], out[2], written, length);
}

static void told(const char *what, uint8_t refusal)
{
    printf("%s: %d, %s\n", what, refusal, laea_refusal_text(refusal));
}

/* What a tally has of a loop's cell; a cell without a power reading has no mean. */
static void read_cell(const laea_tally *tally, uint64_t loop_number, int64_t east, int64_t north)
{
    uint64_t out[3];
    uint8_t refusal = laea_tally_read(tally, loop_number, east, north, out);

    printf("loop %" PRIu64 ", cell %" PRId64 " %" PRId64 ": ", loop_number, east, north);
    if (refusal != LAEA_OK) {
        printf("refused %d: %s\n", refusal, laea_refusal_text(refusal));
        return;
    }
    printf("sum %" PRIu64 " nW, count %" PRIu64 ", overloads %" PRIu64 ", ", out[0], out[1], out[2]);
    if (out[1] != 0)
        printf("mean %.7f mW\n", (double)out[0] / (double)out[1] / 1e6);
    else
        printf("no mean\n");
}

/* From a position in mas to its cell: loop 1 adds an overload and two powers, and what each loop then has. */
static void readings(laea_set set, int64_t latitude, int64_t longitude)
{
    laea_tally tally;
    int64_t plane[2], cell[2];
    uint8_t refusal = laea_tally_new(&tally, 100000);

    if (refusal == LAEA_OK)
        refusal = laea_forward_whole(set, latitude, longitude, plane);
    if (refusal == LAEA_OK)
        refusal = laea_cell(tally.side, plane[0], plane[1], cell);
    if (refusal != LAEA_OK) {
        told("readings", refusal);
        return;
    }
    read_cell(&tally, 1, cell[0], cell[1]);
    told("overload after 12.5 mW", laea_tally_add_overload(&tally, 1, cell[0], cell[1], 12.5));
    read_cell(&tally, 1, cell[0], cell[1]);
    told("power 0.25 mW", laea_tally_add_power(&tally, 1, cell[0], cell[1], 0.25));
    told("power 1/128 mW", laea_tally_add_power(&tally, 1, cell[0], cell[1], 1.0 / 128));
    read_cell(&tally, 1, cell[0], cell[1]);
    read_cell(&tally, 2, cell[0], cell[1]);
    told("loop 2 clears its cell", laea_tally_clear(&tally, 2, cell[0], cell[1]));
    read_cell(&tally, 1, cell[0], cell[1]);
}

/* Readings that are refused leave the tally as it was. */
static void refused_readings(void)
{
    laea_tally tally, before;

    told("tally of 10 km", laea_tally_new(&tally, 1000000));
    told("power -0.0 mW", laea_tally_add_power(&tally, 1, 5000, -5000, -0.0));
    told("power 1000 mW", laea_tally_add_power(&tally, 1, 5000, -5000, 1000.0));
    before = tally;
    told("loop 0", laea_tally_add_power(&tally, 0, 5000, -5000, 1.0));
    told("loop 3, cell beyond the last, power NaN", laea_tally_add_power(&tally, 3, 5001, 0, NAN));
    told("loop 257 cleared", laea_tally_clear(&tally, 257, 5000, -5000));
    told("cell beyond the last, power NaN", laea_tally_add_power(&tally, 1, 5001, 0, NAN));
    told("power NaN", laea_tally_add_power(&tally, 1, 5000, -5000, NAN));
    told("overload after infinite power", laea_tally_add_overload(&tally, 1, 5000, -5000, INFINITY));
    told("power below 0", laea_tally_add_power(&tally, 1, 5000, -5000, -5e-324));
    told("overload after 1000.5 mW", laea_tally_add_overload(&tally, 1, 5000, -5000, 1000.5));
    printf("the tally's %d bytes: %s\n", (int)sizeof tally,
           memcmp(&tally, &before, sizeof tally) == 0 ? "as before" : "changed");
    read_cell(&tally, 1, 5000, -5000);
    read_cell(&tally, 1, 5000, -5001);
    read_cell(&tally, 3, 5000, -5001);
}

/* A loop adds a power to one new cell after the other, until one is refused. */
static void fill(laea_tally *tally, uint64_t loop_number)
{
    int64_t east = 0;
    uint8_t refusal;

    while ((refusal = laea_tally_add_power(tally, loop_number, east, -1, 1.0)) == LAEA_OK)
        east++;
    printf("loop %" PRIu64 ", a power for each of %" PRId64 " cells: accepted; for another: %d, %s\n",
           loop_number, east, refusal, laea_refusal_text(refusal));
}

/* The slots of both loops: 160 of one, and still 96 of the other. A cell that has a slot is added to;
   another cell gets the slot of one cleared. */
static void slots(void)
{
    laea_tally tally;

    told("tally of 100 m", laea_tally_new(&tally, 10000));
    fill(&tally, 1);
    fill(&tally, 2);
    told("power for a cell that has a slot", laea_tally_add_power(&tally, 1, 9, -1, 2.0));
    told("cell that has no slot cleared", laea_tally_clear(&tally, 1, -7, -1));
    told("loop 2 clears a cell", laea_tally_clear(&tally, 2, 8, -1));
    told("power for another cell of loop 1", laea_tally_add_power(&tally, 1, -7, -1, 2.0));
    told("power for another cell of loop 2", laea_tally_add_power(&tally, 2, -7, -1, 2.0));
    read_cell(&tally, 1, 8, -1);
    read_cell(&tally, 2, 8, -1);
    read_cell(&tally, 1, 9, -1);
    read_cell(&tally, 2, -7, -1);
    printf("slot 168 is of loop %" PRIu64 ", cell %" PRId64 " %" PRId64 "\n",
           tally.slots[168].cell.loop_number, tally.slots[168].cell.east, tally.slots[168].cell.north);
}

/* A tally of a side that no cell has: it is empty, and every call on it is refused. */
static void other_side(void)
{
    laea_tally tally;

    told("tally of 500 m", laea_tally_new(&tally, 50000));
    printf("its side is %" PRId64 " cm\n", tally.side);
    told("power", laea_tally_add_power(&tally, 1, 0, 0, 1.0));
    told("overload", laea_tally_add_overload(&tally, 1, 0, 0, 1.0));
    told("clear", laea_tally_clear(&tally, 1, 0, 0));
    read_cell(&tally, 1, 0, 0);
    read_cell(&tally, 0, 0, 0);
}

/* Sets with a wrong field: each call tells the first. */
static void wrong_fields(void)
{
    laea_set wrong[6];

    for (size_t i = 0; i < 6; i++)
        wrong[i] = LAEA_ETRS_LAEA;
    wrong[0].a = 63781370;
    wrong[1].e2 = -1;
    wrong[2].lat0 = INT64_C(306000001);
    wrong[3].lon0 = INT64_C(-648000000);
    wrong[4].false_easting = INT64_C(1000000001);
    wrong[5].false_northing = INT64_C(-1000000001);
    for (size_t i = 0; i < 6; i++) {
        uint8_t refusal = laea_set_refusal(wrong[i]);
        uint64_t count = 77;
        uint8_t of_lists =
            laea_forward_list(wrong[i], NULL, 0, NULL, 0, NULL, 0, NULL, 0, NULL, 0, &count);

        printf("set refused %d, lists %d: %s\n", refusal, of_lists, laea_refusal_text(refusal));
    }
    wrong[5].lat0 = wrong[2].lat0;
    printf("two fields wrong: refused %d\n", laea_set_refusal(wrong[5]));
}

static void list(laea_set set)
{
    const double latitudes[POINTS] = {50.0, -52.0, 91.0, NAN};
    const double longitudes[POINTS] = {5.0, -170.0, 5.0, 5.0};
    double eastings[POINTS], northings[POINTS];
    uint8_t marks[POINTS];
    uint64_t count = 0;
    uint8_t refusal = laea_forward_list(set, latitudes, POINTS, longitudes, POINTS, eastings, POINTS,
                                        northings, POINTS, marks, POINTS, &count);

    if (refusal != LAEA_OK) {
        printf("list: refused %d: %s\n", refusal, laea_refusal_text(refusal));
        return;
    }
    printf("list of %d: %" PRIu64 " with an answer\n", POINTS, count);
    for (size_t i = 0; i < POINTS; i++)
        printf("  %.1f %.1f: E %.2f m, N %.2f m, %s\n", latitudes[i], longitudes[i], eastings[i],
               northings[i], laea_refusal_text(marks[i]));
}

/* A refused list call writes nothing; and an empty list. */
static void other_lists(laea_set set)
{
    const double one[1] = {50.0};
    double first[1] = {-1.0}, second[1] = {-1.0};
    uint8_t mark[1] = {9};
    uint64_t count = 77;
    uint8_t refusal = laea_forward_list(set, one, 1, one, 1, first, 1, second, 0, mark, 1, &count);

    printf("lists of unequal length: refused %d: %s; the mark is %d still, the count %" PRIu64 "\n",
           refusal, laea_refusal_text(refusal), mark[0], count);
    refusal = laea_inverse_list(set, NULL, 0, NULL, 0, NULL, 0, NULL, 0, NULL, 0, &count);
    printf("empty lists, by null pointers: %s, %" PRIu64 " with an answer\n",
           laea_refusal_text(refusal), count);
}

int main(void)
{
    /* a set of one's own: a copy of an accepted one, with the fields that differ */
    laea_set alps = LAEA_ETRS_LAEA;
    alps.lat0 = INT64_C(47) * 3600000;
    alps.lon0 = INT64_C(11) * 3600000;
    laea_set beyond = LAEA_SPHERE;
    beyond.lat0 = INT64_C(306000001);

    printf("header %d, archive %" PRIu32 "\n", LAEA_VERSION, laea_version());
    forward(LAEA_ETRS_LAEA, 50.0, 5.0);
    inverse(LAEA_ETRS_LAEA, 3962799.45, 2999718.85);
    forward(LAEA_ETRS_LAEA, -52.0, -170.0);
    forward(LAEA_ETRS_LAEA, 90.5, 5.0);
    forward(alps, 47.0, 11.0);
    forward(LAEA_SPHERE, 0.0, 90.0);
    forward(beyond, 0.0, 90.0);
    wrong_fields();
    whole(LAEA_ETRS_LAEA, 180000000, 18000000);
    list(LAEA_ETRS_LAEA);
    other_lists(LAEA_ETRS_LAEA);
    cell(100000, 396279945, 299971885);
    cell(50000, 396279945, 299971885);
    for (int64_t side = 10000; side <= 1000000; side *= 10) {
        cells_along(0, side);
        cells_along(1, side);
    }
    for (int64_t side = 10000; side <= 1000000; side *= 10)
        code(LAEA_ETRS_LAEA, 180000000, 18000000, side);
    code(LAEA_SPHERE, 0, -18000000, 100000);
    code_into(15);
    code_into(12);
    read_code("10kmN5000E0");
    read_code("10kmN5001E0");
    read_code("1kmE3962N2999");
    read_code("1kmN02999E3962");
    read_code("1kmN2999E3962 ");
    no_bytes();
    readings(LAEA_ETRS_LAEA, 180000000, 18000000);
    refused_readings();
    slots();
    other_side();
    printf("refusal 7: %s\n", laea_refusal_text(7));
    return 0;
}
