/*
 * Lambert Azimuthal Equal-Area (EPSG method 9820): latitude and longitude to easting and northing,
 * and back, one point or a list at a time; the map cell that a position lies in; the code of a cell;
 * and a tally of the power received in each cell, for two control loops. For C and C++.
 *
 *     double out[2];
 *     uint8_t refusal = laea_forward(LAEA_ETRS_LAEA, 50.0, 5.0, out);
 *     if (refusal == LAEA_OK)
 *         printf("easting %.2f m, northing %.2f m\n", out[0], out[1]);
 *     else
 *         printf("refused: %s\n", laea_refusal_text(refusal));
 *
 * The functions stand in the archive liblaea_c.a, but for the inline ones below, which call these. They
 * keep no state, allocate nothing, read and write nothing but their arguments, and always return.
 *
 * Units. Two layers give the same answers: double, in degrees and metres; and whole numbers, in
 * milliarcseconds (mas; one degree is 3,600,000 mas) and centimetres (cm). A double that is put in
 * is rounded to the nearest mas or cm, halves away from zero; an answer is the whole number divided
 * by 3,600,000 or 100. North and east are positive. A power is put in as a double in milliwatts (mW),
 * rounded to the nearest nanowatt (nW; one mW is 1,000,000 nW), halves away from zero,
 * and summed in whole nW.
 *
 * Accuracy. An answer is that of the whole-number steps, to the last unit; the steps themselves are
 * not the exact projection. Measured against PROJ for ETRS-LAEA, no forward answer was found more than
 * 0.09 m from it in Europe, 0.13 m within 90 degrees of the centre and 0.93 m over all accepted
 * positions; no inverse answer more than 0.09 m, 0.19 m and 0.91 m. There and back within 90 degrees of
 * the centre, 0.11 m.
 *
 * The parameter set says which ellipsoid and which centre; see laea_set below. LAEA_ETRS_LAEA is the
 * set of ETRS89 / ETRS-LAEA (EPSG 3035).
 *
 * Refusals. Every value of every argument is taken, NaN and infinity too, and is answered or refused
 * with a number. The first that applies is told: of a single point 11 to 16, 2, 3, 4 in this order; of
 * a list call 5, 6, 11 to 16, and then of each point 2, 3, 4; of a code to be written 3, 32, 33, and
 * of a text to be read as one 31; of a tally to be made 3, of a reading to be added to one 45, 3, 41,
 * 42, 43, 44, and of its other calls 45, 3. Both coordinates are tested for 2 before either is for 3,
 * and both cell numbers for 3 before either is for 32. The limits of 3 and 42 are tested on the double
 * itself, before it is rounded.
 *
 *   2  LAEA_NOT_FINITE     a coordinate is NaN or infinite
 *   3  LAEA_OUT_OF_LIMITS  a latitude beyond 90 or a longitude beyond 180 degrees, either side of 0;
 *                          an easting or a northing beyond 50,000,000 m (5,000,000,000 cm), either
 *                          side of 0; a cell's side that is not one of the three; a cell number
 *                          farther from 0 than 5,000,000,000 cm divided by the side
 *   4  LAEA_TOO_FAR        too far from the centre of the projection: close to the point opposite to
 *                          it, or where the map has no position
 *   5  LAEA_UNEQUAL_LISTS  the lists of a call are not of one length
 *   6  LAEA_LONG_LISTS     the lists are longer than LAEA_LIST_MOST
 *
 * and, where a field of the parameter set is outside its range (see laea_set), the number of the first
 * such field:
 *
 *   11  LAEA_BAD_A               a
 *   12  LAEA_BAD_E2              e2
 *   13  LAEA_BAD_LAT0            lat0
 *   14  LAEA_BAD_LON0            lon0
 *   15  LAEA_BAD_FALSE_EASTING   false_easting
 *   16  LAEA_BAD_FALSE_NORTHING  false_northing
 *
 * and of a cell's code:
 *
 *   31  LAEA_NOT_A_CODE     the text that is read is not the code of a cell
 *   32  LAEA_NEGATIVE_CELL  a cell number is negative: such a cell has no code
 *   33  LAEA_LITTLE_ROOM    fewer bytes are lent than this code has
 *
 * and of a tally:
 *
 *   41  LAEA_POWER_NOT_FINITE     the power of a reading is NaN or infinite
 *   42  LAEA_POWER_OUT_OF_LIMITS  the power of a reading is below 0 or above 1,000 mW
 *   43  LAEA_FULL_CELL            the cell has LAEA_READINGS_MOST readings, of both kinds together
 *   44  LAEA_NO_NEW_SLOT          the cell has no slot in the tally, and its loop gets no new one: it
 *                                 holds LAEA_SURE_SLOTS or more, and the slots that the two loops hold
 *                                 beyond that number are LAEA_SHARED_SLOTS or more together
 *   45  LAEA_BAD_LOOP             the loop number is not 1 or 2
 *
 * A refused call writes nothing: neither `out`, nor an element of a list, nor a byte of a text, nor
 * the count or the length, nor the tally. Only laea_tally_new makes its tally in any case.
 *
 * What the caller owes, since nothing can test it:
 *   - `out` points to as many elements as its declaration says, `count`, `length` and `tally` to one; a
 *     list or a text points to as many elements as the length after it says. All stay valid for the
 *     whole call, and no other thread writes them.
 *   - None is null, but a list or a text whose length is 0 may be.
 *   - Each pointer is aligned as its type asks.
 *   - A tally that a call reads has a value: laea_tally_new gives it one.
 *   - What a call may write (`out`; the two lists of answers, the marks, the count; the bytes lent for
 *     a code, its length; the tally) overlaps nothing else that the call is given. The two lists that a
 *     call only reads may be one.
 *
 * Threads. Any number of threads may call at once, each with its own places to write. A call on a tally
 * takes it and puts the next one in its place: two calls on one tally, of one loop or of both, must not
 * run at once, and a lock is the caller's.
 *
 * Stack. A call takes less than 32 KB of the caller's stack, one on a tally less than 96 KB.
 *
 * One point or a list. Each forward or inverse call, single or list, copies a table of sines (22 KB,
 * about 0.5 microseconds) and works out the constants of its set. A single call pays that for one
 * point, a list call once for up to LAEA_LIST_MOST. Use single calls where points come one by one, and
 * lists where a batch is at hand; the answers are the same.
 *
 * Platform: x86-64 Linux, for which the archive is compiled.
 *
 * Versions. LAEA_VERSION is this header's, laea_version() the archive's. The functions' names in the
 * archive hold a number: that of the set's layout where a function takes a set (laea1_forward), that of
 * the tally's where it makes or takes a tally (laea2_tally_read), and 1 elsewhere. A program that was
 * compiled against a header with another layout, and calls such a function, does not link. No call can
 * see by which layout the bytes of a stored tally were written: keep the number with them.
 */
#ifndef LAEA_H
#define LAEA_H

#include <stddef.h>
#include <stdint.h>

#ifdef __cplusplus
extern "C" {
#endif

/* 10,000 times the major number, 100 times the minor one, and the patch: 0.8.0. */
#define LAEA_VERSION 800

/* What a call returns, and what a point's mark is. */
#define LAEA_OK 0
#define LAEA_NOT_FINITE 2
#define LAEA_OUT_OF_LIMITS 3
#define LAEA_TOO_FAR 4
#define LAEA_UNEQUAL_LISTS 5
#define LAEA_LONG_LISTS 6
#define LAEA_BAD_A 11
#define LAEA_BAD_E2 12
#define LAEA_BAD_LAT0 13
#define LAEA_BAD_LON0 14
#define LAEA_BAD_FALSE_EASTING 15
#define LAEA_BAD_FALSE_NORTHING 16
#define LAEA_NOT_A_CODE 31
#define LAEA_NEGATIVE_CELL 32
#define LAEA_LITTLE_ROOM 33
#define LAEA_POWER_NOT_FINITE 41
#define LAEA_POWER_OUT_OF_LIMITS 42
#define LAEA_FULL_CELL 43
#define LAEA_NO_NEW_SLOT 44
#define LAEA_BAD_LOOP 45

/* The most points that a list call takes. */
#define LAEA_LIST_MOST 4096

/* The most bytes that a code has: those of cells of 100 m have up to 18, of 1 km 15, of 10 km 14. */
#define LAEA_CODE_MOST 18

/* How many slots a tally has. */
#define LAEA_SLOT_COUNT 256

/* How many of them each loop is sure of, and how many the two can hold together beyond those. */
#define LAEA_SURE_SLOTS 96
#define LAEA_SHARED_SLOTS 64

/* The most readings of both kinds together that a tally takes of a cell. */
#define LAEA_READINGS_MOST 1000000

/*
 * The parameter set. Copy an accepted set and assign the fields that differ:
 *
 *     laea_set set = LAEA_ETRS_LAEA;
 *     set.lon0 = INT64_C(15) * 3600000;
 *
 * A field that a later version adds then keeps an accepted value. A brace initialiser of one's own
 * would leave it 0, which that version may refuse.
 */
typedef struct laea_set {
    /* semi-major axis in cm: 100,000,000 to 1,000,000,000 */
    int64_t a;
    /* eccentricity squared, in billionths: 0 to 10,000,000; 0 is the sphere */
    int64_t e2;
    /* latitude of the natural origin in mas: -306,000,000 to 306,000,000 (85 degrees), or exactly
       -324,000,000 or 324,000,000 (a pole) */
    int64_t lat0;
    /* longitude of the natural origin in mas: above -648,000,000, at most 648,000,000 */
    int64_t lon0;
    /* what the natural origin's easting and northing are, in cm: -1,000,000,000 to 1,000,000,000 */
    int64_t false_easting;
    int64_t false_northing;
} laea_set;

/* C++ has no designated initialisers before C++20. */
#ifdef __cplusplus
#define LAEA_FIELD(name)
#else
#define LAEA_FIELD(name) .name =
#endif

/* ETRS89 / ETRS-LAEA (EPSG 3035): GRS 1980, centre 52 N 10 E. */
static const laea_set LAEA_ETRS_LAEA = {
    LAEA_FIELD(a) INT64_C(637813700),
    LAEA_FIELD(e2) INT64_C(6694380),
    LAEA_FIELD(lat0) INT64_C(187200000),
    LAEA_FIELD(lon0) INT64_C(36000000),
    LAEA_FIELD(false_easting) INT64_C(432100000),
    LAEA_FIELD(false_northing) INT64_C(321000000)
};

/* The sphere of radius 6,371 km, centre 0 N 0 E, no false origin. */
static const laea_set LAEA_SPHERE = {
    LAEA_FIELD(a) INT64_C(637100000),
    LAEA_FIELD(e2) 0,
    LAEA_FIELD(lat0) 0,
    LAEA_FIELD(lon0) 0,
    LAEA_FIELD(false_easting) 0,
    LAEA_FIELD(false_northing) 0
};

#undef LAEA_FIELD

/* The functions' names in the archive. */
#define laea_forward laea1_forward
#define laea_inverse laea1_inverse
#define laea_forward_whole laea1_forward_whole
#define laea_inverse_whole laea1_inverse_whole
#define laea_cell laea1_cell
#define laea_forward_list laea1_forward_list
#define laea_inverse_list laea1_inverse_list
#define laea_write_code laea1_write_code
#define laea_read_code laea1_read_code
#define laea_set_refusal laea1_set_refusal
#define laea_version laea1_version

/*
 * A single point. The result is LAEA_OK, and then out[0] and out[1] are the answer; or it is the
 * refusal number, and then out is as it was.
 */

/* Degrees to metres: out is easting, northing. Refused 11 to 16, 2, 3, 4. */
uint8_t laea_forward(laea_set set, double latitude, double longitude, double out[2]);

/* Metres to degrees: out is latitude, longitude. Refused 11 to 16, 2, 3, 4. */
uint8_t laea_inverse(laea_set set, double easting, double northing, double out[2]);

/* mas to cm: out is easting, northing. Refused 11 to 16, 3, 4. */
uint8_t laea_forward_whole(laea_set set, int64_t latitude, int64_t longitude, int64_t out[2]);

/* cm to mas: out is latitude, longitude. Refused 11 to 16, 3, 4. */
uint8_t laea_inverse_whole(laea_set set, int64_t easting, int64_t northing, int64_t out[2]);

/*
 * The cell of a position in cm, for a side of 10,000, 100,000 or 1,000,000 cm: out is its number east
 * and its number north, each the greatest whole number whose product with the side is not above the
 * coordinate, so that -1 cm lies in cell -1. The numbers are from -n to n, where n is 5,000,000,000
 * divided by the side. Refused 3.
 */
uint8_t laea_cell(int64_t side, int64_t easting, int64_t northing, int64_t out[2]);

/*
 * A list of points: two lists of coordinates in, two lists of answers and a list of marks out; each is
 * a pointer and its length, and all five lengths are the same.
 *
 * The result is LAEA_OK, and then every element of the three lists is written: a point with an answer
 * has its two values and mark 0, any other has 0.0, 0.0 and its refusal number (2, 3 or 4) for mark;
 * and *count is how many points have an answer. Or the result is the call's refusal number, 5, 6 or one
 * of 11 to 16, and then nothing is written.
 */

/* Degrees to metres. */
uint8_t laea_forward_list(laea_set set,
                          const double *latitudes, size_t latitudes_length,
                          const double *longitudes, size_t longitudes_length,
                          double *eastings, size_t eastings_length,
                          double *northings, size_t northings_length,
                          uint8_t *marks, size_t marks_length,
                          uint64_t *count);

/* Metres to degrees. */
uint8_t laea_inverse_list(laea_set set,
                          const double *eastings, size_t eastings_length,
                          const double *northings, size_t northings_length,
                          double *latitudes, size_t latitudes_length,
                          double *longitudes, size_t longitudes_length,
                          uint8_t *marks, size_t marks_length,
                          uint64_t *count);

/*
 * The code of a cell, as the INSPIRE geographical grid systems have it: its side (100m, 1km or 10km),
 * N and its number north, E and its number east, without leading zeros. The cell of 1 km with number
 * east 3962 and number north 2999 is 1kmN2999E3962. North stands before east in the text alone: in
 * arguments and in out east stands before north.
 *
 * The cells that have a code are those of laea_cell with no number below 0. What is written reads back
 * as the same side and numbers, and no other text is read as that cell.
 *
 * A text is a pointer and its length in bytes; no NUL ends it:
 *
 *     char text[LAEA_CODE_MOST];
 *     uint64_t length;
 *     if (laea_write_code(100000, 3962, 2999, text, sizeof text, &length) == LAEA_OK)
 *         printf("%.*s\n", (int)length, text);
 */

/*
 * Writes the code of a cell; the side is in cm, and text_length is how many bytes are lent. The result
 * is LAEA_OK, and then the first bytes of text are the code, the others are as they were, and *length
 * is how many bytes the code has; or it is the refusal number, and then text and *length are as they
 * were. Refused 3, 32, 33. Where LAEA_CODE_MOST + 1 bytes that are 0 are lent, a NUL ends the code.
 */
uint8_t laea_write_code(int64_t side, int64_t east, int64_t north,
                        char *text, size_t text_length,
                        uint64_t *length);

/*
 * Reads a text that holds a code and nothing else, neither a blank nor a NUL. The result is LAEA_OK,
 * and then out is the side in cm, the number east and the number north; or it is 31, and then out is
 * as it was.
 */
uint8_t laea_read_code(const char *text, size_t text_length, int64_t out[3]);

/*
 * A tally of the power received in each cell, for two control loops, 1 and 2. It is of one side and has
 * LAEA_SLOT_COUNT slots, which the loops share; each holds, for one cell of one loop, the sum of its
 * power readings in nW, their count, and the count of its overload readings. A cell of one loop is not
 * a cell of the other: each call takes a loop number and is about the cells of that loop.
 *
 * A cell without a slot gets one with its first accepted reading. A loop gets a new slot exactly where
 * it holds fewer than LAEA_SURE_SLOTS, or where the slots that the two loops hold beyond that number are
 * fewer than LAEA_SHARED_SLOTS together. So one loop can hold 160, and the other is then still sure of
 * its 96. What a loop reads of its cells depends on its own accepted calls alone, in their order; its
 * refusal 44 depends on those and on how many slots the other holds.
 *
 * A reading is a power in mW, from 0 to 1,000 (-0.0 is 0); or it says that the receiver was overloaded,
 * and carries the last good power. That power is tested as the other is, and not summed, and the
 * reading is left out of the count of power readings. A cell takes up to LAEA_READINGS_MOST readings of
 * both kinds together, so that a sum is at most 1,000,000,000,000,000 nW.
 *
 *     laea_tally tally;
 *     uint64_t out[3];
 *     uint8_t refusal = laea_tally_new(&tally, 100000);
 *     if (refusal == LAEA_OK)
 *         refusal = laea_tally_add_power(&tally, 1, 3962, 2999, 0.25);
 *     if (refusal == LAEA_OK)
 *         refusal = laea_tally_read(&tally, 1, 3962, 2999, out);
 *     if (refusal == LAEA_OK && out[1] != 0)
 *         printf("mean %.6f mW\n", (double)out[0] / (double)out[1] / 1e6);
 *
 * A cell that has no reading, or overload readings alone, has no mean: divide the sum by the count only
 * where the count is not 0.
 *
 * The result is LAEA_OK or the refusal number. A refused call leaves the tally as it was; only
 * laea_tally_new makes one in any case. Every other call is refused 45 for a loop number that is not 1
 * or 2, and else 3 for cell numbers that laea_cell cannot give for the tally's side, and on a tally
 * whose side is not one of the three. A loop number has 64 bits, so that none is cut down to 1 or 2:
 * 257 and -1 are refused.
 *
 * A tally has 12,296 bytes and may be copied and stored, for programs with the same number in the
 * functions' names; under another number its bytes are other cells. Every field is a number of which every bit
 * pattern is a value, so that a tally whose bytes were damaged is answered too, without undefined
 * behaviour. What is said of sums, counts and slots holds of tallies that these calls gave.
 *
 * Each call copies the tally: adding takes one to three microseconds, reading less than one.
 */

/* A cell of a loop. */
typedef struct laea_loop_cell {
    /* 1 or 2 */
    uint64_t loop_number;
    /* as laea_cell gives them */
    int64_t east;
    int64_t north;
} laea_loop_cell;

/* What a tally holds of one cell of a loop. Making and clearing leave all 0. */
typedef struct laea_slot {
    /* its loop_number is 0 where the slot is free */
    laea_loop_cell cell;
    /* of the power readings, in nW */
    uint64_t sum;
    /* how many power readings */
    uint64_t count;
    /* how many overload readings */
    uint64_t overloads;
} laea_slot;

typedef struct laea_tally {
    /* of the cells, in cm: 10,000, 100,000 or 1,000,000; another where the making was refused */
    int64_t side;
    laea_slot slots[LAEA_SLOT_COUNT];
} laea_tally;

/* The tally after a call, and LAEA_OK or the refusal number. */
typedef struct laea_tally_result {
    laea_tally tally;
    uint8_t refusal;
} laea_tally_result;

/*
 * The archive's functions. Making, adding and clearing give the next tally and the number; a refused
 * call gives the tally that was put in. Reading changes nothing and gives the number alone. The functions
 * after them do the same to a tally in its place.
 */
laea_tally_result laea2_tally_new(int64_t side);
laea_tally_result laea2_tally_add_power(laea_tally tally, uint64_t loop_number, int64_t east,
                                        int64_t north, double milliwatts);
laea_tally_result laea2_tally_add_overload(laea_tally tally, uint64_t loop_number, int64_t east,
                                           int64_t north, double milliwatts);
laea_tally_result laea2_tally_clear(laea_tally tally, uint64_t loop_number, int64_t east,
                                    int64_t north);
uint8_t laea2_tally_read(laea_tally tally, uint64_t loop_number, int64_t east, int64_t north,
                         uint64_t out[3]);

/*
 * Makes an empty tally for cells of a side in cm. Refused 3; the tally is then empty too and of the
 * side asked, and every call on it is refused, 45 or 3.
 */
static inline uint8_t laea_tally_new(laea_tally *tally, int64_t side)
{
    laea_tally_result made = laea2_tally_new(side);

    *tally = made.tally;
    return made.refusal;
}

/*
 * Adds a power reading to a cell of a loop. It goes into the cell's slot; a cell without one gets the
 * first that is free, where its loop gets a new slot. Refused 45, 3, 41, 42, 43, 44.
 */
static inline uint8_t laea_tally_add_power(laea_tally *tally, uint64_t loop_number, int64_t east,
                                           int64_t north, double milliwatts)
{
    laea_tally_result next = laea2_tally_add_power(*tally, loop_number, east, north, milliwatts);

    if (next.refusal == LAEA_OK)
        *tally = next.tally;
    return next.refusal;
}

/* The same of an overload reading, with the last good power. Refused 45, 3, 41, 42, 43, 44. */
static inline uint8_t laea_tally_add_overload(laea_tally *tally, uint64_t loop_number, int64_t east,
                                              int64_t north, double milliwatts)
{
    laea_tally_result next = laea2_tally_add_overload(*tally, loop_number, east, north, milliwatts);

    if (next.refusal == LAEA_OK)
        *tally = next.tally;
    return next.refusal;
}

/*
 * Clears a cell of a loop: all that it has is forgotten, and its slot is free, for either loop. A cell
 * that has no slot is cleared without a change. Refused 45, 3.
 */
static inline uint8_t laea_tally_clear(laea_tally *tally, uint64_t loop_number, int64_t east,
                                       int64_t north)
{
    laea_tally_result next = laea2_tally_clear(*tally, loop_number, east, north);

    if (next.refusal == LAEA_OK)
        *tally = next.tally;
    return next.refusal;
}

/*
 * Reads a cell of a loop: out is the sum of its power readings in nW, their count, and the count of its
 * overload readings, all since it was last cleared; three zeros where it has no slot. Refused 45, 3,
 * and then out is as it was.
 */
static inline uint8_t laea_tally_read(const laea_tally *tally, uint64_t loop_number, int64_t east,
                                      int64_t north, uint64_t out[3])
{
    return laea2_tally_read(*tally, loop_number, east, north, out);
}

/* Whether a set is accepted: LAEA_OK, or the number of the first field that is outside its range. */
uint8_t laea_set_refusal(laea_set set);

/* The version of the archive, counted as LAEA_VERSION is. */
uint32_t laea_version(void);

/* A refusal number in words. */
static inline const char *laea_refusal_text(uint8_t number)
{
    switch (number) {
    case LAEA_OK:
        return "accepted";
    case LAEA_NOT_FINITE:
        return "a coordinate is NaN or infinite";
    case LAEA_OUT_OF_LIMITS:
        return "a coordinate, a cell's side or a cell number is beyond its limits";
    case LAEA_TOO_FAR:
        return "too far from the centre of the projection";
    case LAEA_UNEQUAL_LISTS:
        return "the lists are not of one length";
    case LAEA_LONG_LISTS:
        return "the lists are longer than 4,096";
    case LAEA_BAD_A:
        return "the set's semi-major axis is not from 100,000,000 to 1,000,000,000 cm";
    case LAEA_BAD_E2:
        return "the set's eccentricity squared is not from 0 to 10,000,000 billionths";
    case LAEA_BAD_LAT0:
        return "the set's lat0 is beyond 306,000,000 mas (85 degrees) and not a pole";
    case LAEA_BAD_LON0:
        return "the set's lon0 is not above -648,000,000 and at most 648,000,000 mas";
    case LAEA_BAD_FALSE_EASTING:
        return "the set's false easting is beyond 1,000,000,000 cm";
    case LAEA_BAD_FALSE_NORTHING:
        return "the set's false northing is beyond 1,000,000,000 cm";
    case LAEA_NOT_A_CODE:
        return "the text is not the code of a cell";
    case LAEA_NEGATIVE_CELL:
        return "a cell number is negative: such a cell has no code";
    case LAEA_LITTLE_ROOM:
        return "fewer bytes are lent than the code has";
    case LAEA_POWER_NOT_FINITE:
        return "the power is NaN or infinite";
    case LAEA_POWER_OUT_OF_LIMITS:
        return "the power is below 0 or above 1,000 mW";
    case LAEA_FULL_CELL:
        return "the cell has 1,000,000 readings";
    case LAEA_NO_NEW_SLOT:
        return "the cell has no slot, and its loop gets no new one";
    case LAEA_BAD_LOOP:
        return "the loop number is not 1 or 2";
    default:
        return "unknown refusal number";
    }
}

#ifdef __cplusplus
}
#endif

#endif
