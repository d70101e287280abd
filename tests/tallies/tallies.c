/*
 * The header's functions on a tally beside a model: for each cell of each loop in a pool its sum in 128 bits and its
 * counts, and no slots. Each history is a list of random calls, compared call by call; some are led to the numbers of
 * slots at which the rule for new slots changes its answer. Prints how many calls were compared, how often each number
 * was answered and how often each of these edges was met; ends with 1 at the first difference, and where an edge was
 * never met.
 */
#define _XOPEN_SOURCE 700
#include <inttypes.h>
#include <laea.h>
#include <math.h>
#include <stdio.h>
#include <stdlib.h>
#include <string.h>

__extension__ typedef unsigned __int128 wide;

#define COUNT_OF(list) (sizeof(list) / sizeof *(list))

enum { CELLS_MOST = 300, NUMBERS = 64, SLOTS = 256, STAY = 100 };

struct entry {
    uint64_t loop_number;
    int64_t east, north;
    wide sum;
    uint64_t count, overloads;
};

/* How many slots loop 1 and loop 2 hold, and what each is answered that asks for a new one there, by hand from the
   rule. The same holds with the loops exchanged. */
static const struct edge {
    int held[2];
    uint8_t due[2];
} edges[] = {
    /* about what each loop is sure of */
    {{0, 0}, {0, 0}},
    {{95, 95}, {0, 0}},
    {{96, 95}, {0, 0}},
    {{96, 96}, {0, 0}},
    {{97, 95}, {0, 0}},
    {{97, 96}, {0, 0}},
    {{97, 97}, {0, 0}},
    /* one holds all that both share, or all but one: slots are free that it does not get */
    {{159, 0}, {0, 0}},
    {{160, 0}, {44, 0}},
    {{159, 95}, {0, 0}},
    {{160, 94}, {44, 0}},
    {{160, 95}, {44, 0}},
    /* the last slot, and none left */
    {{159, 96}, {0, 0}},
    {{160, 96}, {44, 44}},
    {{158, 97}, {0, 0}},
    {{159, 97}, {44, 44}},
    {{128, 127}, {0, 0}},
    {{128, 128}, {44, 44}},
    {{129, 126}, {0, 0}},
    {{129, 127}, {44, 44}},
};

/* The entries of a cell for loop 1 and for loop 2 stand side by side. */
static struct entry pool[2 * CELLS_MOST];
static int pool_size;
static int64_t side;
static laea_tally tally;
static uint64_t compared, answered[NUMBERS];
/* How often a loop asked for a new slot: by how many it held and the other, and by whether it was refused. */
static uint64_t asked[SLOTS + 1][SLOTS + 1][2];

static void same(uint64_t given, uint64_t expected, const char *what)
{
    if (given != expected) {
        printf("call %" PRIu64 ": %s is %" PRIu64 ", expected %" PRIu64 "\n", compared, what, given, expected);
        exit(1);
    }
}

static uint64_t below(uint64_t n)
{
    uint64_t high = (uint32_t)mrand48();
    return (high << 32 | (uint32_t)mrand48()) % n;
}

/* A number that no loop has; cut to fewer bits some of them are 1 or 2. */
static uint64_t bad_loop(void)
{
    static const uint64_t numbers[] = {
        0, 3, 255, 256, 257, 258, 65537, UINT64_C(0x100000001), UINT64_C(0x100000002),
        UINT64_C(0x8000000000000000), UINT64_C(0x8000000000000001), UINT64_MAX,
    };
    return numbers[below(COUNT_OF(numbers))];
}

static int is_loop(const struct entry *cell) { return cell->loop_number == 1 || cell->loop_number == 2; }

/* The last cell number of the side, or -1 where no cell has it. */
static int64_t last_number(void)
{
    return side == 10000 ? 500000 : side == 100000 ? 50000 : side == 1000000 ? 5000 : -1;
}

static int is_cell(const struct entry *cell)
{
    return llabs(cell->east) <= last_number() && llabs(cell->north) <= last_number();
}

static int is_held(const struct entry *cell) { return cell->count + cell->overloads != 0; }

/* How many cells of a loop have a reading. */
static int held(uint64_t loop_number)
{
    int count = 0;

    for (int at = 0; at < pool_size; at++)
        count += pool[at].loop_number == loop_number && is_held(&pool[at]);
    return count;
}

/* near(milliwatts * 1,000,000) of the exact value, which is digits / 2^shift with digits below 2^53. */
static uint64_t nanowatts(double milliwatts)
{
    int exponent;
    uint64_t digits = (uint64_t)ldexp(frexp(milliwatts, &exponent), 53);
    int shift = 53 - exponent;

    if (shift > 100)
        return 0;
    return (uint64_t)(((wide)digits * 1000000 + ((wide)1 << (shift - 1))) >> shift);
}

/* "A loop gets a new slot exactly when it holds fewer than 96, or when the slots held beyond 96 by the two together
   are fewer than 64." */
static int gets_new_slot(int own, int other)
{
    int beyond = (own > 96 ? own - 96 : 0) + (other > 96 ? other - 96 : 0);

    return own < 96 || beyond < 64;
}

static uint8_t named_refusal(const struct entry *cell) { return !is_loop(cell) ? 45 : !is_cell(cell) ? 3 : 0; }

static uint8_t add_refusal(const struct entry *cell, double milliwatts)
{
    if (named_refusal(cell) != 0)
        return named_refusal(cell);
    if (!isfinite(milliwatts))
        return 41;
    if (milliwatts < 0 || milliwatts > 1000)
        return 42;
    if (cell->count + cell->overloads >= 1000000)
        return 43;
    if (is_held(cell))
        return 0;
    return gets_new_slot(held(cell->loop_number), held(3 - cell->loop_number)) ? 0 : 44;
}

static double power(void)
{
    static const double powers[] = {0.0, -0.0, 5e-324, -5e-324, 5e-7, 1000.0, 1e-3, 0x1.f400000000001p+9, 1e300, -1.0};

    switch (below(12)) {
    case 0: return powers[below(COUNT_OF(powers))];
    case 1: return below(2) ? INFINITY : -INFINITY;
    case 2: return NAN;
    case 3: return (double)(2 * below(64000) + 1) / 128; /* half a nanowatt exactly */
    case 4: return (double)(2 * below(1000000000) + 1) / 2000000; /* half a nanowatt, or the next double to it */
    case 5: return (double)below(2000000) / 1000;
    default: return (double)below(1000000001) / 1000000;
    }
}

static uint8_t add(struct entry *cell, double milliwatts, int overloaded)
{
    uint8_t expected = add_refusal(cell, milliwatts), given;
    laea_tally before = tally;

    if (expected == 44 || (expected == 0 && !is_held(cell)))
        asked[held(cell->loop_number)][held(3 - cell->loop_number)][expected == 44]++;

    if (overloaded)
        given = laea_tally_add_overload(&tally, cell->loop_number, cell->east, cell->north, milliwatts);
    else
        given = laea_tally_add_power(&tally, cell->loop_number, cell->east, cell->north, milliwatts);
    compared++;
    same(given, expected, "the number of an add");
    answered[given]++;
    if (given != 0) {
        same(memcmp(&before, &tally, sizeof tally) != 0, 0, "whether a refused add changes the tally");
    } else if (overloaded) {
        cell->overloads++;
    } else {
        cell->sum += nanowatts(milliwatts);
        cell->count++;
    }
    return given;
}

static void clear(struct entry *cell)
{
    laea_tally before = tally;
    uint8_t given = laea_tally_clear(&tally, cell->loop_number, cell->east, cell->north);

    compared++;
    same(given, named_refusal(cell), "the number of a clear");
    answered[given]++;
    if (given != 0)
        same(memcmp(&before, &tally, sizeof tally) != 0, 0, "whether a refused clear changes the tally");
    else
        cell->sum = cell->count = cell->overloads = 0;
}

static void read_back(const struct entry *cell)
{
    uint64_t out[3] = {7, 8, 9};
    uint8_t given = laea_tally_read(&tally, cell->loop_number, cell->east, cell->north, out);

    same(given, named_refusal(cell), "the number of a read");
    answered[given]++;
    same(out[0], given == 0 ? (uint64_t)cell->sum : 7, "the sum");
    same(out[1], given == 0 ? cell->count : 8, "the count");
    same(out[2], given == 0 ? cell->overloads : 9, "the overload count");
}

static void read_all(void)
{
    for (int at = 0; at < pool_size; at++)
        read_back(&pool[at]);
}

/* A new tally, and cells in rows of twenty from the south-west corner of all cells; one in eleven is no cell. */
static void start(int64_t cells_side, int cells)
{
    side = cells_side;
    pool_size = 2 * cells;
    for (int at = 0; at < pool_size; at++) {
        int64_t corner = -last_number();
        int cell = at / 2;
        pool[at] = (struct entry){.loop_number = 1 + at % 2, .east = corner + cell % 20, .north = corner + cell / 20};
        if (cell % 11 == 10)
            pool[at].north = at % 4 == 0 ? INT64_MIN + 1 + at : last_number() + 1 + at;
    }
    same(laea_tally_new(&tally, side), last_number() < 0 ? 3 : 0, "the number of a making");
    same((uint64_t)tally.side, (uint64_t)side, "the side");
}

/* A call on a cell of the pool, seldom for a number that no loop has; of forty as many clear as the argument says. */
static void any_call(uint64_t clears)
{
    uint64_t at = below(pool_size), kind = below(40);
    struct entry other = pool[at], *cell = &pool[at];

    if (below(20) == 0) {
        other.loop_number = bad_loop();
        cell = &other;
    }
    if (kind < clears)
        clear(cell);
    else if (kind < 36)
        add(cell, power(), below(3) == 0);
    read_back(cell);
    /* the same cell for the other loop, and any */
    read_back(&pool[at ^ 1]);
    read_back(&pool[below(pool_size)]);
}

static void history(const char *which, int64_t cells_side, int cells, uint64_t calls, uint64_t clears)
{
    start(cells_side, cells);
    for (uint64_t end = compared + calls; compared < end;)
        any_call(clears);
    read_all();
    printf("%9" PRIu64 " calls, %s, cells of %" PRId64 " cm: no difference\n", calls, which, side);
}

/* One of a loop's cells that have a slot, or that have none. */
static struct entry *drawn(uint64_t loop_number, int has)
{
    struct entry *cell;

    do
        cell = &pool[below(pool_size)];
    while (cell->loop_number != loop_number || !is_cell(cell) || is_held(cell) != has);
    return cell;
}

/* Leads the loops to these numbers of slots: first down, since the rule may not grant the way up while the other loop
   holds more than it will. */
static void go(const int target[2])
{
    for (int at = 0; at < 2; at++)
        while (held(1 + at) > target[at])
            clear(drawn(1 + at, 1));
    for (int at = below(2), left = 2; left > 0; at = 1 - at, left--)
        while (held(1 + at) < target[at])
            same(add(drawn(1 + at, 0), 1, below(3) == 0), 0, "the number of an add on the way to an edge");
}

/* Each loop asks for one slot more and gives back what it got. Then calls of all kinds, more than half of which keep
   the loops about these numbers of slots. */
static void stay(const int target[2], const uint8_t due[2])
{
    for (int at = 0; at < 2; at++) {
        struct entry *cell = drawn(1 + at, 0);
        same(add(cell, 1, 0), due[at], "the number of an add at an edge");
        clear(cell);
    }
    for (int call = 0; call < STAY; call++) {
        int at = below(2), own = held(1 + at);

        if (below(5) < 2) {
            any_call(3);
        } else if (own > 0 && own + (int)below(2) > target[at]) {
            clear(drawn(1 + at, 1));
        } else {
            struct entry *cell = drawn(1 + at, 0);
            add(cell, (double)below(1000000001) / 1000000, below(3) == 0);
            read_back(cell);
        }
    }
    read_all();
}

/* Every edge, both ways round, again and again. */
static void walk(int64_t cells_side, uint64_t calls)
{
    uint64_t first = compared;

    start(cells_side, CELLS_MOST);
    do {
        for (size_t at = 0; at < 2 * COUNT_OF(edges); at++) {
            struct edge edge = edges[at / 2];

            if (at % 2 == 1)
                edge = (struct edge){{edge.held[1], edge.held[0]}, {edge.due[1], edge.due[0]}};
            go(edge.held);
            stay(edge.held, edge.due);
        }
    } while (compared - first < calls);
    printf("%9" PRIu64 " calls, 300 cells, cells of %" PRId64 " cm: no difference\n", compared - first, side);
}

/* A cell of a loop takes a million readings of both kinds, and no further one. */
static void full_cell(void)
{
    start(1000000, 1);
    for (int at = 0; at < 1000002; at++)
        add(&pool[1], 1000, at % 5 == 0);
    read_all();
    printf("  1000002 readings of one cell: no difference\n");
}

/* How often each edge was met with its answer. */
static void edges_met(void)
{
    printf("slots that a loop and the other held where the loop asked for a new one, the answer, how often:\n");
    for (size_t at = 0; at < COUNT_OF(edges); at++) {
        for (int from = 0; from < 2; from++) {
            int own = edges[at].held[from], other = edges[at].held[1 - from], due = edges[at].due[from];
            uint64_t times = asked[own][other][due == 44];

            printf("  %3d %3d: %2d, %7" PRIu64, own, other, due, times);
            same(times == 0, 0, "whether an edge was never met");
        }
        fputs(at % 2 == 1 ? "\n" : "  ", stdout);
    }
}

int main(int argc, char **argv)
{
    static const int64_t sides[] = {10000, 100000, 1000000};
    uint64_t calls = argc > 1 ? strtoull(argv[1], NULL, 10) : 1000000;

    srand48(argc > 2 ? strtol(argv[2], NULL, 10) : 9820);
    for (int at = 0; at < 3; at++) {
        history("3 cells", sides[at], 3, calls / 3, 3);
        walk(sides[at], calls / 3);
    }
    history("a side that no cell has", 50000, 20, calls / 10, 5);
    full_cell();
    for (int number = 0; number < NUMBERS; number++)
        if (answered[number] != 0)
            printf("answered %d: %" PRIu64 "\n", number, answered[number]);
    edges_met();
    return 0;
}
