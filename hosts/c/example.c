/* A rod of four aluminium pieces: starts 20 K above the room, is heated by 2 W at one end and cools at the other. */
#include "hazhendu.h"

#include <math.h>
#include <stdio.h>
#include <string.h>

enum { N = 4, ENTRIES = 10, COUNT = 2, KRYLOV_M = 30, WORK = 128, MOUNT_ENTRIES = 4 };

/* Conductances in W/K: 0.5 between neighbours, 0.1 from the last piece to the room. */
static const uint32_t starts[N + 1] = {0, 2, 5, 8, 10};
static const uint32_t cols[ENTRIES] = {0, 1, 0, 1, 2, 1, 2, 3, 2, 3};
static const double vals[ENTRIES] = {0.5, -0.5, -0.5, 1.0, -0.5, -0.5, 1.0, -0.5, -0.5, 0.6};
/* Heat capacities in J/K. */
static const double mass[N] = {8, 8, 8, 8};
/* A clamp of 0.25 W/K from the first piece to the third; its two diagonal entries stand where the rod has some too. */
static const uint32_t mount_starts[N + 1] = {0, 2, 2, 4, 4};
static const uint32_t mount_cols[MOUNT_ENTRIES] = {0, 2, 0, 2};
static const double mount_vals[MOUNT_ENTRIES] = {0.25, -0.25, -0.25, 0.25};
/* w_0, temperatures above the room in K; w_1, power divided by heat capacity in K/s. */
static const double w[COUNT * N] = {20, 20, 20, 20, 0.25, 0, 0, 0};

static void print_field(const double *field)
{
    for (size_t i = 0; i < N; i++)
        printf("  %.17g\n", field[i]);
}

static uint32_t soak_taylor(double tau, double *out, double *work, size_t work_len)
{
    double value;
    uint32_t s, m;
    uint64_t applications;
    uint32_t number = hazhendu_phi_combination(
        N, starts, N + 1, cols, ENTRIES, vals, ENTRIES, true, mass, N, tau, HAZHENDU_MAX_DEGREE, COUNT, w, COUNT * N, out, N, work, work_len,
        &value, &s, &m, &applications);
    if (number == HAZHENDU_ACCEPTED)
        printf("taylor: s %u, m %u, mu %.17g, %llu applications\n", s, m, value, (unsigned long long)applications);
    else
        printf("taylor: refused, number %u, double %g\n", number, value);
    return number;
}

static uint32_t soak_krylov(double tau, size_t m, size_t max_substeps, double *out, double *work, size_t work_len)
{
    double value, shortest, last;
    size_t substeps, matvecs, rejected;
    uint32_t number = hazhendu_phi_combination_krylov(
        N, starts, N + 1, cols, ENTRIES, vals, ENTRIES, true, mass, N, tau, COUNT, w, COUNT * N, 1e-10, m, max_substeps,
        out, N, work, work_len, &value, &substeps, &matvecs, &rejected, &shortest, &last);
    if (number == HAZHENDU_ACCEPTED)
        printf("krylov: %zu substeps (shortest %g, last %g of tau), %zu applications, %zu rejected, estimated error %.17g\n",
            substeps, shortest, last, matvecs, rejected, value);
    else
        printf("krylov: refused, number %u, double %g\n", number, value);
    return number;
}

static uint32_t check(size_t entries)
{
    double value;
    size_t row;
    uint32_t number = hazhendu_check_generator(N, starts, N + 1, cols, entries, vals, entries, true, mass, N, &value, &row);
    if (number == HAZHENDU_ACCEPTED)
        printf("matrix: norm %.17g, row %zu\n", value, row);
    else
        printf("matrix: refused, number %u, double %g\n", number, value);
    return number;
}

/* The rod and the clamp as one matrix; the clamp is said to have mount_n rows. */
static uint32_t join(size_t mount_n)
{
    double value, joined[ENTRIES + MOUNT_ENTRIES];
    uint32_t joined_starts[N + 1], joined_cols[ENTRIES + MOUNT_ENTRIES];
    size_t entries;
    uint32_t number = hazhendu_join(
        N, starts, N + 1, cols, ENTRIES, vals, ENTRIES, mount_n, mount_starts, mount_n + 1, mount_cols, MOUNT_ENTRIES, mount_vals, MOUNT_ENTRIES,
        joined_starts, N + 1, joined_cols, ENTRIES + MOUNT_ENTRIES, joined, ENTRIES + MOUNT_ENTRIES, &value, &entries);
    if (number != HAZHENDU_ACCEPTED) {
        printf("join: refused, number %u, double %g, %zu entries\n", number, value, entries);
        return number;
    }
    printf("join: %zu entries\n", entries);
    for (size_t i = 0; i < N; i++)
        for (size_t k = joined_starts[i]; k < joined_starts[i + 1]; k++)
            printf("  row %zu, column %u: %.17g\n", i, joined_cols[k], joined[k]);
    return number;
}

/* What 1 K more at each piece at the start adds to the reading, the last piece's temperature, after tau: phi_0 of the transposed generator. The
   pieces have other heat capacities here. */
static uint32_t sensitivity(double tau, size_t t_len, double *out, double *work, size_t work_len)
{
    static const double reading[N] = {0, 0, 0, 1}, capacities[N] = {8, 4, 16, 2};
    uint32_t t_starts[N + 1], t_cols[ENTRIES];
    double value, t_vals[ENTRIES];
    uint32_t s, m;
    uint64_t applications;
    uint32_t number = hazhendu_phi_action_transposed(
        N, starts, N + 1, cols, ENTRIES, vals, ENTRIES, true, capacities, N, t_starts, N + 1, t_cols, t_len, t_vals, ENTRIES, tau, HAZHENDU_MAX_DEGREE, 0,
        reading, N, out, N, work, work_len, &value, &s, &m, &applications);
    if (number == HAZHENDU_ACCEPTED)
        printf("transposed: s %u, m %u, mu %.17g, %llu applications\n", s, m, value, (unsigned long long)applications);
    else
        printf("transposed: refused, number %u, double %g\n", number, value);
    return number;
}

/* The run of soak_krylov with a limit of 100000, one substep at a time; from half of tau on with a hundredth of the tolerance if it is tightened. */
static uint32_t paused(double tau, size_t m, bool tightened, double *out, double *work, size_t work_len)
{
    double value, field[N + COUNT - 1], numbers[HAZHENDU_RUN_NUMBERS_LEN];
    size_t counts[HAZHENDU_RUN_COUNTS_LEN];
    uint32_t number = hazhendu_krylov_start(
        N, starts, N + 1, cols, ENTRIES, vals, ENTRIES, true, mass, N, tau, COUNT, w, COUNT * N, 1e-10, m, 100000, out, N, work, work_len, field,
        N + COUNT - 1, numbers, HAZHENDU_RUN_NUMBERS_LEN, counts, HAZHENDU_RUN_COUNTS_LEN, &value);
    while (number == HAZHENDU_ACCEPTED && counts[HAZHENDU_RUN_OVER] == 0) {
        if (counts[HAZHENDU_RUN_SUBSTEPS] % 40 == 0)
            printf("paused at %.3f of tau: %zu substeps, %zu applications, first piece %.6f K\n", numbers[HAZHENDU_RUN_TIME],
                counts[HAZHENDU_RUN_SUBSTEPS], counts[HAZHENDU_RUN_MATVECS], out[0]);
        bool with_tol = tightened && numbers[HAZHENDU_RUN_TIME] >= 0.5;
        number = hazhendu_krylov_step(
            N, starts, N + 1, cols, ENTRIES, vals, ENTRIES, true, mass, N, tau, COUNT, w, COUNT * N, with_tol, 1e-12, out, N, work, work_len, field,
            N + COUNT - 1, numbers, HAZHENDU_RUN_NUMBERS_LEN, counts, HAZHENDU_RUN_COUNTS_LEN, &value);
    }
    if (number != HAZHENDU_ACCEPTED) {
        printf("paused: refused, number %u, double %g\n", number, value);
        return number;
    }
    printf("ended: %zu substeps, %zu applications, %zu rejected, tol %g, estimated error %.17g\n", counts[HAZHENDU_RUN_SUBSTEPS],
        counts[HAZHENDU_RUN_MATVECS], counts[HAZHENDU_RUN_REJECTED], numbers[HAZHENDU_RUN_TOL], numbers[HAZHENDU_RUN_ESTIMATE]);
    /* One step more, on a run that has ended. */
    return hazhendu_krylov_step(
        N, starts, N + 1, cols, ENTRIES, vals, ENTRIES, true, mass, N, tau, COUNT, w, COUNT * N, false, 0, out, N, work, work_len, field,
        N + COUNT - 1, numbers, HAZHENDU_RUN_NUMBERS_LEN, counts, HAZHENDU_RUN_COUNTS_LEN, &value);
}

/* Soaks of three times on one unit, one substep each in turn: the field of the first is that of its run alone. */
static uint32_t rotated(const double *taus, size_t m, double *first, double *work, size_t work_len)
{
    enum { RUNS = 3 };
    double units[HAZHENDU_UNIT_NUMBERS_LEN], outs[RUNS][N], fields[RUNS][N + COUNT - 1], numbers[HAZHENDU_RUN_NUMBERS_LEN], value;
    size_t queues[HAZHENDU_UNIT_COUNTS_LEN], counts[HAZHENDU_RUN_COUNTS_LEN], place, turns = 0;
    hazhendu_rotation_clear(units, HAZHENDU_UNIT_NUMBERS_LEN, queues, HAZHENDU_UNIT_COUNTS_LEN);
    for (size_t i = 0; i < RUNS; i++) {
        uint32_t number = hazhendu_rotation_join(
            N, starts, N + 1, cols, ENTRIES, vals, ENTRIES, true, mass, N, taus[i], COUNT, w, COUNT * N, 1e-10, m, 100000, outs[i], N, work, work_len,
            fields[i], N + COUNT - 1, units, HAZHENDU_UNIT_NUMBERS_LEN, queues, HAZHENDU_UNIT_COUNTS_LEN, numbers, HAZHENDU_RUN_NUMBERS_LEN, counts,
            HAZHENDU_RUN_COUNTS_LEN, &place, &value);
        if (number != HAZHENDU_ACCEPTED || place != i)
            return number;
    }
    for (;;) {
        size_t p = hazhendu_rotation_next(queues, HAZHENDU_UNIT_COUNTS_LEN), i = p == HAZHENDU_NO_PLACE ? 0 : p;
        uint32_t number = hazhendu_rotation_turn(
            N, starts, N + 1, cols, ENTRIES, vals, ENTRIES, true, mass, N, taus[i], COUNT, w, COUNT * N, false, 0, outs[i], N, work, work_len, fields[i],
            N + COUNT - 1, units, HAZHENDU_UNIT_NUMBERS_LEN, queues, HAZHENDU_UNIT_COUNTS_LEN, numbers, HAZHENDU_RUN_NUMBERS_LEN, counts,
            HAZHENDU_RUN_COUNTS_LEN, &place, &value);
        if (number != HAZHENDU_ACCEPTED) {
            memcpy(first, outs[0], sizeof outs[0]);
            printf("after %zu turns place %zu is next: refused, number %u\n", turns, p, number);
            return number;
        }
        turns++;
        if (counts[HAZHENDU_RUN_OVER] != 0)
            printf("place %zu ended at turn %zu: %zu substeps, %zu applications, first piece %.6f K\n", place, turns, counts[HAZHENDU_RUN_SUBSTEPS],
                counts[HAZHENDU_RUN_MATVECS], outs[place][0]);
    }
}

/* Ten seconds with the heater on full, a minute by Krylov on half of it, then a time without it: three calls in one. */
static uint32_t schedule(double cooling, double *out, double *work, size_t work_len)
{
    enum { STAGES = 3 };
    static const size_t counts[STAGES] = {2, 2, 1}, ms[STAGES] = {0, KRYLOV_M, 0}, limits[STAGES] = {0, 100000, 0};
    static const uint32_t solvers[STAGES] = {0, 1, 0}, degrees[STAGES] = {HAZHENDU_MAX_DEGREE, 0, HAZHENDU_MAX_DEGREE};
    static const double tols[STAGES] = {0, 1e-10, 0}, further[2 * N] = {0.25, 0, 0, 0, 0.125, 0, 0, 0};
    const double taus[STAGES] = {10, 60, cooling};
    double value;
    uint32_t stage;
    uint64_t applications, substeps, rejected;
    uint32_t number = hazhendu_stages(
        N, starts, N + 1, cols, ENTRIES, vals, ENTRIES, true, mass, N, taus, STAGES, counts, STAGES, solvers, STAGES, degrees, STAGES, tols, STAGES, ms,
        STAGES, limits, STAGES, w, N, further, 2 * N, out, N, work, work_len, &value, &stage, &applications, &substeps, &rejected);
    if (number == HAZHENDU_ACCEPTED)
        printf("stages: %llu applications, %llu substeps, %llu rejected\n", (unsigned long long)applications, (unsigned long long)substeps,
            (unsigned long long)rejected);
    else
        printf("stages: refused, number %u, double %g, stage %u\n", number, value, stage);
    return number;
}

/* A morning: the room, to which the last piece loses 0.1 W/K, has 18, 20, 17, 17.5 and 21 degrees, ten minutes each. The last piece is shown, with
   its extremes in a window of three records. */
static uint32_t morning(double last, double *out, double *work, size_t work_len)
{
    enum { RECORDS = 5 };
    static const double load[N] = {0, 0, 0, 0.0125};
    const double durations[RECORDS] = {600, 600, 600, 600, last}, levels[RECORDS] = {18, 20, 17, 17.5, 21};
    double temperatures[RECORDS], largest[RECORDS], smallest[RECORDS], value;
    uint32_t record;
    uint32_t number = hazhendu_ambient(
        N, starts, N + 1, cols, ENTRIES, vals, ENTRIES, true, mass, N, durations, RECORDS, levels, RECORDS, w, N, load, N, 3, N - 1, out, N, work,
        work_len, temperatures, RECORDS, largest, RECORDS, smallest, RECORDS, &value, &record);
    for (uint32_t i = 0; i < (record > 0 ? record - 1 : number == HAZHENDU_ACCEPTED ? RECORDS : 0); i++)
        printf("  %.17g, in the window %.17g to %.17g\n", temperatures[i], smallest[i], largest[i]);
    if (number != HAZHENDU_ACCEPTED)
        printf("log: refused, number %u, double %g, record %u\n", number, value, record);
    else if (record > 0)
        printf("log: the temperature after record %u is not a number\n", record);
    else
        printf("log: done\n");
    return number;
}

/* The same job by either solver must give what that solver's own call gave. */
static bool same_by_choice(bool krylov, const double *field, double *work, size_t work_len)
{
    double value, shortest, last, out[N];
    uint64_t first, second, third;
    uint32_t number = hazhendu_combine(
        N, starts, N + 1, cols, ENTRIES, vals, ENTRIES, true, mass, N, 60, HAZHENDU_MAX_DEGREE, COUNT, w, COUNT * N, krylov, 1e-10, KRYLOV_M, 100000,
        out, N, work, work_len, &value, &first, &second, &third, &shortest, &last);
    printf("combine: number %u, double %.17g, %llu, %llu, %llu, steps %g and %g\n", number, value, (unsigned long long)first,
        (unsigned long long)second, (unsigned long long)third, shortest, last);
    return memcmp(out, field, sizeof out) == 0;
}

int main(void)
{
    double work[WORK];
    double taylor[N], krylov[N];
    size_t taylor_work = hazhendu_taylor_work(N, ENTRIES, true, COUNT);
    size_t krylov_work = hazhendu_krylov_work(N, ENTRIES, true, COUNT, KRYLOV_M);
    if (taylor_work > WORK || krylov_work > WORK)
        return 1;

    printf("the matrix, and one with an entry fewer\n");
    if (check(ENTRIES) != HAZHENDU_ACCEPTED || check(ENTRIES - 1) != HAZHENDU_ENTRY_COUNT)
        return 1;

    printf("the rod and a clamp as one matrix, and a clamp over three rows\n");
    if (join(N) != HAZHENDU_ACCEPTED || join(N - 1) != HAZHENDU_JOIN_ROWS)
        return 1;

    printf("temperatures above the room after 60 s, in K\n");
    if (soak_taylor(60, taylor, work, taylor_work) != HAZHENDU_ACCEPTED)
        return 1;
    print_field(taylor);
    if (soak_krylov(60, KRYLOV_M, 100000, krylov, work, krylov_work) != HAZHENDU_ACCEPTED)
        return 1;
    print_field(krylov);
    for (size_t i = 0; i < N; i++)
        if (!(fabs(taylor[i] - krylov[i]) <= 1e-8))
            return 1;
    if (!same_by_choice(false, taylor, work, taylor_work) || !same_by_choice(true, krylov, work, krylov_work))
        return 1;

    double whole[N];
    printf("the same in short substeps: the whole call; paused after each, to the same bits; and tightened half way\n");
    if (soak_krylov(60, 4, 100000, whole, work, krylov_work) != HAZHENDU_ACCEPTED)
        return 1;
    if (paused(60, 4, false, krylov, work, krylov_work) != HAZHENDU_RUN_ENDED || memcmp(krylov, whole, sizeof whole) != 0)
        return 1;
    if (paused(60, 4, true, krylov, work, krylov_work) != HAZHENDU_RUN_ENDED)
        return 1;
    print_field(krylov);

    static const double taus[3] = {60, 20, 5};
    printf("that soak and two shorter ones in rotation on one unit, to the same bits; then no run waits\n");
    if (rotated(taus, 4, krylov, work, krylov_work) != HAZHENDU_RUN_ENDED || memcmp(krylov, whole, sizeof whole) != 0)
        return 1;

    printf("warm-up, hold and cool-down in one call; and with a time that is negative in the last stage: what is left is the field of the second\n");
    static const size_t counts[3] = {2, 2, 1}, ms[3] = {0, KRYLOV_M, 0};
    static const uint32_t solvers[3] = {0, 1, 0};
    size_t stages_work = hazhendu_stages_work(N, ENTRIES, true, 3, counts, solvers, ms);
    if (stages_work > WORK || schedule(30, krylov, work, stages_work) != HAZHENDU_ACCEPTED)
        return 1;
    print_field(krylov);
    if (schedule(-1, krylov, work, stages_work) != HAZHENDU_TAU_RANGE)
        return 1;
    print_field(krylov);

    printf("a log of five records under a changing level; and with a duration that is negative in the last: what is left is the field of the fourth\n");
    size_t ambient_work = hazhendu_ambient_work(N, ENTRIES, true);
    if (ambient_work > WORK || morning(600, krylov, work, ambient_work) != HAZHENDU_ACCEPTED)
        return 1;
    print_field(krylov);
    if (morning(-1, krylov, work, ambient_work) != HAZHENDU_TAU_RANGE)
        return 1;
    print_field(krylov);

    double moved_by[N];
    size_t action_work = hazhendu_action_work(N, ENTRIES, true);
    printf("what 1 K more at each piece adds to the last piece after 60 s, in K; and with a buffer that is short\n");
    if (action_work > WORK || sensitivity(60, ENTRIES, moved_by, work, action_work) != HAZHENDU_ACCEPTED)
        return 1;
    print_field(moved_by);
    if (sensitivity(60, ENTRIES - 1, moved_by, work, action_work) != HAZHENDU_TRANSPOSED_LENGTH)
        return 1;

    printf("a time that is negative\n");
    if (soak_taylor(-1, taylor, work, taylor_work) != HAZHENDU_TAU_RANGE)
        return 1;
    printf("a limit of three substeps that are short: what is left is the state after the third\n");
    if (soak_krylov(60, 2, 3, krylov, work, krylov_work) != HAZHENDU_SUBSTEP_LIMIT)
        return 1;
    print_field(krylov);
    return 0;
}
