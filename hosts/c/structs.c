/* The calls on structs give what the plain calls give, in whatever floating-point environment; built with -ffast-math too. */
#include "hazhendu.h"

#include <stdio.h>
#include <string.h>

enum { N = 3, ENTRIES = 7, COUNT = 2, WORK = 4096 };

static const uint32_t starts[N + 1] = {0, 2, 5, 7}, cols[ENTRIES] = {0, 1, 0, 1, 2, 1, 2};
static const double vals[ENTRIES] = {0.5, -0.5, -0.5, 1.0, -0.5, -0.5, 0.6};
/* The last is subnormal, and 0 to whoever flushes it. */
static const double mass[N] = {8, 4, 2}, tiny[N] = {1, 1, 5e-324}, w[COUNT * N] = {20, 19, 18, 0.25, 0, 0.1};
static const struct hazhendu_matrix a = {N, ENTRIES, starts, cols, vals, mass}, empty = {N, 0, (const uint32_t[]){0, 0, 0, 0}, NULL, NULL, tiny};

static double out[4 * N], again[4 * N], work[WORK];
static uint32_t t_starts[N + 1], t_cols[2 * ENTRIES];
static double t_vals[2 * ENTRIES];
static const struct hazhendu_buffers t = {t_starts, t_cols, t_vals, 2 * ENTRIES};
static unsigned failed;

static void expect(bool holds, const char *what)
{
    if (!holds) {
        printf("failed: %s\n", what);
        failed++;
    }
}

static void soaks(void)
{
    struct hazhendu_report report;
    struct hazhendu_options options = hazhendu_by_taylor();
    double value, shortest, last;
    uint64_t first, second, third;
    for (int krylov = 0; krylov < 2; krylov++) {
        options.krylov = krylov;
        uint32_t number = hazhendu_soak(&a, 60, COUNT, w, &options, out, work, hazhendu_work(&a, COUNT, &options), &report);
        uint32_t saved = hazhendu_enter();
        uint32_t plain = hazhendu_combine(N, starts, N + 1, cols, ENTRIES, vals, ENTRIES, true, mass, N, 60, 30, COUNT, w, COUNT * N, krylov, 1e-10, 40,
            100000, again, N, work, WORK, &value, &first, &second, &third, &shortest, &last);
        hazhendu_leave(saved);
        expect(number == 0 && plain == 0 && memcmp(out, again, N * sizeof *out) == 0, "hazhendu_soak");
        expect(memcmp(&value, &report.value, sizeof value) == 0 && report.applications == (krylov ? second : third), "its report");
        expect(hazhendu_soak_transposed(&a, &t, 60, COUNT, w, &options, out, work, WORK, &report) == 0, "hazhendu_soak_transposed");
        expect(t_starts[N] == ENTRIES && t_vals[0] == vals[0] / mass[0] && report.applications > 0, "the transposed matrix");
    }
    expect(hazhendu_soak(&a, -1, COUNT, w, &options, out, work, WORK, &report) == HAZHENDU_TAU_RANGE && report.value == -1, "a refusal");
}

/* A run with a small m, in steps: as the whole call; a new tol; what ends a run, and a step beyond. */
static void runs(void)
{
    struct hazhendu_report report, told;
    struct hazhendu_options options = hazhendu_by_krylov();
    struct hazhendu_run run;
    const double tighter = 1e-13, wrong = 1;
    double field[N + COUNT - 1], value;
    options.m = 3;
    options.tol = 1e-6;
    uint32_t number = hazhendu_soak(&a, 60, COUNT, w, &options, out, work, WORK, &report);
    expect(number == 0 && report.substeps > 10, "a soak in many substeps");
    expect(hazhendu_field(N, COUNT) == N + COUNT - 1 && hazhendu_field(N, 0) == 0, "hazhendu_field");
    expect(hazhendu_run_start(&run, &a, 60, COUNT, w, &options, again, work, WORK, field, &value) == 0, "hazhendu_run_start");
    expect(!hazhendu_run_ended(&run) && hazhendu_run_time(&run) == 0 && memcmp(again, w, N * sizeof *w) == 0, "its state");
    expect(hazhendu_run_step(&run, &a, 60, COUNT, w, &wrong, again, work, WORK, field, &value) == HAZHENDU_TOL_RANGE && value == 1, "a wrong tol");
    expect(hazhendu_run_report(&run).substeps == 0 && hazhendu_run_time(&run) == 0, "an early refusal leaves the run");
    while (!hazhendu_run_ended(&run))
        expect(hazhendu_run_step(&run, &a, 60, COUNT, w, NULL, again, work, WORK, field, &value) == 0, "hazhendu_run_step");
    told = hazhendu_run_report(&run);
    expect(memcmp(out, again, N * sizeof *out) == 0 && memcmp(&told, &report, sizeof told) == 0, "a run in steps is the whole call");
    expect(hazhendu_run_step(&run, &a, 60, COUNT, w, NULL, again, work, WORK, field, &value) == HAZHENDU_RUN_ENDED, "a run that has ended");

    options.max_substeps = 3;
    expect(hazhendu_soak(&a, 60, COUNT, w, &options, out, work, WORK, &report) == HAZHENDU_SUBSTEP_LIMIT, "27");
    expect(hazhendu_run_start(&run, &a, 60, COUNT, w, &options, again, work, WORK, field, &value) == 0, "hazhendu_run_start");
    for (number = 0; number == 0;)
        number = hazhendu_run_step(&run, &a, 60, COUNT, w, hazhendu_run_time(&run) == 0 ? NULL : &tighter, again, work, WORK, field, &value);
    expect(number == HAZHENDU_SUBSTEP_LIMIT && hazhendu_run_ended(&run) && run.counts[HAZHENDU_RUN_SUBSTEPS] == 3, "the limit in steps");
    expect(run.numbers[HAZHENDU_RUN_TOL] == tighter && hazhendu_run_time(&run) > 0 && hazhendu_run_time(&run) < 1, "its new tol and its time");
    expect(hazhendu_run_estimate(&run) == value / run.numbers[HAZHENDU_RUN_NORM], "its estimate");
}

/* Two runs in rotation, as each alone; sixteen places and no more; an early refusal passes on; a unit where no run waits. */
static void rotated(void)
{
    struct hazhendu_options options = hazhendu_by_krylov();
    struct hazhendu_report report[2];
    struct hazhendu_unit unit, full;
    struct hazhendu_run runs[2], other;
    static const double taus[2] = {60, 20}, zeros[N] = {0};
    double alone[2][N], outs[2][N], fields[2][N + COUNT - 1], field[N + COUNT - 1], value;
    size_t place, expected = 0, turns = 0;
    const double wrong = 1;
    options.m = 3;
    options.tol = 1e-6;
    hazhendu_unit_clear(&unit);
    expect(hazhendu_unit_next(&unit) == HAZHENDU_NO_PLACE, "an empty unit");
    for (size_t i = 0; i < 2; i++) {
        expect(hazhendu_soak(&a, taus[i], COUNT, w, &options, alone[i], work, WORK, &report[i]) == 0 && report[i].substeps > 5, "a soak alone");
        expect(hazhendu_unit_join(&unit, &runs[i], &a, taus[i], COUNT, w, &options, outs[i], work, WORK, fields[i], &place, &value) == 0, "a join");
        expect(place == i && hazhendu_run_time(&runs[i]) == 0 && !hazhendu_run_ended(&runs[i]), "its place and state");
    }
    expect(hazhendu_unit_join(&unit, &other, &a, 60, 1, zeros, &options, again, work, WORK, field, &place, &value) == 0, "a start of zeros");
    expect(place == HAZHENDU_NO_PLACE && hazhendu_run_ended(&other), "it takes no place");
    expect(hazhendu_unit_turn(&unit, &runs[0], &a, 60, COUNT, w, &wrong, outs[0], work, WORK, fields[0], &place, &value) == HAZHENDU_TOL_RANGE, "18");
    expect(place == 0 && value == 1 && hazhendu_unit_next(&unit) == 1 && hazhendu_run_report(&runs[0]).substeps == 0, "it passes on");

    full = unit;
    for (size_t i = 2; i < HAZHENDU_MAX_RUNS; i++)
        expect(hazhendu_unit_join(&full, &other, &a, 1, COUNT, w, &options, again, work, WORK, field, &place, &value) == 0 && place == i, "a place");
    expect(hazhendu_unit_join(&full, &other, &a, 1, COUNT, w, &options, again, work, WORK, field, &place, &value) == HAZHENDU_UNIT_FULL, "32");
    expect(place == HAZHENDU_NO_PLACE && hazhendu_unit_next(&full) == 1, "what it tells");
    expect(hazhendu_unit_join(&full, &other, &a, -1, COUNT, w, &options, again, work, WORK, field, &place, &value) == HAZHENDU_TAU_RANGE, "14 first");

    for (size_t p; (p = hazhendu_unit_next(&unit)) != HAZHENDU_NO_PLACE; turns++) {
        expected = turns == 0 || !hazhendu_run_ended(&runs[1 - expected]) ? 1 - expected : expected;
        expect(p == expected, "turns take turns");
        expect(hazhendu_unit_turn(&unit, &runs[p], &a, taus[p], COUNT, w, NULL, outs[p], work, WORK, fields[p], &place, &value) == 0, "a turn");
        expect(place == p, "its place");
    }
    for (size_t i = 0; i < 2; i++) {
        struct hazhendu_report told = hazhendu_run_report(&runs[i]);
        expect(memcmp(outs[i], alone[i], sizeof alone[i]) == 0 && memcmp(&told, &report[i], sizeof told) == 0, "a run in rotation is the run alone");
    }
    expect(turns == report[0].substeps + report[1].substeps, "as many turns as substeps");
    expect(hazhendu_unit_turn(&unit, &runs[0], &a, 60, COUNT, w, NULL, outs[0], work, WORK, fields[0], &place, &value) == HAZHENDU_RUN_ENDED, "31");
    expect(place == HAZHENDU_NO_PLACE && hazhendu_rotation_clear(unit.numbers, 159, unit.counts, 144) == HAZHENDU_WORK_LENGTH, "26");
}

/* Three stages, one by Krylov, as three soaks in a row; and what a refused stage leaves. */
static void staged(void)
{
    static const double further[2 * N] = {0.25, 0, 0.1, 0.125, 0, 0.05};
    struct hazhendu_stage stages[HAZHENDU_MAX_STAGES + 1] = {
        {30, 2, hazhendu_by_taylor()}, {60, 2, hazhendu_by_krylov()}, {10, 1, hazhendu_by_taylor()}};
    struct hazhendu_report report;
    struct hazhendu_staged told;
    uint64_t applications = 0, substeps = 0;
    double vectors[COUNT * N];
    memcpy(again, w, N * sizeof *w);
    for (size_t i = 0; i < 3; i++) {
        memcpy(vectors, again, N * sizeof *again);
        if (i < 2)
            memcpy(vectors + N, further + i * N, N * sizeof *further);
        expect(hazhendu_soak(&a, stages[i].tau, stages[i].count, vectors, &stages[i].options, again, work, WORK, &report) == 0, "a soak of its own");
        applications += report.applications;
        substeps += report.substeps;
    }
    size_t need = hazhendu_soak_stages_work(&a, stages, 3);
    expect(need == hazhendu_work(&a, 2, &stages[1].options), "hazhendu_soak_stages_work");
    expect(hazhendu_soak_stages(&a, stages, 3, w, further, out, work, need, &told) == 0, "hazhendu_soak_stages");
    expect(memcmp(out, again, N * sizeof *out) == 0 && told.value == 0 && told.stage == 0, "it is three soaks in a row");
    expect(told.applications == applications && told.substeps == substeps && told.rejected == 0, "its counts");

    expect(hazhendu_soak_stages(&a, stages, 2, w, further, again, work, WORK, &told) == 0, "two stages");
    stages[2].tau = -1;
    expect(hazhendu_soak_stages(&a, stages, 3, w, further, out, work, WORK, &told) == HAZHENDU_TAU_RANGE, "a refusal at stage 3");
    expect(told.value == -1 && told.stage == 3 && told.applications == 0, "what it tells");
    expect(memcmp(out, again, N * sizeof *out) == 0, "the field of stage 2 is left");
    stages[1].count = 5;
    expect(hazhendu_soak_stages(&a, stages, 3, w, further, out, work, WORK, &told) == HAZHENDU_VECTOR_COUNT && told.stage == 2, "five vectors");
    expect(hazhendu_soak_stages(&a, stages, 0, w, NULL, out, work, WORK, &told) == HAZHENDU_STAGE_COUNT && told.stage == 0, "no stage");
    expect(hazhendu_soak_stages(&a, stages, HAZHENDU_MAX_STAGES + 1, w, NULL, out, work, WORK, &told) == HAZHENDU_STAGE_COUNT, "65 stages");
}

/* A log is soaks in a row with load times level for w_1; its extremes; a refusal, a NaN, and what they leave. */
static void logged(void)
{
    enum { RECORDS = 4 };
    static const double durations[RECORDS] = {30, 10, 0, 60}, levels[RECORDS] = {1, -0.5, 2, 0.25};
    double shown[3][RECORDS], vectors[COUNT * N], highest, lowest;
    struct hazhendu_log log = {durations, levels, RECORDS};
    struct hazhendu_results results = {shown[0], shown[1], shown[2], RECORDS};
    struct hazhendu_options options = hazhendu_by_taylor();
    struct hazhendu_report report;
    struct hazhendu_logged told;
    size_t need = hazhendu_soak_log_work(&a);
    expect(need == 4 * N + 2 + ENTRIES && need == hazhendu_work(&a, 2, &options) + N, "hazhendu_soak_log_work");
    expect(hazhendu_soak_log(&a, &log, w, w + N, 2, 1, out, work, need, &results, &told) == 0, "hazhendu_soak_log");
    expect(told.value == 0 && told.record == 0 && told.results == RECORDS && !told.not_a_number && told.field_left, "what it tells");
    memcpy(again, w, N * sizeof *w);
    for (size_t i = 0; i < RECORDS; i++) {
        memcpy(vectors, again, N * sizeof *again);
        for (size_t k = 0; k < N; k++)
            vectors[N + k] = w[N + k] * levels[i];
        expect(hazhendu_soak(&a, durations[i], COUNT, vectors, &options, again, work, WORK, &report) == 0, "a soak of its own");
        highest = i > 0 && shown[0][i - 1] > again[1] ? shown[0][i - 1] : again[1];
        lowest = i > 0 && shown[0][i - 1] < again[1] ? shown[0][i - 1] : again[1];
        expect(shown[0][i] == again[1] && shown[1][i] == highest && shown[2][i] == lowest, "temperature and extremes");
    }
    expect(memcmp(out, again, N * sizeof *out) == 0, "the field is that of soaks in a row");

    expect(hazhendu_soak_log(&a, &log, w, w + N, 0, 1, out, work, WORK, &results, &told) == HAZHENDU_WINDOW_OR_NODE, "no window");
    expect(told.record == 0 && told.results == 0 && !told.field_left, "nothing is left");
    expect(hazhendu_soak_log(&a, &log, w, w + N, 1, N, out, work, WORK, &results, &told) == HAZHENDU_WINDOW_OR_NODE, "no such node");
    results.length = RECORDS - 1;
    expect(hazhendu_soak_log(&a, &log, w, w + N, 1, 1, out, work, WORK, &results, &told) == HAZHENDU_RESULTS_LENGTH, "three places");
    log.length = 0;
    expect(hazhendu_soak_log(&a, &log, w, w + N, 1, 1, out, work, WORK, &results, &told) == HAZHENDU_RECORD_COUNT, "no record");

    /* 2 T - 2 T in one row, T being 2^1023: infinite minus infinite. The result is 0, and the record says that it is no end. */
    static const uint32_t cancels_starts[2] = {0, 2}, cancels_cols[2] = {0, 0};
    static const double cancels_vals[2] = {2, -2}, most = 0x1p1023, none = 0, one = 1;
    const struct hazhendu_matrix cancels = {1, 2, cancels_starts, cancels_cols, cancels_vals, NULL};
    log.durations = log.levels = &one;
    log.length = 1;
    shown[0][0] = 7;
    expect(hazhendu_soak_log(&cancels, &log, &most, &none, 1, 0, out, work, WORK, &results, &told) == 0, "a NaN is no refusal");
    expect(told.record == 1 && told.not_a_number && told.results == 0 && told.field_left && shown[0][0] == 7, "what it tells");
}

/* A plan is what its run reports, and the solver is taken by it. */
static void plans(void)
{
    struct hazhendu_report plan, report;
    struct hazhendu_options options;
    const struct hazhendu_matrix bare = {N, ENTRIES, starts, cols, vals, NULL}, many = {HAZHENDU_SMALL, 1, NULL, NULL, NULL, NULL};
    memset(work, 1, sizeof work);
    double mark = work[ENTRIES];
    expect(hazhendu_plan_work(ENTRIES, true) == ENTRIES && hazhendu_plan_work(ENTRIES, false) == 0, "hazhendu_plan_work");
    expect(hazhendu_plan(&a, 60, 30, work, WORK, &plan) == 0 && plan.applications == (uint64_t)plan.s * plan.plan_m, "hazhendu_plan");
    expect(work[ENTRIES - 1] == 0 && work[ENTRIES] == mark, "what it clears");
    options = hazhendu_choose(&a, 0, &plan);
    expect(!options.krylov && hazhendu_soak(&a, 60, COUNT, w, &options, out, work, WORK, &report) == 0, "a small model by Taylor");
    expect(memcmp(&plan, &report, sizeof plan) == 0, "a plan is its run's report");
    expect(hazhendu_plan(&a, 60, 30, work, ENTRIES - 1, &plan) == HAZHENDU_WORK_LENGTH, "memory for the quotients");
    expect(hazhendu_plan(&bare, 60, 30, NULL, 0, &plan) == 0 && plan.s > 0, "none without a mass");
    expect(hazhendu_plan(&a, -1, 0, work, WORK, &plan) == HAZHENDU_TAU_RANGE && plan.value == -1 && plan.s == 0, "14 before 33");
    expect(hazhendu_plan(&a, 60, 31, work, WORK, &plan) == HAZHENDU_DEGREE_RANGE, "33");
    uint32_t number = hazhendu_plan(&a, 1e12, 30, work, 0, &plan);
    expect(number == HAZHENDU_NO_PLAN && hazhendu_choose(&a, number, &plan).krylov, "without a plan by Krylov");
    plan.applications = HAZHENDU_MILD;
    expect(!hazhendu_choose(&many, 0, &plan).krylov, "a mild one by Taylor");
    plan.applications++;
    expect(hazhendu_choose(&many, 0, &plan).krylov && !hazhendu_choose(&many, HAZHENDU_TAU_RANGE, &plan).krylov, "a stiff one by Krylov");
}

static void others(void)
{
    struct hazhendu_report report;
    double norm;
    size_t row, entries;
    expect(hazhendu_check(&a, &norm, &row) == 0 && norm == 0.55 && row == 2, "hazhendu_check");
    expect(hazhendu_check(&empty, &norm, &row) == 0 && norm == 0, "a subnormal mass is above 0");
    expect(hazhendu_act(&a, 60, 1, w, out, work, WORK, &report) == 0, "hazhendu_act");
    expect(hazhendu_act_batched(&a, 60, 3, w, again, work, WORK, &report) == 0, "hazhendu_act_batched");
    expect(memcmp(out, again + N, N * sizeof *out) == 0, "phi_1 of the batch");
    expect(hazhendu_act_batched(&a, 60, 4, w, again, work, WORK, &report) == HAZHENDU_INDEX_RANGE, "phi_4");
    expect(hazhendu_join_to(&a, &a, &t, &norm, &entries) == 0 && entries == ENTRIES && t_vals[0] == 1, "hazhendu_join_to");
    expect(strcmp(hazhendu_refusal_text(HAZHENDU_TAU_RANGE), "tau is negative, infinite or not a number") == 0, "a text");
    expect(strcmp(hazhendu_refusal_value(HAZHENDU_TAU_RANGE), "tau") == 0 && *hazhendu_refusal_change(HAZHENDU_TAU_RANGE), "its double and advice");
}

/* Rounding up, and numbers flushed to zero: the calls on structs do not see it, and it is there afterwards. */
static void in_environment(uint32_t state, const char *what)
{
    uint32_t before = _mm_getcsr();
    double usual[N];
    struct hazhendu_report report;
    struct hazhendu_options options = hazhendu_by_krylov();
    expect(hazhendu_soak(&a, 60, COUNT, w, &options, usual, work, WORK, &report) == 0, "a soak");
    _mm_setcsr(state);
    expect(!hazhendu_environment_is_usual(), what);
    expect(hazhendu_soak(&a, 60, COUNT, w, &options, again, work, WORK, &report) == 0 && memcmp(again, usual, sizeof usual) == 0, what);
    others();
    plans();
    runs();
    rotated();
    staged();
    logged();
    expect((_mm_getcsr() & ~(unsigned)HAZHENDU_EXCEPTION_FLAGS) == state, "the environment is put back");
    _mm_setcsr(before);
}

int main(void)
{
    soaks();
    plans();
    runs();
    rotated();
    staged();
    logged();
    others();
    in_environment(0x5f80, "rounding up");
    in_environment(0x9fc0, "flush to zero");
    puts(failed ? "structs: failed" : "structs: passed");
    return failed != 0;
}
