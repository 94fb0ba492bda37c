/*
 * Hazhendu: heat soak by phi-functions. The exported calls of the proved library for C and C++ on x86-64 Linux.
 *
 * `hosts/library` writes target/staticlib/libhazhendu.a, libhazhendu.so and hazhendu.pc for pkg-config; hosts/c/run shows how to link. Most
 * programs want the calls on structs at the end of this file: hazhendu_check, hazhendu_plan, hazhendu_soak, hazhendu_soak_stages,
 * hazhendu_soak_log, hazhendu_run_start, hazhendu_unit_join, hazhendu_act and their likes.
 *
 *
 * WHAT IS COMPUTED
 *
 * The matrix A has n rows and n columns. The generator is G = -A, or with a mass G = -A with each row divided by its mass.
 *
 *   hazhendu_phi_combination, hazhendu_phi_combination_krylov,
 *   hazhendu_combine (either of the two, as asked):              the sum over k of tau^k phi_k(tau G) w_k, for 1 to 4 vectors w_0, w_1, ...
 *   hazhendu_phi_action:                                         phi_k(tau G) v
 *   hazhendu_phi_action_batched:                                 phi_0(tau G) v, phi_1(tau G) v, ..., phi_p(tau G) v
 *   hazhendu_taylor_plan:                                        what a Taylor job over this matrix, tau and degree would report, before it is run
 *   hazhendu_check_generator:                                    the norm of G, which is the largest sum of the sizes in a row, and the first row that has it
 *   hazhendu_phi_combination_transposed, hazhendu_phi_combination_krylov_transposed, hazhendu_phi_action_transposed,
 *   hazhendu_phi_action_batched_transposed, hazhendu_check_transposed:
 *                                                                the same with the transposed matrix: -A, divided row by row by the mass if
 *                                                                there is one, then transposed. Which node moves a reading is one such soak
 *   hazhendu_join:                                               two matrices over the same rows, a barrel's and its mount's, as one
 *   hazhendu_krylov_start, hazhendu_krylov_step:                 hazhendu_phi_combination_krylov one substep at a time, with the field to be looked
 *                                                                at in between, and a new tol where one is wanted
 *   hazhendu_rotation_clear, hazhendu_rotation_next,
 *   hazhendu_rotation_join, hazhendu_rotation_turn:              up to 16 such runs on one unit, in rotation, one substep at a time
 *   hazhendu_stages:                                             1 to 64 combinations in a row over one matrix, the field of one being w_0 of the
 *                                                                next: warm-up, hold and cool-down
 *   hazhendu_ambient:                                            1 to 100,000 Taylor combinations in a row under an ambient level that a logger
 *                                                                gives, with one node's temperature after each and its extremes in a window
 *
 * phi_0 is the exponential, and phi_k(z) = (phi_{k-1}(z) - 1/(k-1)!) / z. For heat, C dT/dt = -A T + q with T = T_0 at time 0, A in W/K,
 * the heat capacities C in J/K and the power q in W: the mass is C, w_0 = T_0, w_1 = q / C, and the sum is T at time tau. A power that
 * grows by r W in each second adds w_2 = r / C.
 *
 * ACCURACY OF ONE PRODUCT
 *
 * In one product of G without a mass with a finite x, row i of k stored entries e: the computed flow differs from minus the exact sum of the
 * products vals[e] * x[cols[e]] by at most k * 2^-52 (about 2.2e-16 per stored entry) times the exact sum of their sizes, provided that every
 * exact product is 0 or at least 2^-1022 in size and that nothing becomes infinite. A row without entries is exact. A call makes many such products, and
 * nothing is said here of how their errors add up.
 *
 * LOADS TIMES A POWER OF TWO
 *
 * With every vector times 2^j, for any whole number j, hazhendu_phi_combination, hazhendu_combine by Taylor and hazhendu_phi_combination_transposed write
 * 2^j times the numbers that they write without, bit for bit, and report the same plan. Both calls have to be accepted, with one matrix, mass, tau and
 * degree; and in both, and in the multiplication itself, every result has to be finite and every exact product 0 or at least 2^-1022 in size.
 *
 *
 * PARAMETERS
 *
 *   n                     rows of A, 1 to 1,000,000
 *   starts, starts_len    row starts, n + 1 of them: the entries of row i are those from starts[i] up to starts[i + 1]
 *   cols, cols_len        the column of each entry, from 0; repeated columns in a row add up
 *   vals, vals_len        the entries, at most 16,777,216
 *   with_mass             whether there is a mass; if not, mass and mass_len are not looked at
 *   mass, mass_len        one number above 0 for each row
 *   tau                   the time, finite and not negative
 *   degree                Taylor: the highest degree of a sweep, 1 to 30; HAZHENDU_MAX_DEGREE unless high degrees lose digits
 *   count                 how many vectors, 1 to 4
 *   w, w_len              the vectors one after the other, count * n numbers
 *   k, p                  the index of a phi-function, 0 to 3
 *   v, v_len              one vector of n numbers
 *   krylov                hazhendu_combine: whether Krylov is asked for, and degree is not looked at; if not, Taylor is, and tol, m and max_substeps are not
 *   tol                   Krylov: the error allowed over the whole tau, strictly between 0 and 1 (1e-10, say), relative to the 2-norm of the
 *                         start: all rows of w_0 with the few numbers that stand for the further vectors. It does not govern round-off
 *   m                     Krylov: columns of a substep (40, say; docs/CHOOSING.md); M, which is m brought into the range from 2 to max(2, n + count - 1),
 *                         may be at most 128
 *   max_substeps          Krylov: the limit of substeps, 1 to 1,000,000
 *   out, out_len          the answer is written here: n numbers, (p + 1) * n of a batch, the functions one after the other
 *   work, work_len        working memory, at least as long as hazhendu_taylor_work, hazhendu_action_work or hazhendu_krylov_work says
 *
 * of a call on the transposed matrix, buffers that are lent for it:
 *
 *   t_starts, t_starts_len  at least n + 1: the row starts of the transposed matrix are written here
 *   t_cols, t_cols_len      at least as many as entries: its columns, which are the rows of A
 *   t_vals, t_vals_len      at least as many as entries: its entries, those of A or these divided by their row's mass
 *
 * of a paused run, which is two slices of fixed length and the scaled field, all three the caller's:
 *
 *   field, field_len      n + count - 1 doubles: the start writes the scaled field here, each step goes on from it and writes it again
 *   numbers, numbers_len  10 doubles, in the order of HAZHENDU_RUN_TIME and the names behind it
 *   counts, counts_len    8 sizes, in the order of HAZHENDU_RUN_MATVECS and the names behind it
 *   with_tol              of a step: whether it brings a new tol, which holds for it and the later ones; if not, tol is not looked at
 *   tol                   as above, and like it relative to the norm of the start. m and the limit stay those of the start
 *
 * The start makes every check and no substep; a step makes one substep. numbers, counts and field go into each step as the last call left
 * them; other contents get an answer or a refusal too, but not of any run. Matrix, mass, tau and vectors come again at each step. If they
 * are the start's and no step brings a tol, the run ends with the bits and the report, or the refusal, of
 * hazhendu_phi_combination_krylov. They may also be others of the same n and count, and the run goes on with them; the powers of two by
 * which the start scaled vectors and field stay. A run has ended when its time is 1, when the norm of its field is 0, when its start was
 * all zeros, or when it met 27, 28 or 29; 27 comes with the limit's last substep itself.
 *
 * of a unit, which serves up to 16 paused runs in rotation. It is two slices of fixed length, the caller's, empty once
 * hazhendu_rotation_clear has written them; they go into each call as the last one left them:
 *
 *   units, units_len      160 doubles, HAZHENDU_UNIT_NUMBERS_LEN: the numbers of the run in place 0, of that in place 1, .. of that in place 15
 *   queues, queues_len    144 sizes, HAZHENDU_UNIT_COUNTS_LEN: their counts in the same way, then 16 numbers, the queue: the places that wait in
 *                         the order of their turns, up to the first number above 15. A place is free while the run in it has ended
 *   out, work             hazhendu_rotation_join: of the new run; hazhendu_rotation_turn: of the run whose turn it is. work may be one
 *                         memory for all runs, as long as the longest need
 *   field, field_len      of that same run: the caller keeps one for each run, and lends that of the place that hazhendu_rotation_next names
 *   numbers, counts       the state of that run is written here, to be looked at; what they hold before is not looked at. A turn whose
 *                         slices are not 10 and 8 long is served all the same, and they are left as they are
 *
 * hazhendu_rotation_join makes the checks and the start of hazhendu_krylov_start, and the run goes to the end of the queue, in the lowest free
 * place; one that has ended at its start is accepted, and takes none. hazhendu_rotation_next names the place whose turn is next, 16 if no
 * run waits. hazhendu_rotation_turn makes hazhendu_krylov_step on the run there, with the matrix, tau and vectors handed in. Then the run goes
 * to the end of the queue, also where the step was refused early (1 to 26); one that has ended, by 27 to 29 too, leaves, and its place can be
 * taken again. So between two turns of a waiting run at most 15 turns of others are served, and field, out, report and refusals of a run are
 * to the bit those of hazhendu_krylov_start and hazhendu_krylov_step alone, whatever the other runs are.
 * Slices of other lengths hold no unit: 16 is next, a turn is refused by 31, and a join by 32 after all checks of its job.
 *
 * of a soak in stages. Each of the seven lists has a number for every stage; how many stages there are is the length of taus:
 *
 *   taus, taus_len        the time of each stage, as tau
 *   counts, counts_len    how many vectors it has, w_0 being one: 1 to 4, 1 for a stage that brings no further vectors
 *   solvers, solvers_len  0: by Taylor; any other number: by Krylov
 *   degrees, degrees_len  Taylor: as degree; of a Krylov stage not looked at
 *   tols, tols_len,       Krylov: as tol, m and max_substeps; of a Taylor stage not looked at
 *   ms, ms_len,
 *   limits, limits_len
 *   start, start_len      w_0 of stage 1, n numbers
 *   further, further_len  the vectors from w_1 on of all stages, one after the other in the order of the stages: (counts[i] - 1) * n numbers of
 *                         stage i + 1
 *   out, out_len          n numbers: the field after the last stage is written here
 *   work, work_len        at least as long as the largest need of a stage: hazhendu_stages_work
 *
 * The stages run in order, each as hazhendu_combine would run it with the field of the stage before for w_0, and each is checked when it is
 * reached: 12, 14, of Taylor 33, 15 and 16, then the rest of the single call's. 16 is told for a start that is not n long, at stage 1, with
 * its length; and, with the length of further, at the first stage that further is too short for, or at the last one if it is too long.
 *
 * of a soak under a changing ambient level. A record is a duration and a level; how many records there are is the length of durations:
 *
 *   durations,            the time of each record, as tau
 *   durations_len
 *   levels, levels_len    its ambient level, as many: w_1 of record i + 1 is load times levels[i], entry by entry, each product rounded once
 *   field, field_len      w_0 of record 1, n numbers; w_0 of a later record is the field after the one before it
 *   load, load_len        what the level multiplies, n numbers: each row's power at the level 1, with a mass divided by it. If the level is the
 *                         room's temperature, that is what the row loses to the room, in W/K, divided by its heat capacity
 *   window                W, 1 to 1,024: the extremes are those among the last W temperatures, fewer at the start
 *   node                  whose temperature is shown, a row from 0, below n
 *   out, out_len          n numbers: the field after the last record is written here
 *   work, work_len        at least hazhendu_ambient_work, 4n + 2 and with a mass one for each entry: n more than a record's combination needs
 *   temperatures,         places for the results, at least as many as records in each of the three: the node's temperature after each record,
 *   temperatures_len,     the largest and the smallest among the last W of these. A temperature of -0 or an infinite one is a result as it is;
 *   largest, largest_len, an extreme of 0 is +0
 *   smallest,
 *   smallest_len
 *
 * Each record is what hazhendu_phi_combination makes of w_0 and w_1 with degree 30, to the bit, and is checked so when it is reached: 14 for its
 * duration, 17 for the field before it, then for load times its level, 21, 22, 24, 25 and 26. A temperature that is NaN ends the work without
 * a refusal: THE RESULT IS THEN 0, value is NaN, AND record IS ABOVE 0. Done is what has the result 0 and record 0. A NaN in another row
 * ends nothing by itself; the next record is refused by 17.
 *
 * of a join:
 *
 *   n_a, starts_a, ..     the barrel, as n, starts, cols and vals above; in each row the columns rise strictly
 *   n_b, starts_b, ..     the mount, in the same way; n_b is n_a
 *   starts, starts_len    the row starts of the result are written here, n_a + 1 of them, the first is 0
 *   cols, cols_len        its columns, rising strictly in each row: as many as places that one of the two holds, or both; as many as the
 *                         entries of the two together are always enough
 *   vals, vals_len        its entries, as many: that of the one that holds the place, or the sum of both, a sum of 0 too
 *
 * and what a call tells, each written at every call:
 *
 *   value                 accepted: mu, the shift of the Taylor plan (0 for none), or Krylov's estimated error, relative to the same norm as
 *                         tol (the sum over the substeps, each with at least its round-off, (tau norm + 2) * 2^-52 of the state's norm: it
 *                         may exceed tol, and is mostly far above the actual error), or the norm of a matrix that is checked, or 0 of a join;
 *                         of a paused run its estimated error, which is of the scaled start until a substep ends the run with a result (the reader
 *                         hazhendu_run_estimate sees to it), 0 of its start; 0 of a soak in stages and of one under a changing level, of the latter NaN
 *                         where a temperature is NaN; refused: the refusal's double
 *   place                 hazhendu_rotation_join: the place taken, 0 to 15, or 16 if none was (refused, or ended at its start);
 *                         hazhendu_rotation_turn: the place whose turn it was, refused or not, or 16 if no run waits
 *   stage                 a soak in stages: which one is refused, from 1; 0 where none was reached (1 to 11 and 37) or all are accepted
 *   record                a soak under a changing level: which record is refused, from 1, or after which one the node's temperature is NaN, the
 *                         result being 0; 0 where none was reached (1 to 11, 15 to 17 and 38 to 40) or all have results
 *   row                   the first row whose sum is the norm, from 0; 0 if the matrix is refused
 *   entries               how many entries the result of a join has; 0 if it is refused
 *   s, plan_m             Taylor's plan: sweeps, and the degree to which each goes
 *   applications          Taylor: products with G that were made, over all functions of a batch; of a soak in stages those of all stages, by
 *                         either solver, and substeps and rejected the sums over its Krylov stages
 *   substeps, matvecs,    Krylov: substeps accepted, products with G, and lengths rejected. The counts of a refused job are 0.
 *   rejected
 *   shortest, last        Krylov: the shortest and the last substep accepted, as parts of tau (1 is the whole soak); both 0 where none was
 *                         taken, of a refused job and of Taylor
 *   first, second, third  hazhendu_combine: s, plan_m and applications of Taylor; substeps, matvecs and rejected of Krylov
 *
 * The result is 0, or the number of a refusal (enum hazhendu_refusal).
 *
 *
 * WHAT THE CALLER OWES
 *
 * - A slice is a pointer and the number of its elements. The pointer must not be null and must be aligned for its element type, even if
 *   the length is 0; all elements of the length must be readable, those of out, work, the buffers for a transposed matrix, the field and
 *   state of a paused run, the slices of a unit, the results of a soak under a changing level and the result of a join writable too.
 * - out, work, the buffers, field and state of a paused run, the slices of a unit, temperatures, largest, smallest, the result of a join and
 *   the places of the numbers told must overlap neither each other nor anything else that is handed in.
 * - with_mass, with_tol and krylov are 0 or 1.
 * - The floating-point environment is the one that a program begins with: rounding to nearest, no flush to zero, denormals not taken as
 *   zero, no exception unmasked. A program or a library built with -ffast-math changes it, and then answers differ and a subnormal mass is
 *   refused. hazhendu_enter and hazhendu_leave set it and put it back; the calls on structs do so themselves.
 *
 * Nothing else is asked: every input gets a result or a refusal, and no call allocates, stops the program or keeps anything. Calls in
 * several threads do not disturb each other. A call tells nothing before its end, and may take long (the process can be stopped at any time): Taylor makes s * m products with G,
 * Krylov at most (M + 1) * max_substeps, a step of a paused run and a turn at most M + 1, a soak in stages the sum over its stages, one under a
 * changing level s * m for each record. A join goes over both matrices a few times.
 *
 *
 * WHAT A CALL CHANGES
 *
 *   accepted           out is the answer, which a plan has not; the needed length of work holds +0, the rest is unchanged
 *   refused, 1 to 26   out and work are unchanged, and so after 30 to 33
 *   refused, 27 to 29  out is the state after the last accepted substep, the needed length of work holds +0. If no substep was accepted
 *                      (28 or 29 in the first), out is w_0 scaled by a power of two and back: its numbers, but for those so small beside
 *                      the largest that the scaling makes them subnormal
 *   transposed         out and work as above. Refused by 1 to 6, 7 to 10 or, without a mass, 9 and 11 of A itself, or by 30: the buffers are
 *                      unchanged. Else, accepted or refused, their fronts hold the transposed matrix; places beyond it are unchanged
 *   a paused run       out and work as above: after an accepted start, an accepted step and 27 to 29 out is the field so far, scaled back
 *                      (of a start w_0, scaled and back), and the needed length of work holds +0. field, numbers and counts are written by
 *                      these alone, after 28 and 29 as the last accepted substep left them but for the mark that the run has ended;
 *                      1 to 26 and 31 leave all of it unchanged
 *   a unit             out, work, field, numbers and counts as by a start or a step. units and queues are written by a join that takes a
 *                      place, and by every turn of a waiting run: one refused by 1 to 26 moves its place to the end of the queue and changes
 *                      nothing else. A join refused by 32, and a turn by 31 because no run waits, change nothing. hazhendu_rotation_clear
 *                      writes both; slices of other lengths are refused by 26 and left as they are
 *   stages             accepted: out is the field after the last stage, the largest need of a stage of work holds +0. Refused before any
 *                      stage, or at stage 1 by 12 to 26 or 33: nothing is changed. Refused so at a later stage: out is the field of the stage
 *                      before it, the largest need of the stages before it of work holds +0, the rest of work is unchanged. Refused by
 *                      27 to 29: as that stage's single call leaves it
 *   ambient            done: out is the field after the last record, the needed length of work holds +0. Ended by NaN after record i: out is
 *                      the field after that record, the needed length of work holds +0. Refused before any record, or at record 1: nothing
 *                      is changed. Refused at a later one: out is the field after the record before it, the needed length of work holds +0.
 *                      temperatures, largest and smallest have a number for each record before the one that is named, or for all; their
 *                      other places, and work beyond its needed length, are unchanged
 *   join, accepted     the fronts of starts, cols and vals are the result, places beyond it are unchanged
 *   join, refused      nothing is changed
 */
#ifndef HAZHENDU_H
#define HAZHENDU_H

#include <stdbool.h>
#include <stddef.h>
#include <stdint.h>
#include <xmmintrin.h>

#include "hazhendu_refusals.h"

#ifdef __cplusplus
extern "C" {
#endif

enum {
    HAZHENDU_MAX_ROWS = 1000000,
    HAZHENDU_MAX_ENTRIES = 16777216,
    HAZHENDU_MAX_VECTORS = 4,
    HAZHENDU_MAX_INDEX = 3,
    HAZHENDU_MAX_DIMENSION = 128,
    HAZHENDU_MAX_SUBSTEPS = 1000000,
    HAZHENDU_MAX_DEGREE = 30,
    HAZHENDU_MAX_STAGES = 64,
    HAZHENDU_MAX_RECORDS = 100000,
    HAZHENDU_MAX_WINDOW = 1024,
    HAZHENDU_MAX_RUNS = 16
};

/* The rule of hazhendu_choose: entries and rows together, and applications of a plan, up to which Taylor is taken; the m tried after 28. */
enum { HAZHENDU_SMALL = 350, HAZHENDU_MILD = 400 };
#define HAZHENDU_OTHER_M {60, 20, 15}

/* Why a job or a join is refused, and the double reported with it. The checks of a job run in number order, but for 33 directly after 14;
   those of a transposed call are 1 to 6, with a mass 7 to 10, without one 9 and 11, then 30, then 11 for a column (of the transposed
   matrix a row), then those of the job. A start has those of Krylov's whole call, then 26 for field, numbers or counts of another length.
   A step has 31 first, then those of Krylov's whole call with the tol in force, the run's m and limit, a second 16 behind the first and the
   start's scaling in 22, then 26 for field. A join to a unit has those of a start, then 32; a turn has 31 where no run waits, else those of
   a step. A soak in stages has 1 to 11, then 37, then those of each stage when it is reached. One under a changing level has 1 to 11, 15,
   16 for field, then load, 17 for field, then load, 38 to 40, then those of each record when it is reached: 14, 17, 21, 22, 24 to 26. Those
   of a join are 1 to 6 and 11 of the barrel, then of the mount, 34, 35 and 36, then 3 and 6 of the result. The first that holds is told. */
enum hazhendu_refusal {
    HAZHENDU_ACCEPTED = 0,

    /* the matrix and its mass                                                                  the double */
    HAZHENDU_ROW_STARTS_LENGTH = 1,    /* n is 0, or the row starts are not n + 1               length of the row starts */
    HAZHENDU_ENTRY_COUNT = 2,          /* columns and entries differ in count, or the last
                                          row start is not that count                           number of entries */
    HAZHENDU_MATRIX_TOO_LARGE = 3,     /* above 1,000,000 rows or 16,777,216 entries            NaN */
    HAZHENDU_ROW_STARTS_FALL = 4,      /* a row starts after the next one                       the row, from 0 */
    HAZHENDU_COLUMN_RANGE = 5,         /* a column is n or more                                 the column */
    HAZHENDU_ENTRY_NOT_FINITE = 6,     /* an entry is infinite or NaN                           the entry */
    HAZHENDU_MASS_LENGTH = 7,          /* the mass is not n long                                length of the mass */
    HAZHENDU_MASS_RANGE = 8,           /* a mass is not finite or not above 0                   the mass */
    HAZHENDU_MASS_ROW_START = 9,       /* with a mass, or transposed: first row start not 0     NaN */
    HAZHENDU_ROW_SUM_NOT_FINITE = 10,  /* with a mass: sizes in a row, divided, sum too high    the sum */
    HAZHENDU_NORM_NOT_FINITE = 11,     /* without: sizes in a row sum too high; transposed: in
                                          a column too, with or without                         the norm */

    /* the job */
    HAZHENDU_VECTOR_COUNT = 12,        /* vectors not 1 to 4                                    the count */
    HAZHENDU_INDEX_RANGE = 13,         /* k or p above 3                                        the index */
    HAZHENDU_TAU_RANGE = 14,           /* tau negative, infinite or NaN                         tau */
    HAZHENDU_OUTPUT_LENGTH = 15,       /* out is not n or (p + 1) * n long                      length of out */
    HAZHENDU_VECTOR_LENGTH = 16,       /* w is not count * n long, or v not n; a step: n or
                                          count is another than the start's; stages: start is
                                          not n long, further short or too long; ambient:
                                          field or load is not n long                           length of w, v, start, further, field or load */
    HAZHENDU_VECTOR_NOT_FINITE = 17,   /* a number in w or v is infinite or NaN; ambient: in
                                          field or load, at a record in the field before it or
                                          in load times its level                               the number */
    HAZHENDU_TOL_RANGE = 18,           /* tol not strictly between 0 and 1                      tol */
    HAZHENDU_NO_SUBSTEPS = 19,         /* max_substeps is 0                                     0 */
    HAZHENDU_OPTION_TOO_LARGE = 20,    /* M above 128 or max_substeps above 1,000,000           NaN */
    HAZHENDU_MAGNITUDE_NOT_FINITE = 21,/* the sum of tau^k max|w_k|, k from 1, overflows        the sum */
    HAZHENDU_GAIN_NOT_FINITE = 22,     /* tau^k, scaled for a w_k that is not 0, overflows      NaN */

    /* the matrix and the job together */
    /* 23 is not used: it never occurred */
    HAZHENDU_ARGUMENT_NOT_FINITE = 24, /* tau times the norm of G overflows                     2 (tau norm + 2), Krylov half of it */
    HAZHENDU_NO_PLAN = 25,             /* Taylor: above 4,294,967,295 sweeps up to the degree   2 (tau norm + 2) */

    /* the host */
    HAZHENDU_WORK_LENGTH = 26,         /* work is too short; a paused run: field is not
                                          n + count - 1 long; a start or a join: numbers not 10,
                                          counts not 8; clearing: units not 160, queues not 144 NaN */

    /* Krylov's run */
    HAZHENDU_SUBSTEP_LIMIT = 27,       /* max_substeps made, and tau is not reached             estimated error so far, of the scaled start */
    HAZHENDU_LENGTHS_REJECTED = 28,    /* eleven lengths rejected in one substep                error allowed, of the scaled start */
    HAZHENDU_NO_INNER_PLAN = 29,       /* the small exponential has no plan                     its argument */

    /* transposed: met behind the checks of the matrix and its mass, before 11 for a column */
    HAZHENDU_TRANSPOSED_LENGTH = 30,   /* t_starts, t_cols or t_vals is too short               NaN */

    /* a step of a paused run: met before any other check */
    HAZHENDU_RUN_ENDED = 31,           /* the run has ended; or numbers or counts are not what
                                          any call left, of another length say; a turn: no run
                                          waits, and nothing is changed                         NaN */

    /* a join to a unit: met behind all checks of its job; nothing is changed */
    HAZHENDU_UNIT_FULL = 32,           /* 16 unfinished runs are on the unit, and the new one
                                          has not ended at its start                            NaN */

    /* the job: met between 14 and 15 */
    HAZHENDU_DEGREE_RANGE = 33,        /* Taylor: degree not 1 to 30                            NaN */

    /* a join: met behind 1 to 6 and 11 of both matrices, and before 3 and 6 of the result, whose double is the first sum not finite */
    HAZHENDU_JOIN_ROWS = 34,           /* n_a and n_b differ                                    NaN */
    HAZHENDU_JOIN_COLUMN_ORDER = 35,   /* columns in a row of either do not rise strictly       NaN */
    HAZHENDU_JOIN_LENGTH = 36,         /* starts, cols or vals is shorter than the result       NaN */

    /* a soak in stages: met directly behind 1 to 11 */
    HAZHENDU_STAGE_COUNT = 37,         /* not 1 to 64 stages, or the lists differ in length     NaN */

    /* a soak under a changing level: met behind 17 for field and load, before any record; nothing is changed */
    HAZHENDU_WINDOW_OR_NODE = 38,      /* window not 1 to 1,024, or node not below n            NaN */
    HAZHENDU_RECORD_COUNT = 39,        /* not 1 to 100,000 records, or levels not as many       NaN */
    HAZHENDU_RESULTS_LENGTH = 40       /* temperatures, largest or smallest holds fewer places
                                          than there are records                                NaN */
};

/* ---- working memory, in doubles. 0 for jobs that are refused before the memory is looked at (n, entries, count or m too high). */

/* M, the columns of a Krylov substep. */
static inline size_t hazhendu_dimension(size_t n, size_t count, size_t m)
{
    size_t d = count == 0 ? 0 : count - 1;
    size_t length = n > SIZE_MAX - d ? SIZE_MAX : n + d;
    size_t most = length < 2 ? 2 : length;
    return m < 2 ? 2 : m > most ? most : m;
}

static inline bool hazhendu_sizes_allowed(size_t n, size_t entries, size_t count)
{
    return n <= HAZHENDU_MAX_ROWS && entries <= HAZHENDU_MAX_ENTRIES && count >= 1 && count <= HAZHENDU_MAX_VECTORS;
}

/* For hazhendu_taylor_plan: with a mass a place for each entry. */
static inline size_t hazhendu_plan_work(size_t entries, bool with_mass)
{
    return with_mass && entries <= HAZHENDU_MAX_ENTRIES ? entries : 0;
}

/* For hazhendu_phi_combination, and for hazhendu_combine by Taylor. */
static inline size_t hazhendu_taylor_work(size_t n, size_t entries, bool with_mass, size_t count)
{
    if (!hazhendu_sizes_allowed(n, entries, count))
        return 0;
    return 3 * n + 2 * (count - 1) + (with_mass ? entries : 0);
}

/* For hazhendu_phi_action and hazhendu_phi_action_batched. */
static inline size_t hazhendu_action_work(size_t n, size_t entries, bool with_mass)
{
    return hazhendu_taylor_work(n, entries, with_mass, HAZHENDU_MAX_INDEX + 1);
}

/* For hazhendu_phi_combination_krylov, for hazhendu_combine by Krylov, and for the start and each step of a paused run. */
static inline size_t hazhendu_krylov_work(size_t n, size_t entries, bool with_mass, size_t count, size_t m)
{
    size_t M = hazhendu_dimension(n, count, m);
    if (!hazhendu_sizes_allowed(n, entries, count) || M > HAZHENDU_MAX_DIMENSION)
        return 0;
    return n + (M + 3) * (n + count - 1) + (M + 2) * (M + 2) + (with_mass ? entries : 0);
}

/* For hazhendu_stages, with a number for every stage in counts, solvers and ms: the largest of the stages' needs. */
static inline size_t hazhendu_stages_work(
    size_t n, size_t entries, bool with_mass, size_t stages, const size_t *counts, const uint32_t *solvers, const size_t *ms)
{
    size_t largest = 0;
    if (stages > HAZHENDU_MAX_STAGES)
        return 0;
    for (size_t i = 0; i < stages; i++) {
        size_t need = solvers[i] == 0 ? hazhendu_taylor_work(n, entries, with_mass, counts[i])
                                      : hazhendu_krylov_work(n, entries, with_mass, counts[i], ms[i]);
        largest = need > largest ? need : largest;
    }
    return largest;
}

/* For hazhendu_ambient: n more than the combination of a record needs. */
static inline size_t hazhendu_ambient_work(size_t n, size_t entries, bool with_mass)
{
    size_t need = hazhendu_taylor_work(n, entries, with_mass, 2);
    return need == 0 ? 0 : need + n;
}

/* The scaled field of a paused run. */
static inline size_t hazhendu_field(size_t n, size_t count)
{
    return hazhendu_sizes_allowed(n, 0, count) ? n + count - 1 : 0;
}

/* ---- the calls */

/* The checks of the matrix and its mass alone, 1 to 11; then the norm, and the first row that has it. */
uint32_t hazhendu_check_generator(
    size_t n,
    const uint32_t *starts, size_t starts_len,
    const uint32_t *cols, size_t cols_len,
    const double *vals, size_t vals_len,
    bool with_mass, const double *mass, size_t mass_len,
    double *value, size_t *row);

/* Barrel and mount as one matrix: rows merged by column, an entry of both added in one rounded sum, the barrel's first. Entries before
   the first row start of either are not carried. The norm of the result is not tested: a job on it may be refused by 11. */
uint32_t hazhendu_join(
    size_t n_a,
    const uint32_t *starts_a, size_t starts_a_len,
    const uint32_t *cols_a, size_t cols_a_len,
    const double *vals_a, size_t vals_a_len,
    size_t n_b,
    const uint32_t *starts_b, size_t starts_b_len,
    const uint32_t *cols_b, size_t cols_b_len,
    const double *vals_b, size_t vals_b_len,
    uint32_t *starts, size_t starts_len,
    uint32_t *cols, size_t cols_len,
    double *vals, size_t vals_len,
    double *value, size_t *entries);

/* The sum over k of tau^k phi_k(tau G) w_k, by Taylor sweeps. */
uint32_t hazhendu_phi_combination(
    size_t n,
    const uint32_t *starts, size_t starts_len,
    const uint32_t *cols, size_t cols_len,
    const double *vals, size_t vals_len,
    bool with_mass, const double *mass, size_t mass_len,
    double tau, uint32_t degree,
    size_t count, const double *w, size_t w_len,
    double *out, size_t out_len,
    double *work, size_t work_len,
    double *value, uint32_t *s, uint32_t *plan_m, uint64_t *applications);

/* phi_k(tau G) v, by Taylor sweeps. */
uint32_t hazhendu_phi_action(
    size_t n,
    const uint32_t *starts, size_t starts_len,
    const uint32_t *cols, size_t cols_len,
    const double *vals, size_t vals_len,
    bool with_mass, const double *mass, size_t mass_len,
    double tau, uint32_t degree,
    size_t k, const double *v, size_t v_len,
    double *out, size_t out_len,
    double *work, size_t work_len,
    double *value, uint32_t *s, uint32_t *plan_m, uint64_t *applications);

/* phi_0(tau G) v to phi_p(tau G) v, by Taylor sweeps. */
uint32_t hazhendu_phi_action_batched(
    size_t n,
    const uint32_t *starts, size_t starts_len,
    const uint32_t *cols, size_t cols_len,
    const double *vals, size_t vals_len,
    bool with_mass, const double *mass, size_t mass_len,
    double tau, uint32_t degree,
    size_t p, const double *v, size_t v_len,
    double *out, size_t out_len,
    double *work, size_t work_len,
    double *value, uint32_t *s, uint32_t *plan_m, uint64_t *applications);

/* The sum over k of tau^k phi_k(tau G) w_k, by Krylov substeps of adaptive length. */
uint32_t hazhendu_phi_combination_krylov(
    size_t n,
    const uint32_t *starts, size_t starts_len,
    const uint32_t *cols, size_t cols_len,
    const double *vals, size_t vals_len,
    bool with_mass, const double *mass, size_t mass_len,
    double tau,
    size_t count, const double *w, size_t w_len,
    double tol, size_t m, size_t max_substeps,
    double *out, size_t out_len,
    double *work, size_t work_len,
    double *value, size_t *substeps, size_t *matvecs, size_t *rejected, double *shortest, double *last);

/* The sum over k of tau^k phi_k(tau G) w_k, by the solver that is asked for. */
uint32_t hazhendu_combine(
    size_t n,
    const uint32_t *starts, size_t starts_len,
    const uint32_t *cols, size_t cols_len,
    const double *vals, size_t vals_len,
    bool with_mass, const double *mass, size_t mass_len,
    double tau, uint32_t degree,
    size_t count, const double *w, size_t w_len,
    bool krylov, double tol, size_t m, size_t max_substeps,
    double *out, size_t out_len,
    double *work, size_t work_len,
    double *value, uint64_t *first, uint64_t *second, uint64_t *third, double *shortest, double *last);

/* The plan of a Taylor job alone: s, plan_m, mu and the applications that its run over this matrix, tau and degree would report, by either of
   hazhendu_phi_combination and hazhendu_phi_action; a batch makes p + 1 times as many applications. It is refused as they are by 1 to 11, 14, 33,
   24 and 25, and they not otherwise by these; then by 26. work needs hazhendu_plan_work, nothing without a mass. The transposed matrix has no such
   call of its own: put to this one, without a mass, what hazhendu_check_transposed has written to its buffers. */
uint32_t hazhendu_taylor_plan(
    size_t n,
    const uint32_t *starts, size_t starts_len,
    const uint32_t *cols, size_t cols_len,
    const double *vals, size_t vals_len,
    bool with_mass, const double *mass, size_t mass_len,
    double tau, uint32_t degree,
    double *work, size_t work_len,
    double *value, uint32_t *s, uint32_t *plan_m, uint64_t *applications);

/* ---- a Krylov run that is paused after its start and after each substep */

/* numbers: what they hold. Times and steps are parts of tau. */
enum {
    HAZHENDU_RUN_TIME,      /* how far the run is, 1 at the end */
    HAZHENDU_RUN_NEXT,      /* the step that is proposed next */
    HAZHENDU_RUN_ESTIMATE,  /* the estimated error, of the scaled start until a substep ends the run with a result */
    HAZHENDU_RUN_SHORTEST,  /* the shortest substep accepted, 0 of none */
    HAZHENDU_RUN_LAST,      /* the last one */
    HAZHENDU_RUN_ETA,       /* the power of two by which the start scaled the further vectors */
    HAZHENDU_RUN_DOWN,      /* that by which it scaled the field */
    HAZHENDU_RUN_UP,        /* and that by which out is scaled back */
    HAZHENDU_RUN_NORM,      /* the 2-norm of the scaled start */
    HAZHENDU_RUN_TOL,       /* the tol in force */
    HAZHENDU_RUN_NUMBERS_LEN
};

/* counts: what they hold. */
enum {
    HAZHENDU_RUN_MATVECS,   /* products with G */
    HAZHENDU_RUN_SUBSTEPS,  /* substeps accepted */
    HAZHENDU_RUN_REJECTED,  /* lengths rejected */
    HAZHENDU_RUN_M,         /* the start's m */
    HAZHENDU_RUN_LIMIT,     /* its max_substeps */
    HAZHENDU_RUN_N,         /* its n */
    HAZHENDU_RUN_COUNT,     /* its count */
    HAZHENDU_RUN_OVER,      /* whether the run has ended, 0 or not */
    HAZHENDU_RUN_COUNTS_LEN
};

/* Every check of hazhendu_phi_combination_krylov, and no substep. */
uint32_t hazhendu_krylov_start(
    size_t n,
    const uint32_t *starts, size_t starts_len,
    const uint32_t *cols, size_t cols_len,
    const double *vals, size_t vals_len,
    bool with_mass, const double *mass, size_t mass_len,
    double tau,
    size_t count, const double *w, size_t w_len,
    double tol, size_t m, size_t max_substeps,
    double *out, size_t out_len,
    double *work, size_t work_len,
    double *field, size_t field_len,
    double *numbers, size_t numbers_len,
    size_t *counts, size_t counts_len,
    double *value);

/* One substep of a run that was started. */
uint32_t hazhendu_krylov_step(
    size_t n,
    const uint32_t *starts, size_t starts_len,
    const uint32_t *cols, size_t cols_len,
    const double *vals, size_t vals_len,
    bool with_mass, const double *mass, size_t mass_len,
    double tau,
    size_t count, const double *w, size_t w_len,
    bool with_tol, double tol,
    double *out, size_t out_len,
    double *work, size_t work_len,
    double *field, size_t field_len,
    double *numbers, size_t numbers_len,
    size_t *counts, size_t counts_len,
    double *value);

/* ---- several paused runs on one unit, in rotation, one substep at a time */

enum {
    HAZHENDU_NO_PLACE = HAZHENDU_MAX_RUNS,
    HAZHENDU_UNIT_NUMBERS_LEN = HAZHENDU_MAX_RUNS * HAZHENDU_RUN_NUMBERS_LEN,
    HAZHENDU_UNIT_QUEUE = HAZHENDU_MAX_RUNS * HAZHENDU_RUN_COUNTS_LEN, /* where the queue begins in queues */
    HAZHENDU_UNIT_COUNTS_LEN = HAZHENDU_UNIT_QUEUE + HAZHENDU_MAX_RUNS
};

/* The empty unit: 0, or 26 for slices of other lengths. */
uint32_t hazhendu_rotation_clear(double *units, size_t units_len, size_t *queues, size_t queues_len);

/* The place whose turn is next, HAZHENDU_NO_PLACE if no run waits. */
size_t hazhendu_rotation_next(const size_t *queues, size_t queues_len);

/* hazhendu_krylov_start, and a place for the run. */
uint32_t hazhendu_rotation_join(
    size_t n,
    const uint32_t *starts, size_t starts_len,
    const uint32_t *cols, size_t cols_len,
    const double *vals, size_t vals_len,
    bool with_mass, const double *mass, size_t mass_len,
    double tau,
    size_t count, const double *w, size_t w_len,
    double tol, size_t m, size_t max_substeps,
    double *out, size_t out_len,
    double *work, size_t work_len,
    double *field, size_t field_len,
    double *units, size_t units_len,
    size_t *queues, size_t queues_len,
    double *numbers, size_t numbers_len,
    size_t *counts, size_t counts_len,
    size_t *place, double *value);

/* hazhendu_krylov_step of the run in the place that hazhendu_rotation_next names. */
uint32_t hazhendu_rotation_turn(
    size_t n,
    const uint32_t *starts, size_t starts_len,
    const uint32_t *cols, size_t cols_len,
    const double *vals, size_t vals_len,
    bool with_mass, const double *mass, size_t mass_len,
    double tau,
    size_t count, const double *w, size_t w_len,
    bool with_tol, double tol,
    double *out, size_t out_len,
    double *work, size_t work_len,
    double *field, size_t field_len,
    double *units, size_t units_len,
    size_t *queues, size_t queues_len,
    double *numbers, size_t numbers_len,
    size_t *counts, size_t counts_len,
    size_t *place, double *value);

/* ---- a soak in stages: up to 64 combinations in a row. A schedule of one stage is hazhendu_combine. */
uint32_t hazhendu_stages(
    size_t n,
    const uint32_t *starts, size_t starts_len,
    const uint32_t *cols, size_t cols_len,
    const double *vals, size_t vals_len,
    bool with_mass, const double *mass, size_t mass_len,
    const double *taus, size_t taus_len,
    const size_t *counts, size_t counts_len,
    const uint32_t *solvers, size_t solvers_len,
    const uint32_t *degrees, size_t degrees_len,
    const double *tols, size_t tols_len,
    const size_t *ms, size_t ms_len,
    const size_t *limits, size_t limits_len,
    const double *start, size_t start_len,
    const double *further, size_t further_len,
    double *out, size_t out_len,
    double *work, size_t work_len,
    double *value, uint32_t *stage, uint64_t *applications, uint64_t *substeps, uint64_t *rejected);

/* ---- a soak under a changing ambient level: up to 100,000 records. The result is 0 where all have results and where a temperature is NaN: these
   two differ in record, which is 0 of the first and the record, from 1, of the second. */
uint32_t hazhendu_ambient(
    size_t n,
    const uint32_t *starts, size_t starts_len,
    const uint32_t *cols, size_t cols_len,
    const double *vals, size_t vals_len,
    bool with_mass, const double *mass, size_t mass_len,
    const double *durations, size_t durations_len,
    const double *levels, size_t levels_len,
    const double *field, size_t field_len,
    const double *load, size_t load_len,
    size_t window, size_t node,
    double *out, size_t out_len,
    double *work, size_t work_len,
    double *temperatures, size_t temperatures_len,
    double *largest, size_t largest_len,
    double *smallest, size_t smallest_len,
    double *value, uint32_t *record);

/* ---- the transposed matrix, over lent buffers. Working memory is needed as for the call on the matrix itself. */

/* The checks of the matrix; then the transposed matrix is written to the buffers, and its norm, the largest column sum of the sizes, is told with
   the first of its rows, a column of A, that has it. */
uint32_t hazhendu_check_transposed(
    size_t n,
    const uint32_t *starts, size_t starts_len,
    const uint32_t *cols, size_t cols_len,
    const double *vals, size_t vals_len,
    bool with_mass, const double *mass, size_t mass_len,
    uint32_t *t_starts, size_t t_starts_len,
    uint32_t *t_cols, size_t t_cols_len,
    double *t_vals, size_t t_vals_len,
    double *value, size_t *row);

uint32_t hazhendu_phi_combination_transposed(
    size_t n,
    const uint32_t *starts, size_t starts_len,
    const uint32_t *cols, size_t cols_len,
    const double *vals, size_t vals_len,
    bool with_mass, const double *mass, size_t mass_len,
    uint32_t *t_starts, size_t t_starts_len,
    uint32_t *t_cols, size_t t_cols_len,
    double *t_vals, size_t t_vals_len,
    double tau, uint32_t degree,
    size_t count, const double *w, size_t w_len,
    double *out, size_t out_len,
    double *work, size_t work_len,
    double *value, uint32_t *s, uint32_t *plan_m, uint64_t *applications);

uint32_t hazhendu_phi_action_transposed(
    size_t n,
    const uint32_t *starts, size_t starts_len,
    const uint32_t *cols, size_t cols_len,
    const double *vals, size_t vals_len,
    bool with_mass, const double *mass, size_t mass_len,
    uint32_t *t_starts, size_t t_starts_len,
    uint32_t *t_cols, size_t t_cols_len,
    double *t_vals, size_t t_vals_len,
    double tau, uint32_t degree,
    size_t k, const double *v, size_t v_len,
    double *out, size_t out_len,
    double *work, size_t work_len,
    double *value, uint32_t *s, uint32_t *plan_m, uint64_t *applications);

uint32_t hazhendu_phi_action_batched_transposed(
    size_t n,
    const uint32_t *starts, size_t starts_len,
    const uint32_t *cols, size_t cols_len,
    const double *vals, size_t vals_len,
    bool with_mass, const double *mass, size_t mass_len,
    uint32_t *t_starts, size_t t_starts_len,
    uint32_t *t_cols, size_t t_cols_len,
    double *t_vals, size_t t_vals_len,
    double tau, uint32_t degree,
    size_t p, const double *v, size_t v_len,
    double *out, size_t out_len,
    double *work, size_t work_len,
    double *value, uint32_t *s, uint32_t *plan_m, uint64_t *applications);

uint32_t hazhendu_phi_combination_krylov_transposed(
    size_t n,
    const uint32_t *starts, size_t starts_len,
    const uint32_t *cols, size_t cols_len,
    const double *vals, size_t vals_len,
    bool with_mass, const double *mass, size_t mass_len,
    uint32_t *t_starts, size_t t_starts_len,
    uint32_t *t_cols, size_t t_cols_len,
    double *t_vals, size_t t_vals_len,
    double tau,
    size_t count, const double *w, size_t w_len,
    double tol, size_t m, size_t max_substeps,
    double *out, size_t out_len,
    double *work, size_t work_len,
    double *value, size_t *substeps, size_t *matvecs, size_t *rejected, double *shortest, double *last);

/* ---- the floating-point environment (MXCSR) that the calls assume */

enum { HAZHENDU_USUAL = 0x1f80, HAZHENDU_EXCEPTION_FLAGS = 0x3f };

/* Whether this thread has it; exceptions that have occurred do not count. */
static inline bool hazhendu_environment_is_usual(void)
{
    return (_mm_getcsr() & ~(unsigned)HAZHENDU_EXCEPTION_FLAGS) == HAZHENDU_USUAL;
}

/* Sets it, and hands back what was there, for hazhendu_leave. */
static inline uint32_t hazhendu_enter(void)
{
    uint32_t saved = _mm_getcsr();
    _mm_setcsr(HAZHENDU_USUAL);
    return saved;
}

static inline void hazhendu_leave(uint32_t saved)
{
    _mm_setcsr(saved);
}

/* ---- the calls on structs: lengths are taken from n, entries and count, and the floating-point environment is seen to. */

struct hazhendu_matrix {
    size_t n, entries;
    const uint32_t *starts; /* n + 1 */
    const uint32_t *cols;   /* entries */
    const double *vals;     /* entries */
    const double *mass;     /* n, or a null pointer for none */
};

/* Where a call writes a matrix: the transposed one (n + 1 row starts, and room for as many entries as A has), or a join. */
struct hazhendu_buffers {
    uint32_t *starts;
    uint32_t *cols;
    double *vals;
    size_t room; /* of cols and vals */
};

struct hazhendu_options {
    bool krylov;
    uint32_t degree;                       /* Taylor */
    double tol;                            /* Krylov */
    size_t m, max_substeps;                /* Krylov */
};

/* What a call told. Of a refused one value is the refusal's double, and all else is 0. */
struct hazhendu_report {
    double value;
    uint64_t applications;                 /* products with G, by either solver */
    uint32_t s, plan_m;                    /* Taylor; value is mu */
    size_t substeps, rejected;             /* Krylov; value is the estimated error */
    double shortest, last;
};

static inline struct hazhendu_options hazhendu_by_taylor(void)
{
    struct hazhendu_options options = {false, HAZHENDU_MAX_DEGREE, 1e-10, 40, 100000};
    return options;
}

static inline struct hazhendu_options hazhendu_by_krylov(void)
{
    struct hazhendu_options options = hazhendu_by_taylor();
    options.krylov = true;
    return options;
}

/* Working memory, in doubles, of a soak with count vectors. */
static inline size_t hazhendu_work(const struct hazhendu_matrix *a, size_t count, const struct hazhendu_options *options)
{
    return options->krylov ? hazhendu_krylov_work(a->n, a->entries, a->mass != NULL, count, options->m)
                           : hazhendu_taylor_work(a->n, a->entries, a->mass != NULL, count);
}

/* The matrix as the calls take it; no pointer is null. */
#define HAZHENDU_NONE ((const void *)&hazhendu_none)
static const double hazhendu_none = 0;

static inline const uint32_t *hazhendu_cols(const struct hazhendu_matrix *a)
{
    return a->cols ? a->cols : (const uint32_t *)HAZHENDU_NONE;
}

static inline const double *hazhendu_doubles(const double *slice)
{
    return slice ? slice : &hazhendu_none;
}

#define HAZHENDU_MATRIX(a)                                                                                                            \
    (a)->n, (a)->starts, (a)->n + 1, hazhendu_cols(a), (a)->entries, hazhendu_doubles((a)->vals), (a)->entries, (a)->mass != NULL, \
        hazhendu_doubles((a)->mass), (a)->mass ? (a)->n : 0
#define HAZHENDU_BUFFERS(a, t) (t)->starts, (a)->n + 1, (t)->cols, (t)->room, (t)->vals, (t)->room

static inline struct hazhendu_report hazhendu_no_report(void)
{
    struct hazhendu_report report = {0, 0, 0, 0, 0, 0, 0, 0};
    return report;
}

/* The checks of the matrix alone, its norm, and the first row that has it. */
static inline uint32_t hazhendu_check(const struct hazhendu_matrix *a, double *norm, size_t *row)
{
    uint32_t saved = hazhendu_enter();
    uint32_t number = hazhendu_check_generator(HAZHENDU_MATRIX(a), norm, row);
    hazhendu_leave(saved);
    return number;
}

/* The plan of a Taylor soak alone, before it is run: work as hazhendu_plan_work says. */
static inline uint32_t hazhendu_plan(const struct hazhendu_matrix *a, double tau, uint32_t degree, double *work, size_t work_len,
    struct hazhendu_report *report)
{
    double none = 0;
    uint32_t saved = hazhendu_enter(), number;
    *report = hazhendu_no_report();
    number = hazhendu_taylor_plan(HAZHENDU_MATRIX(a), tau, degree, work ? work : &none, work ? work_len : 0, &report->value, &report->s,
        &report->plan_m, &report->applications);
    hazhendu_leave(saved);
    return number;
}

/* Which solver to take, by the answer of hazhendu_plan (docs/CHOOSING.md): Taylor for small models and mild ones, else Krylov. Where Krylov is
   then refused by 28, take another m of HAZHENDU_OTHER_M in turn, then Taylor. */
static inline struct hazhendu_options hazhendu_choose(const struct hazhendu_matrix *a, uint32_t number, const struct hazhendu_report *plan)
{
    bool no_plan = number == HAZHENDU_ARGUMENT_NOT_FINITE || number == HAZHENDU_NO_PLAN;
    bool small = a->n <= HAZHENDU_SMALL && a->entries <= HAZHENDU_SMALL - a->n, mild = plan->applications <= HAZHENDU_MILD;
    return no_plan || (number == HAZHENDU_ACCEPTED && !small && !mild) ? hazhendu_by_krylov() : hazhendu_by_taylor();
}

/* The sum over k of tau^k phi_k(tau G) w_k: w is count * n long, out n. */
static inline uint32_t hazhendu_soak(const struct hazhendu_matrix *a, double tau, size_t count, const double *w,
    const struct hazhendu_options *o, double *out, double *work, size_t work_len, struct hazhendu_report *report)
{
    uint64_t first, second, third;
    uint32_t saved = hazhendu_enter(), number;
    *report = hazhendu_no_report();
    number = hazhendu_combine(HAZHENDU_MATRIX(a), tau, o->degree, count, w, count * a->n, o->krylov, o->tol, o->m, o->max_substeps, out, a->n,
        work, work_len, &report->value, &first, &second, &third, &report->shortest, &report->last);
    if (o->krylov) {
        report->substeps = (size_t)first;
        report->applications = second;
        report->rejected = (size_t)third;
    } else {
        report->s = (uint32_t)first;
        report->plan_m = (uint32_t)second;
        report->applications = third;
    }
    hazhendu_leave(saved);
    return number;
}

/* The same on the transposed matrix, which is written to t. */
static inline uint32_t hazhendu_soak_transposed(const struct hazhendu_matrix *a, const struct hazhendu_buffers *t, double tau, size_t count,
    const double *w, const struct hazhendu_options *o, double *out, double *work, size_t work_len, struct hazhendu_report *report)
{
    uint32_t saved = hazhendu_enter(), number;
    size_t applications = 0;
    *report = hazhendu_no_report();
    if (o->krylov) {
        number = hazhendu_phi_combination_krylov_transposed(HAZHENDU_MATRIX(a), HAZHENDU_BUFFERS(a, t), tau, count, w, count * a->n, o->tol, o->m,
            o->max_substeps, out, a->n, work, work_len, &report->value, &report->substeps, &applications, &report->rejected, &report->shortest,
            &report->last);
        report->applications = applications;
    } else {
        number = hazhendu_phi_combination_transposed(HAZHENDU_MATRIX(a), HAZHENDU_BUFFERS(a, t), tau, o->degree, count, w, count * a->n, out, a->n,
            work, work_len, &report->value, &report->s, &report->plan_m, &report->applications);
    }
    hazhendu_leave(saved);
    return number;
}

/* One stage of a schedule: its time, how many vectors it has with w_0, and its solver. */
struct hazhendu_stage {
    double tau;
    size_t count;
    struct hazhendu_options options;
};

/* What a schedule told: the refusal's double and stage, or the sums over its stages. */
struct hazhendu_staged {
    double value;
    uint32_t stage;
    uint64_t applications, substeps, rejected;
};

/* Working memory, in doubles, of a schedule. */
static inline size_t hazhendu_soak_stages_work(const struct hazhendu_matrix *a, const struct hazhendu_stage *stages, size_t length)
{
    size_t largest = 0;
    for (size_t i = 0; i < length && length <= HAZHENDU_MAX_STAGES; i++) {
        size_t need = hazhendu_work(a, stages[i].count, &stages[i].options);
        largest = need > largest ? need : largest;
    }
    return largest;
}

/* The stages in order from start, which is n long; further holds the vectors from w_1 on of all stages, (count - 1) * n of each, and may be
   null if there are none. */
static inline uint32_t hazhendu_soak_stages(const struct hazhendu_matrix *a, const struct hazhendu_stage *stages, size_t length, const double *start,
    const double *further, double *out, double *work, size_t work_len, struct hazhendu_staged *told)
{
    double taus[HAZHENDU_MAX_STAGES + 1], tols[HAZHENDU_MAX_STAGES + 1];
    size_t counts[HAZHENDU_MAX_STAGES + 1], ms[HAZHENDU_MAX_STAGES + 1], limits[HAZHENDU_MAX_STAGES + 1];
    uint32_t solvers[HAZHENDU_MAX_STAGES + 1], degrees[HAZHENDU_MAX_STAGES + 1], saved, number;
    size_t most = HAZHENDU_MAX_STAGES + 1, used = length < most ? length : most, further_len = 0; /* one too many is enough to be refused */
    bool counted = true; /* up to the first stage that 12 refuses */
    for (size_t i = 0; i < used; i++) {
        const struct hazhendu_options *o = &stages[i].options;
        taus[i] = stages[i].tau;
        counts[i] = stages[i].count;
        solvers[i] = o->krylov;
        degrees[i] = o->degree;
        tols[i] = o->tol;
        ms[i] = o->m;
        limits[i] = o->max_substeps;
        counted = counted && counts[i] >= 1 && counts[i] <= HAZHENDU_MAX_VECTORS;
        further_len += counted ? (counts[i] - 1) * a->n : 0;
    }
    saved = hazhendu_enter();
    number = hazhendu_stages(HAZHENDU_MATRIX(a), taus, used, counts, used, solvers, used, degrees, used, tols, used, ms, used, limits, used, start,
        a->n, hazhendu_doubles(further), further_len, out, a->n, work, work_len, &told->value, &told->stage, &told->applications, &told->substeps,
        &told->rejected);
    hazhendu_leave(saved);
    return number;
}

/* A logger's records: their durations and levels, length numbers each. */
struct hazhendu_log {
    const double *durations, *levels;
    size_t length;
};

/* Where the results of a log go, length places each, none of the pointers null: the node's temperature after each record, the largest and the
   smallest among the last ones. */
struct hazhendu_results {
    double *temperatures, *largest, *smallest;
    size_t length;
};

/* What a log told. results is how many records have a result: all, or those before the record that is named. */
struct hazhendu_logged {
    double value;
    uint32_t record;
    size_t results;
    bool not_a_number; /* the temperature after that record is NaN, and the number is 0 */
    bool field_left;   /* out holds a field: the last one, that after a NaN record, or that before a refused one */
};

/* Working memory, in doubles, of a log. */
static inline size_t hazhendu_soak_log_work(const struct hazhendu_matrix *a)
{
    return hazhendu_ambient_work(a->n, a->entries, a->mass != NULL);
}

/* The records in order from field, with load times the level of each for w_1; field, load and out are n long. 0 is told where a temperature is
   NaN too: see not_a_number. */
static inline uint32_t hazhendu_soak_log(const struct hazhendu_matrix *a, const struct hazhendu_log *log, const double *field, const double *load,
    size_t window, size_t node, double *out, double *work, size_t work_len, const struct hazhendu_results *results, struct hazhendu_logged *told)
{
    uint32_t saved = hazhendu_enter(), number;
    number = hazhendu_ambient(HAZHENDU_MATRIX(a), hazhendu_doubles(log->durations), log->length, hazhendu_doubles(log->levels), log->length, field,
        a->n, load, a->n, window, node, out, a->n, work, work_len, results->temperatures, results->length, results->largest, results->length,
        results->smallest, results->length, &told->value, &told->record);
    hazhendu_leave(saved);
    told->not_a_number = number == HAZHENDU_ACCEPTED && told->record > 0;
    told->results = told->record > 0 ? told->record - 1 : number == HAZHENDU_ACCEPTED ? log->length : 0;
    told->field_left = number == HAZHENDU_ACCEPTED || told->record > 1;
    return number;
}

/* A paused run. Its scaled field is the caller's, hazhendu_field(n, count) long, and comes back at each step as the last call left it. */
struct hazhendu_run {
    double numbers[HAZHENDU_RUN_NUMBERS_LEN];
    size_t counts[HAZHENDU_RUN_COUNTS_LEN];
    uint32_t refused; /* 27, 28 or 29 where that ended the run, else 0: hazhendu_run_start and hazhendu_run_step see to it */
};

/* Every check of a soak by Krylov, and no substep: out is the start. value is the refusal's double, or 0. */
static inline uint32_t hazhendu_run_start(struct hazhendu_run *run, const struct hazhendu_matrix *a, double tau, size_t count, const double *w,
    const struct hazhendu_options *o, double *out, double *work, size_t work_len, double *field, double *value)
{
    uint32_t saved = hazhendu_enter();
    uint32_t number = hazhendu_krylov_start(HAZHENDU_MATRIX(a), tau, count, w, count * a->n, o->tol, o->m, o->max_substeps, out, a->n, work, work_len,
        field, hazhendu_field(a->n, count), run->numbers, HAZHENDU_RUN_NUMBERS_LEN, run->counts, HAZHENDU_RUN_COUNTS_LEN, value);
    hazhendu_leave(saved);
    if (number == HAZHENDU_ACCEPTED)
        run->refused = HAZHENDU_ACCEPTED;
    return number;
}

/* One substep: out is the field so far. tol points to a new tolerance for this step and the later ones, or is null. */
static inline uint32_t hazhendu_run_step(struct hazhendu_run *run, const struct hazhendu_matrix *a, double tau, size_t count, const double *w,
    const double *tol, double *out, double *work, size_t work_len, double *field, double *value)
{
    uint32_t saved = hazhendu_enter();
    uint32_t number = hazhendu_krylov_step(HAZHENDU_MATRIX(a), tau, count, w, count * a->n, tol != NULL, tol ? *tol : 0, out, a->n, work, work_len, field,
        hazhendu_field(run->counts[HAZHENDU_RUN_N], run->counts[HAZHENDU_RUN_COUNT]), run->numbers, HAZHENDU_RUN_NUMBERS_LEN, run->counts,
        HAZHENDU_RUN_COUNTS_LEN, value);
    hazhendu_leave(saved);
    if (number == HAZHENDU_SUBSTEP_LIMIT || number == HAZHENDU_LENGTHS_REJECTED || number == HAZHENDU_NO_INNER_PLAN)
        run->refused = number;
    return number;
}

/* How far the run is, as a part of tau. */
static inline double hazhendu_run_time(const struct hazhendu_run *run)
{
    return run->numbers[HAZHENDU_RUN_TIME];
}

static inline bool hazhendu_run_ended(const struct hazhendu_run *run)
{
    return run->counts[HAZHENDU_RUN_OVER] != 0;
}

/* The estimated error so far, relative to the norm of the start: that of a run that ended with a result is relative already. */
static inline double hazhendu_run_estimate(const struct hazhendu_run *run)
{
    double estimate = run->numbers[HAZHENDU_RUN_ESTIMATE];
    return hazhendu_run_ended(run) && run->refused == HAZHENDU_ACCEPTED ? estimate : estimate / run->numbers[HAZHENDU_RUN_NORM];
}

/* What the run has cost so far. */
static inline struct hazhendu_report hazhendu_run_report(const struct hazhendu_run *run)
{
    struct hazhendu_report report = hazhendu_no_report();
    report.value = hazhendu_run_estimate(run);
    report.applications = run->counts[HAZHENDU_RUN_MATVECS];
    report.substeps = run->counts[HAZHENDU_RUN_SUBSTEPS];
    report.rejected = run->counts[HAZHENDU_RUN_REJECTED];
    report.shortest = run->numbers[HAZHENDU_RUN_SHORTEST];
    report.last = run->numbers[HAZHENDU_RUN_LAST];
    return report;
}

/* Up to 16 paused runs in rotation. The caller keeps a struct hazhendu_run and a field for each place, and a job to go with it. */
struct hazhendu_unit {
    double numbers[HAZHENDU_UNIT_NUMBERS_LEN];
    size_t counts[HAZHENDU_UNIT_COUNTS_LEN];
};

static inline void hazhendu_unit_clear(struct hazhendu_unit *unit)
{
    hazhendu_rotation_clear(unit->numbers, HAZHENDU_UNIT_NUMBERS_LEN, unit->counts, HAZHENDU_UNIT_COUNTS_LEN);
}

/* The place whose turn is next, HAZHENDU_NO_PLACE if no run waits. */
static inline size_t hazhendu_unit_next(const struct hazhendu_unit *unit)
{
    return hazhendu_rotation_next(unit->counts, HAZHENDU_UNIT_COUNTS_LEN);
}

/* As hazhendu_run_start; place is the place taken, HAZHENDU_NO_PLACE if the run is refused or has ended at its start. */
static inline uint32_t hazhendu_unit_join(struct hazhendu_unit *unit, struct hazhendu_run *run, const struct hazhendu_matrix *a, double tau,
    size_t count, const double *w, const struct hazhendu_options *o, double *out, double *work, size_t work_len, double *field, size_t *place,
    double *value)
{
    uint32_t saved = hazhendu_enter();
    uint32_t number = hazhendu_rotation_join(HAZHENDU_MATRIX(a), tau, count, w, count * a->n, o->tol, o->m, o->max_substeps, out, a->n, work,
        work_len, field, hazhendu_field(a->n, count), unit->numbers, HAZHENDU_UNIT_NUMBERS_LEN, unit->counts, HAZHENDU_UNIT_COUNTS_LEN, run->numbers,
        HAZHENDU_RUN_NUMBERS_LEN, run->counts, HAZHENDU_RUN_COUNTS_LEN, place, value);
    hazhendu_leave(saved);
    if (number == HAZHENDU_ACCEPTED)
        run->refused = HAZHENDU_ACCEPTED;
    return number;
}

/* As hazhendu_run_step, of the run whose turn is next: run, job, field and out are those of the place that hazhendu_unit_next names. */
static inline uint32_t hazhendu_unit_turn(struct hazhendu_unit *unit, struct hazhendu_run *run, const struct hazhendu_matrix *a, double tau,
    size_t count, const double *w, const double *tol, double *out, double *work, size_t work_len, double *field, size_t *place, double *value)
{
    uint32_t saved = hazhendu_enter();
    uint32_t number = hazhendu_rotation_turn(HAZHENDU_MATRIX(a), tau, count, w, count * a->n, tol != NULL, tol ? *tol : 0, out, a->n, work, work_len,
        field, hazhendu_field(run->counts[HAZHENDU_RUN_N], run->counts[HAZHENDU_RUN_COUNT]), unit->numbers, HAZHENDU_UNIT_NUMBERS_LEN, unit->counts,
        HAZHENDU_UNIT_COUNTS_LEN, run->numbers, HAZHENDU_RUN_NUMBERS_LEN, run->counts, HAZHENDU_RUN_COUNTS_LEN, place, value);
    hazhendu_leave(saved);
    if (number == HAZHENDU_SUBSTEP_LIMIT || number == HAZHENDU_LENGTHS_REJECTED || number == HAZHENDU_NO_INNER_PLAN)
        run->refused = number;
    return number;
}

/* phi_k(tau G) v, by Taylor; work as hazhendu_action_work says. */
static inline uint32_t hazhendu_act(const struct hazhendu_matrix *a, double tau, size_t k, const double *v, double *out, double *work,
    size_t work_len, struct hazhendu_report *report)
{
    uint32_t saved = hazhendu_enter(), number;
    *report = hazhendu_no_report();
    number = hazhendu_phi_action(HAZHENDU_MATRIX(a), tau, HAZHENDU_MAX_DEGREE, k, v, a->n, out, a->n, work, work_len, &report->value, &report->s,
        &report->plan_m, &report->applications);
    hazhendu_leave(saved);
    return number;
}

/* phi_0(tau G) v to phi_p(tau G) v: out is (p + 1) * n long. */
static inline uint32_t hazhendu_act_batched(const struct hazhendu_matrix *a, double tau, size_t p, const double *v, double *out, double *work,
    size_t work_len, struct hazhendu_report *report)
{
    uint32_t saved = hazhendu_enter(), number;
    *report = hazhendu_no_report();
    number = hazhendu_phi_action_batched(HAZHENDU_MATRIX(a), tau, HAZHENDU_MAX_DEGREE, p, v, a->n, out, p > HAZHENDU_MAX_INDEX ? 0 : (p + 1) * a->n,
        work, work_len, &report->value, &report->s, &report->plan_m, &report->applications);
    hazhendu_leave(saved);
    return number;
}

/* Barrel and mount as one matrix, written to t; its masses are not looked at. */
static inline uint32_t hazhendu_join_to(const struct hazhendu_matrix *barrel, const struct hazhendu_matrix *mount, const struct hazhendu_buffers *t,
    double *value, size_t *entries)
{
    uint32_t saved = hazhendu_enter();
    uint32_t number = hazhendu_join(barrel->n, barrel->starts, barrel->n + 1, hazhendu_cols(barrel), barrel->entries, hazhendu_doubles(barrel->vals),
        barrel->entries, mount->n, mount->starts, mount->n + 1, hazhendu_cols(mount), mount->entries, hazhendu_doubles(mount->vals), mount->entries,
        t->starts, barrel->n + 1, t->cols, t->room, t->vals, t->room, value, entries);
    hazhendu_leave(saved);
    return number;
}

#ifdef __cplusplus
}
#endif

#endif
