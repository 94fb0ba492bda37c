/* The refusals in words, written by hosts/rust/examples/refusals_header.rs: hazhendu.h includes it. */
#ifndef HAZHENDU_REFUSALS_H
#define HAZHENDU_REFUSALS_H

#include <stdint.h>

/* What is wrong. */
static inline const char *hazhendu_refusal_text(uint32_t number)
{
    switch (number) {
    case 0:
        return "accepted";
    case 1:
        return "the matrix has no rows, or there are not n + 1 row starts";
    case 2:
        return "columns and entries differ in number, or the last row start is not their number";
    case 3:
        return "the matrix has more than 1,000,000 rows or 16,777,216 entries";
    case 4:
        return "a row starts after the next one";
    case 5:
        return "a column is n or more";
    case 6:
        return "an entry of the matrix, or the sum of two in a join, is infinite or not a number";
    case 7:
        return "the mass does not have one number for each row";
    case 8:
        return "a mass is infinite, not a number, or not above 0";
    case 9:
        return "there is a mass, or the matrix is transposed, and the first row start is not 0";
    case 10:
        return "the sizes of a row's entries, divided by its mass, have no finite sum";
    case 11:
        return "the sizes of a row's entries have no finite sum, or transposed of a column's, each divided by its row's mass if there is one";
    case 12:
        return "there are not 1 to 4 vectors";
    case 13:
        return "the index of the phi-function is above 3";
    case 14:
        return "tau is negative, infinite or not a number";
    case 15:
        return "the output has the wrong length";
    case 16:
        return "the vectors have the wrong length";
    case 17:
        return "a number in a vector is infinite or not a number";
    case 18:
        return "tol is not strictly between 0 and 1";
    case 19:
        return "no substep is allowed";
    case 20:
        return "a substep has more than 128 columns, or more than 1,000,000 substeps are allowed";
    case 21:
        return "tau^k times the largest size in w_k, summed over k from 1, is not finite";
    case 22:
        return "tau^k, scaled for a w_k whose numbers are all close to 0, is not finite";
    case 24:
        return "tau times the norm of the generator is not finite";
    case 25:
        return "Taylor has no plan up to the highest degree: it would need more than 4,294,967,295 sweeps";
    case 26:
        return "the working memory is too short, or the field of a paused run has the wrong length";
    case 27:
        return "the limit of substeps is used up before tau is reached";
    case 28:
        return "eleven step lengths were rejected in one substep";
    case 29:
        return "the small exponential of a substep has no plan";
    case 30:
        return "a buffer for the transposed matrix is too short";
    case 31:
        return "the paused run has ended, or no run waits on the unit";
    case 32:
        return "the unit has sixteen unfinished runs";
    case 33:
        return "the highest degree is not from 1 to 30";
    case 34:
        return "barrel and mount differ in their number of rows";
    case 35:
        return "columns in a row do not rise strictly";
    case 36:
        return "a slice for the result of a join is too short";
    case 37:
        return "the schedule does not have 1 to 64 stages, or its lists differ in length";
    case 38:
        return "the window is not 1 to 1,024 records, or the node is not a row of the matrix";
    case 39:
        return "the log does not have 1 to 100,000 records, or durations and levels differ in number";
    case 40:
        return "a slice for the results of a log has fewer places than there are records";
    default:
        return "a number that the library does not have";
    }
}

/* What the double is that comes with it; empty where it tells nothing. */
static inline const char *hazhendu_refusal_value(uint32_t number)
{
    switch (number) {
    case 0:
        return "";
    case 1:
        return "number of row starts";
    case 2:
        return "number of entries";
    case 3:
        return "";
    case 4:
        return "the row, counted from 0";
    case 5:
        return "the column";
    case 6:
        return "the entry or sum";
    case 7:
        return "how many it has";
    case 8:
        return "the mass";
    case 9:
        return "";
    case 10:
        return "the sum";
    case 11:
        return "the sum";
    case 12:
        return "how many there are";
    case 13:
        return "the index";
    case 14:
        return "tau";
    case 15:
        return "its length";
    case 16:
        return "their length";
    case 17:
        return "the number";
    case 18:
        return "tol";
    case 19:
        return "";
    case 20:
        return "";
    case 21:
        return "the sum";
    case 22:
        return "";
    case 24:
        return "the schedule's argument";
    case 25:
        return "the schedule's argument";
    case 26:
        return "";
    case 27:
        return "estimated error so far, of the scaled start";
    case 28:
        return "error allowed, of the scaled start";
    case 29:
        return "its argument";
    case 30:
        return "";
    case 31:
        return "";
    case 32:
        return "";
    case 33:
        return "";
    case 34:
        return "";
    case 35:
        return "";
    case 36:
        return "";
    case 37:
        return "";
    case 38:
        return "";
    case 39:
        return "";
    case 40:
        return "";
    default:
        return "";
    }
}

/* What to change. */
static inline const char *hazhendu_refusal_change(uint32_t number)
{
    switch (number) {
    case 0:
        return "";
    case 1:
        return "give n + 1 row starts for a matrix of n rows, n at least 1";
    case 2:
        return "give one column for each entry, and end the row starts with the number of entries";
    case 3:
        return "take a coarser model";
    case 4:
        return "let the row starts rise";
    case 5:
        return "count columns from 0 to n - 1";
    case 6:
        return "give finite entries, and to a join entries whose sum is finite";
    case 7:
        return "give n masses for a matrix of n rows";
    case 8:
        return "give finite masses above 0";
    case 9:
        return "leave out the entries before the first row, and let the row starts begin with 0";
    case 10:
        return "take other units, in which the entries are lower or the masses higher";
    case 11:
        return "take other units, in which the entries are lower or the masses higher";
    case 12:
        return "give w_0 and at most three more";
    case 13:
        return "ask for phi_0 to phi_3";
    case 14:
        return "give a finite time of 0 or more";
    case 15:
        return "lend n numbers, for a batch (p + 1) * n";
    case 16:
        return "give n numbers in each vector for a matrix of n rows; to a paused run rows and vectors as at its start, to stages just those they count";
    case 17:
        return "give finite vectors";
    case 18:
        return "take 1e-10, say";
    case 19:
        return "allow at least one; 100,000 will do for most jobs";
    case 20:
        return "take an m of at most 128 (40, say) and a limit of at most 1,000,000";
    case 21:
        return "shorten tau, or scale all vectors down: the answer scales with them";
    case 22:
        return "scale all vectors up (the answer scales with them), or give 0 for such numbers";
    case 24:
        return "shorten tau, or check its units";
    case 25:
        return "raise the highest degree if it is low, shorten tau, check its units, or take the Krylov solver";
    case 26:
        return "lend as many doubles as the size functions say";
    case 27:
        return "raise the limit or m (a higher m makes longer substeps), or take the Taylor solver, whose work is known beforehand";
    case 28:
        return "take another m (60, say; a lower one may do too), or the Taylor solver; tol is seldom the reason";
    case 29:
        return "shorten tau, check its units, or take the Taylor solver";
    case 30:
        return "lend n + 1 row starts, and a column and an entry for each entry of the matrix";
    case 31:
        return "take the field that the run left, or start another one";
    case 32:
        return "let one of them end, or take a second unit";
    case 33:
        return "take 30, or a lower one if high degrees lose digits: 25 costs about 1.2 times the products of 30, 20 about 1.6 times";
    case 34:
        return "model both over the same rows, a row without entries for each that one lacks";
    case 35:
        return "order the entries of each row by column, in barrel and mount, and add up those that repeat";
    case 36:
        return "lend n + 1 row starts, and columns and entries for every place that barrel or mount holds";
    case 37:
        return "give 1 to 64 stages, and a number for each stage in every list; a longer schedule goes on from the field of the one before";
    case 38:
        return "take a window of 1 to 1,024 records, and for the node a row of the matrix";
    case 39:
        return "give 1 to 100,000 records, each with a duration and a level; a longer log goes on from the field of the one before";
    case 40:
        return "lend as many temperatures, largest and smallest as there are records";
    default:
        return "check that header and library belong together";
    }
}

#endif
