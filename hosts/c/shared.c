/* What the header has as inline functions, for languages that call libhazhendu.so and do not read it. */
#include "hazhendu.h"

const char *hazhendu_shared_text(uint32_t number);
const char *hazhendu_shared_value(uint32_t number);
const char *hazhendu_shared_change(uint32_t number);
uint32_t hazhendu_shared_enter(void);
void hazhendu_shared_leave(uint32_t saved);
bool hazhendu_shared_choose(size_t n, size_t entries, uint32_t number, uint64_t applications);
size_t hazhendu_shared_other_m(size_t i);

const char *hazhendu_shared_text(uint32_t number)
{
    return hazhendu_refusal_text(number);
}

const char *hazhendu_shared_value(uint32_t number)
{
    return hazhendu_refusal_value(number);
}

const char *hazhendu_shared_change(uint32_t number)
{
    return hazhendu_refusal_change(number);
}

uint32_t hazhendu_shared_enter(void)
{
    return hazhendu_enter();
}

void hazhendu_shared_leave(uint32_t saved)
{
    hazhendu_leave(saved);
}

/* Whether Krylov is to be taken, by the number that the plan was answered with and its applications. */
bool hazhendu_shared_choose(size_t n, size_t entries, uint32_t number, uint64_t applications)
{
    struct hazhendu_matrix a = {n, entries, NULL, NULL, NULL, NULL};
    struct hazhendu_report plan = hazhendu_no_report();
    plan.applications = applications;
    return hazhendu_choose(&a, number, &plan).krylov;
}

/* The m to take after 28, from i = 0 on; 0 behind the last. */
size_t hazhendu_shared_other_m(size_t i)
{
    static const size_t others[] = HAZHENDU_OTHER_M;
    return i < sizeof others / sizeof *others ? others[i] : 0;
}
