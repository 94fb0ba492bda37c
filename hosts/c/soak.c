/* Two bodies of 8 J/K, joined by 0.5 W/K; the second loses 0.1 W/K to the room. Both start at 20 K above it, and 2 W heat the first. */
#include "hazhendu.h"

#include <stdio.h>

int main(void)
{
    static const uint32_t starts[] = {0, 2, 4}, cols[] = {0, 1, 0, 1};
    static const double vals[] = {0.5, -0.5, -0.5, 0.6}, mass[] = {8, 8}, w[] = {20, 20, 2.0 / 8, 0};
    static double out[2], work[4096];
    const struct hazhendu_matrix a = {2, 4, starts, cols, vals, mass};
    const struct hazhendu_options options = hazhendu_by_krylov();
    struct hazhendu_report report;

    if (hazhendu_work(&a, 2, &options) > sizeof work / sizeof *work)
        return 1;
    uint32_t number = hazhendu_soak(&a, 60, 2, w, &options, out, work, sizeof work / sizeof *work, &report);
    if (number != HAZHENDU_ACCEPTED) {
        fprintf(stderr, "refused (%u): %s; %s\n", number, hazhendu_refusal_text(number), hazhendu_refusal_change(number));
        return 1;
    }
    printf("%.17g K and %.17g K after 60 s, %zu substeps, estimated error %.1g\n", out[0], out[1], report.substeps, report.value);
    return 0;
}
