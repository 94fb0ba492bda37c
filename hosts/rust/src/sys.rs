//! The exported functions as they are linked. hosts/c/hazhendu.h describes each parameter and what the caller owes.

macro_rules! exported {
    ($name:ident, $($parameter:ident: $type:ty),+) => {
        extern "C" {
            /// A slice is a pointer and a length; the result is 0 or the number of a refusal.
            pub fn $name(
                n: usize,
                starts: *const u32,
                starts_len: usize,
                cols: *const u32,
                cols_len: usize,
                vals: *const f64,
                vals_len: usize,
                with_mass: bool,
                mass: *const f64,
                mass_len: usize,
                $($parameter: $type,)+
            ) -> u32;
        }
    };
}

macro_rules! exported_taylor {
    ($name:ident, $index:ident, $w:ident, $w_len:ident) => {
        exported!($name, tau: f64, degree: u32, $index: usize, $w: *const f64, $w_len: usize, out: *mut f64, out_len: usize, work: *mut f64,
            work_len: usize, value: *mut f64, s: *mut u32, plan_m: *mut u32, applications: *mut u64);
    };
}

exported!(hazhendu_check_generator, value: *mut f64, row: *mut usize);
exported!(hazhendu_taylor_plan, tau: f64, degree: u32, work: *mut f64, work_len: usize, value: *mut f64, s: *mut u32, plan_m: *mut u32,
    applications: *mut u64);
exported_taylor!(hazhendu_phi_combination, count, w, w_len);
exported_taylor!(hazhendu_phi_action, k, v, v_len);
exported_taylor!(hazhendu_phi_action_batched, p, v, v_len);
exported!(hazhendu_phi_combination_krylov, tau: f64, count: usize, w: *const f64, w_len: usize, tol: f64, m: usize,
    max_substeps: usize, out: *mut f64, out_len: usize, work: *mut f64, work_len: usize, value: *mut f64, substeps: *mut usize,
    matvecs: *mut usize, rejected: *mut usize, shortest: *mut f64, last: *mut f64);
exported!(hazhendu_combine, tau: f64, degree: u32, count: usize, w: *const f64, w_len: usize, krylov: bool, tol: f64, m: usize,
    max_substeps: usize, out: *mut f64, out_len: usize, work: *mut f64, work_len: usize, value: *mut f64, first: *mut u64,
    second: *mut u64, third: *mut u64, shortest: *mut f64, last: *mut f64);

exported!(hazhendu_krylov_start, tau: f64, count: usize, w: *const f64, w_len: usize, tol: f64, m: usize, max_substeps: usize,
    out: *mut f64, out_len: usize, work: *mut f64, work_len: usize, field: *mut f64, field_len: usize, numbers: *mut f64, numbers_len: usize,
    counts: *mut usize, counts_len: usize, value: *mut f64);
exported!(hazhendu_krylov_step, tau: f64, count: usize, w: *const f64, w_len: usize, with_tol: bool, tol: f64, out: *mut f64,
    out_len: usize, work: *mut f64, work_len: usize, field: *mut f64, field_len: usize, numbers: *mut f64, numbers_len: usize,
    counts: *mut usize, counts_len: usize, value: *mut f64);

extern "C" {
    pub fn hazhendu_rotation_clear(units: *mut f64, units_len: usize, queues: *mut usize, queues_len: usize) -> u32;
    /// 16 if no run waits.
    pub fn hazhendu_rotation_next(queues: *const usize, queues_len: usize) -> usize;
}
exported!(hazhendu_rotation_join, tau: f64, count: usize, w: *const f64, w_len: usize, tol: f64, m: usize, max_substeps: usize,
    out: *mut f64, out_len: usize, work: *mut f64, work_len: usize, field: *mut f64, field_len: usize, units: *mut f64, units_len: usize,
    queues: *mut usize, queues_len: usize, numbers: *mut f64, numbers_len: usize, counts: *mut usize, counts_len: usize, place: *mut usize,
    value: *mut f64);
exported!(hazhendu_rotation_turn, tau: f64, count: usize, w: *const f64, w_len: usize, with_tol: bool, tol: f64, out: *mut f64,
    out_len: usize, work: *mut f64, work_len: usize, field: *mut f64, field_len: usize, units: *mut f64, units_len: usize,
    queues: *mut usize, queues_len: usize, numbers: *mut f64, numbers_len: usize, counts: *mut usize, counts_len: usize, place: *mut usize,
    value: *mut f64);

exported!(hazhendu_stages, taus: *const f64, taus_len: usize, counts: *const usize, counts_len: usize, solvers: *const u32, solvers_len: usize,
    degrees: *const u32, degrees_len: usize, tols: *const f64, tols_len: usize, ms: *const usize, ms_len: usize, limits: *const usize,
    limits_len: usize, start: *const f64, start_len: usize, further: *const f64, further_len: usize, out: *mut f64, out_len: usize,
    work: *mut f64, work_len: usize, value: *mut f64, stage: *mut u32, applications: *mut u64, substeps: *mut u64, rejected: *mut u64);

exported!(hazhendu_ambient, durations: *const f64, durations_len: usize, levels: *const f64, levels_len: usize, field: *const f64,
    field_len: usize, load: *const f64, load_len: usize, window: usize, node: usize, out: *mut f64, out_len: usize, work: *mut f64,
    work_len: usize, temperatures: *mut f64, temperatures_len: usize, largest: *mut f64, largest_len: usize, smallest: *mut f64,
    smallest_len: usize, value: *mut f64, record: *mut u32);

macro_rules! exported_transposed {
    ($name:ident, $($parameter:ident: $type:ty),+) => {
        exported!($name, t_starts: *mut u32, t_starts_len: usize, t_cols: *mut u32, t_cols_len: usize, t_vals: *mut f64, t_vals_len: usize,
            $($parameter: $type),+);
    };
}

macro_rules! exported_taylor_transposed {
    ($name:ident, $index:ident, $w:ident, $w_len:ident) => {
        exported_transposed!($name, tau: f64, degree: u32, $index: usize, $w: *const f64, $w_len: usize, out: *mut f64, out_len: usize,
            work: *mut f64, work_len: usize, value: *mut f64, s: *mut u32, plan_m: *mut u32, applications: *mut u64);
    };
}

exported_transposed!(hazhendu_check_transposed, value: *mut f64, row: *mut usize);
exported_taylor_transposed!(hazhendu_phi_combination_transposed, count, w, w_len);
exported_taylor_transposed!(hazhendu_phi_action_transposed, k, v, v_len);
exported_taylor_transposed!(hazhendu_phi_action_batched_transposed, p, v, v_len);
exported_transposed!(hazhendu_phi_combination_krylov_transposed, tau: f64, count: usize, w: *const f64, w_len: usize, tol: f64, m: usize,
    max_substeps: usize, out: *mut f64, out_len: usize, work: *mut f64, work_len: usize, value: *mut f64, substeps: *mut usize,
    matvecs: *mut usize, rejected: *mut usize, shortest: *mut f64, last: *mut f64);

extern "C" {
    /// Barrel and mount, each without a mass, then the slices of the result and what is told.
    pub fn hazhendu_join(
        n_a: usize,
        starts_a: *const u32,
        starts_a_len: usize,
        cols_a: *const u32,
        cols_a_len: usize,
        vals_a: *const f64,
        vals_a_len: usize,
        n_b: usize,
        starts_b: *const u32,
        starts_b_len: usize,
        cols_b: *const u32,
        cols_b_len: usize,
        vals_b: *const f64,
        vals_b_len: usize,
        starts: *mut u32,
        starts_len: usize,
        cols: *mut u32,
        cols_len: usize,
        vals: *mut f64,
        vals_len: usize,
        value: *mut f64,
        entries: *mut usize,
    ) -> u32;
}
