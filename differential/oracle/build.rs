//! Names the files of the Rust original as modules of this crate. Package `oracle` takes every file where it lies, but for
//! general_operator.rs, a copy below OUT_DIR in which [`VISIBLE`] is replaced. Package `capped` takes expmv.rs too as a copy, in
//! which [`DEGREE`] is replaced; package `transcribed` takes these and three more as copies, in which the lines of [`TRANSCRIBED`],
//! [`PROBES`] and [`WEIGHTS`] are replaced and to one of which [`loop_from`] adds a function. SEMIFLOW gives the folder of the sources, by default `../shared/docs/src` beside the repository.

use std::{env, fs, path::Path};

const FILES: [&str; 14] = [
    "csr_shift",
    "dense_la",
    "error",
    "expmv",
    "float",
    "general_operator",
    "generator_action",
    "phi_action",
    "phi_action_helpers",
    "phi_krylov",
    "phi_krylov_arnoldi",
    "phi_shift",
    "pow2",
    "scratch",
];

/// Document 02, N3: the driver calls `transpose_csr`, which is private.
const VISIBLE: (&str, &str, &str) = ("general_operator", "\nfn transpose_csr<", "\npub(crate) fn transpose_csr<");

/// Document 02, N5: the driver multiplies the weights, which `weighted_columns` gives, by the eta of the start.
const WEIGHTS: (&str, &str, &str) = ("phi_action", "\nfn weighted_columns<", "\npub(crate) fn weighted_columns<");

/// Document 02, N5: the loop of phi_krylov_arnoldi.rs, `substeps`, stands in its copy a second time as `substeps_from`, which starts
/// from a time and a proposed step and is ended after one substep by `max_substeps`. Where the loop's text begins and ends, and what
/// is replaced in it.
const LOOP: (&str, &str) = ("/// The substep loop of [`expv`].\n", "/// Try `min(t_new, remaining)`");
const FROM: [(&str, &str); 5] = [
    ("fn substeps<", "pub(crate) fn substeps_from<"),
    ("    rep: &mut KrylovPhiReport,\n)", "    rep: &mut KrylovPhiReport,\n    control: &mut (f64, f64),\n)"),
    ("crate::probe::first(", "core::convert::identity("),
    ("    while elapsed < 1.0 {\n", "    (elapsed, next_step) = *control;\n    while rep.substeps < max_substeps || elapsed < 1.0 {\n"),
    ("        beta = norm2(y);\n", "        *control = (elapsed, next_step);\n        beta = norm2(y);\n"),
];

/// Document 02, N7: `M_MAX` is set to the cap of the job.
const DEGREE: (&str, &str, &str) = ("expmv", "        if m > M_MAX {", "        if m > crate::probe::degree() {");

/// Document 01's last three items: file, the text that stands there exactly once, its replacement.
const TRANSCRIBED: [(&str, &str, &str); 6] = [
    (
        "phi_action_helpers",
        "(plan.mu / from_f64::<F>(f64::from(plan.s))).libm_exp()",
        "crate::transcribed::exp(plan.mu / from_f64::<F>(f64::from(plan.s)))",
    ),
    (
        "phi_krylov_arnoldi",
        "let s = libm::pow(10.0, libm::floor(libm::log10(x)) - 1.0);\n    libm::ceil(x / s) * s",
        "crate::transcribed::round2(x)",
    ),
    (
        "phi_krylov_arnoldi",
        "libm::pow((mf + 1.0) / core::f64::consts::E, mf + 1.0)",
        "crate::transcribed::power((mf + 1.0) / core::f64::consts::E, m + 1)",
    ),
    (
        "phi_krylov_arnoldi",
        "libm::pow(fact * tol / (4.0 * beta * anorm.max(1.0)), 1.0 / mf)",
        "crate::transcribed::root(fact * tol / (4.0 * beta * anorm.max(1.0)), m)",
    ),
    // the next two are one text, once in `substeps` and once in `trial_steps`
    (
        "phi_krylov_arnoldi",
        "            round2(GAMMA * t_step * libm::pow(t_step * tol / err, xm))\n        } else {",
        "            crate::probe::proposal(round2(GAMMA * t_step * crate::transcribed::root_by(t_step * tol / err, xm)))\n        } else {",
    ),
    (
        "phi_krylov_arnoldi",
        "        t_step = round2(GAMMA * t_step * libm::pow(t_step * tol / err, xm));",
        "        t_step = crate::probe::retry(round2(GAMMA * t_step * crate::transcribed::root_by(t_step * tol / err, xm)));",
    ),
];

/// Which paths a run takes, what it costs, and each step that it accepts; no value is changed.
const PROBES: [(&str, &str, &str); 10] = [
    ("phi_krylov_arnoldi", "        (phi2, one_m)\n", "        { crate::probe::hit(\"error: phi2\"); (phi2, one_m) }\n"),
    (
        "phi_krylov_arnoldi",
        "        ((phi1 * phi2) / (phi1 - phi2), one_m)\n",
        "        { crate::probe::hit(\"error: middle\"); ((phi1 * phi2) / (phi1 - phi2), one_m) }\n",
    ),
    ("phi_krylov_arnoldi", "        (phi1, one_m1)\n", "        { crate::probe::hit(\"error: phi1\"); (phi1, one_m1) }\n"),
    (
        "phi_krylov_arnoldi",
        "            return Basis {\n",
        "            crate::probe::hit(if j + 1 == y.len() { \"breakdown: whole space\" } else { \"breakdown: within tol\" });\n            return Basis {\n",
    ),
    (
        "phi_krylov_arnoldi",
        "    let mut next_step = round2(",
        "    let mut next_step = crate::probe::first(",
    ),
    ("phi_krylov_arnoldi", "            1.0 - elapsed\n", "            { crate::probe::hit(\"error 0\"); 1.0 - elapsed }\n"),
    (
        "phi_krylov_arnoldi",
        "        if beta == 0.0 {\n",
        "        if beta == 0.0 {\n            crate::probe::hit(if elapsed < 1.0 { \"norm 0 before time 1\" } else { \"norm 0 at time 1\" });\n",
    ),
    (
        "phi_krylov_arnoldi",
        "    for _ in 0..s {\n        w.copy_from_slice(&y);",
        "    for _ in 0..s {\n        crate::probe::spend(u64::from(deg) * (mx * mx) as u64);\n        w.copy_from_slice(&y);",
    ),
    ("phi_krylov_arnoldi", "        elapsed += t_step;\n", "        crate::probe::step(t_step);\n        elapsed += t_step;\n"),
    ("phi_krylov_arnoldi", "        rep.rejected += 1;\n", "        crate::probe::hit(\"rejection\");\n        rep.rejected += 1;\n"),
];

fn main() {
    let package = env::var("CARGO_PKG_NAME").unwrap();
    let transcribe = package == "transcribed";
    let sources = env::var("SEMIFLOW").unwrap_or_else(|_| concat!(env!("CARGO_MANIFEST_DIR"), "/../../../shared/docs/src").into());
    let sources = Path::new(&sources).join("crates/semiflow/src");
    let out = env::var("OUT_DIR").unwrap();
    let capped = (package != "oracle").then_some(DEGREE);
    let mut replaced: Vec<_> = [VISIBLE].into_iter().chain(capped).collect();
    if transcribe {
        replaced.extend([WEIGHTS].into_iter().chain(TRANSCRIBED).chain(PROBES));
    }
    let mut modules = String::new();
    for name in FILES {
        let mut path = sources.join(name).with_extension("rs");
        path = path.canonicalize().unwrap_or_else(|e| panic!("{}: {e}; give the sources' folder as SEMIFLOW", path.display()));
        println!("cargo:rerun-if-changed={}", path.display());
        if replaced.iter().any(|r| r.0 == name) {
            let mut text = copy(name, fs::read_to_string(&path).unwrap(), &replaced);
            if transcribe && name == "phi_krylov_arnoldi" {
                text += &loop_from(&text);
            }
            path = Path::new(&out).join(name).with_extension("rs");
            fs::write(&path, text).unwrap();
        }
        modules += &format!("#[path = {path:?}]\npub mod {name};\n");
    }
    fs::write(Path::new(&out).join("modules.rs"), modules).unwrap();
    println!("cargo:rerun-if-env-changed=SEMIFLOW");
    println!("cargo:rerun-if-changed=build.rs");
    println!("cargo:rustc-check-cfg=cfg(transcribed)");
    if transcribe {
        println!("cargo:rustc-cfg=transcribed");
    }
}

/// `text` with every replacement of its file made.
fn copy(name: &str, mut text: String, replaced: &[(&str, &str, &str)]) -> String {
    for &(file, old, new) in replaced {
        if file == name {
            assert_eq!(text.matches(old).count(), 1, "{file}: {old}");
            text = text.replace(old, new);
        }
    }
    assert!(!text.contains("libm::pow") && !text.contains("libm_exp"), "{name}: a power or exponential is left");
    text
}

/// The loop of substeps from a state.
fn loop_from(text: &str) -> String {
    let find = |part: &str| text.find(part).unwrap_or_else(|| panic!("no {part}"));
    let mut text = text[find(LOOP.0) + LOOP.0.len()..find(LOOP.1)].to_string();
    for (old, new) in FROM {
        assert_eq!(text.matches(old).count(), 1, "{old}");
        text = text.replace(old, new);
    }
    format!("\n#[allow(unused_assignments)]\n{text}")
}
