//! What the command leaves in files, pipes and plots.

use std::fs;
use std::path::{Path, PathBuf};
use std::process::{Command, Output, Stdio};

const FILES: &str = concat!(env!("CARGO_MANIFEST_DIR"), "/cases/files");

fn soak(words: &str) -> Command {
    let mut command = Command::new(env!("CARGO_BIN_EXE_soak"));
    command.current_dir(FILES).args(words.split_whitespace());
    command
}

fn run(words: &str) -> Output {
    soak(words).output().unwrap()
}

/// A path of its own for each test.
fn scratch(name: &str) -> PathBuf {
    let path = Path::new(env!("CARGO_TARGET_TMPDIR")).join(name);
    let _ = fs::remove_file(&path);
    path
}

#[test]
fn a_field_reads_back_as_a_vector() {
    let (field, again) = (scratch("field.txt"), scratch("again.txt"));
    let soaked = |tau: &str, vector: &str, to: &Path| run(&format!("integer.mtx --tau {tau} --vector {vector} --output {}", to.display()));
    assert!(soaked("1", "two.txt", &field).status.success());
    let first = fs::read_to_string(&field).unwrap();
    assert!(soaked("0", &field.display().to_string(), &again).status.success());
    assert_eq!(fs::read_to_string(&again).unwrap(), first);
    assert_eq!(first.lines().count(), 2);
}

#[test]
fn a_shorter_field_replaces_a_longer_file() {
    let field = scratch("longer.txt");
    fs::write(&field, "0\n".repeat(1000)).unwrap();
    assert!(run(&format!("integer.mtx --tau 1 --vector two.txt --output {}", field.display())).status.success());
    assert_eq!(fs::read_to_string(&field).unwrap().lines().count(), 2);
}

#[test]
fn a_refused_job_leaves_files_as_they_are() {
    let (old, new) = (scratch("old.txt"), scratch("new.svg"));
    fs::write(&old, "kept\n").unwrap();
    let output = run(&format!("integer.mtx --tau -1 --vector two.txt --output {} --plot {}", old.display(), new.display()));
    assert_eq!(output.status.code(), Some(14));
    assert!(output.stdout.is_empty());
    assert_eq!(fs::read_to_string(&old).unwrap(), "kept\n");
    assert!(!new.exists());
}

#[test]
fn a_joined_matrix_is_read_again() {
    let both = scratch("both.mtx");
    assert!(run(&format!("join rod.mtx mount.mtx --output {}", both.display())).status.success());
    let first = fs::read_to_string(&both).unwrap();
    assert_eq!(first.lines().count(), 2 + 24);
    assert!(run(&format!("{} --mass mass.txt --tau 60 --vector start.txt", both.display())).status.success());
    // A third part joined to it, not over the file itself; then a refusal, which leaves the file.
    assert_eq!(run(&format!("join {0} mount.mtx --output {0}", both.display())).status.code(), Some(64));
    let third = scratch("third.mtx");
    assert!(run(&format!("join {} mount.mtx --output {}", both.display(), third.display())).status.success());
    let second = fs::read_to_string(&third).unwrap();
    assert!(second.contains("\n2 2 1.5\n") && second.lines().count() == first.lines().count());
    assert_eq!(run(&format!("join {} mount-falls.mtx --output {}", both.display(), third.display())).status.code(), Some(35));
    assert_eq!(fs::read_to_string(&third).unwrap(), second);
    assert_eq!(fs::read_to_string(&both).unwrap(), first);
}

#[test]
fn what_is_read_is_not_written_over_by_another_name() {
    let (vector, hard, soft) = (scratch("read.txt"), scratch("hard.txt"), scratch("soft.txt"));
    fs::write(&vector, "1\n-2\n").unwrap();
    fs::hard_link(&vector, &hard).unwrap();
    std::os::unix::fs::symlink(&vector, &soft).unwrap();
    for name in [&vector, &hard, &soft] {
        for option in ["--output", "--plot"] {
            let output = run(&format!("integer.mtx --tau 1 --vector {} {option} {}", vector.display(), name.display()));
            assert_eq!(output.status.code(), Some(64));
            assert_eq!(fs::read_to_string(&vector).unwrap(), "1\n-2\n");
        }
    }
    // `rt ci` refuses a checkout with a link in it.
    fs::remove_file(&soft).unwrap();
}

#[test]
fn a_link_stays_a_link_and_a_file_keeps_its_permissions() {
    use std::os::unix::fs::{symlink, PermissionsExt};
    let (field, link) = (scratch("linked.txt"), scratch("link.txt"));
    fs::write(&field, "old\n").unwrap();
    fs::set_permissions(&field, fs::Permissions::from_mode(0o640)).unwrap();
    symlink(&field, &link).unwrap();
    assert!(run(&format!("integer.mtx --tau 1 --vector two.txt --output {}", link.display())).status.success());
    assert!(fs::symlink_metadata(&link).unwrap().is_symlink());
    assert_eq!(fs::read_to_string(&field).unwrap().lines().count(), 2);
    assert_eq!(fs::metadata(&field).unwrap().permissions().mode() & 0o777, 0o640);
    fs::remove_file(&link).unwrap();
}

/// Files in a folder of its own.
fn listed(folder: &Path) -> Vec<String> {
    fs::read_dir(folder).unwrap().map(|entry| entry.unwrap().file_name().to_string_lossy().into_owned()).collect()
}

fn folder(name: &str) -> PathBuf {
    let path = Path::new(env!("CARGO_TARGET_TMPDIR")).join(name);
    let _ = fs::remove_dir_all(&path);
    fs::create_dir(&path).unwrap();
    path
}

#[test]
fn the_state_of_a_refused_run_is_kept_under_another_name() {
    let folder = folder("state");
    let field = folder.join("field.txt");
    fs::write(&field, "kept\n").unwrap();
    let job = "rod.mtx --mass mass.txt --tau 600 --vector start.txt --solver krylov --m 3 --limit 2";
    let output = run(&format!("{job} --output {}", field.display()));
    assert_eq!(output.status.code(), Some(27));
    assert!(output.stdout.is_empty());
    assert_eq!(fs::read_to_string(&field).unwrap(), "kept\n");
    let state = folder.join("field.txt.state");
    let text = fs::read_to_string(&state).unwrap();
    assert!(text.starts_with("# not the field at tau 600") && text.lines().count() == 9);
    assert!(String::from_utf8_lossy(&output.stderr).contains(&format!("is in {}", state.display())));
    assert!(run(&format!("rod.mtx --mass mass.txt --tau 1 --vector {}", state.display())).status.success());
}

#[test]
fn a_run_that_is_stopped_leaves_nothing() {
    let folder = folder("stopped");
    let field = folder.join("field.txt");
    fs::write(&field, "kept\n").unwrap();
    let words = format!("rod.mtx --tau 1e9 --vector start.txt --output {0} --plot {0}.svg", field.display());
    let mut child = soak(&words).stderr(Stdio::null()).spawn().unwrap();
    std::thread::sleep(std::time::Duration::from_millis(300));
    assert!(child.try_wait().unwrap().is_none(), "the run was to be long");
    child.kill().unwrap();
    child.wait().unwrap();
    assert_eq!(listed(&folder), ["field.txt"]);
    assert_eq!(fs::read_to_string(&field).unwrap(), "kept\n");
}

const STEPS: &str = "rod.mtx --mass mass.txt --tau 600 --vector start.txt --vector heating.txt --solver krylov --m 4";

#[test]
fn by_substeps_the_bits_are_the_same() {
    for more in ["", "--transpose", "--limit 3", "--transpose --limit 3"] {
        let whole = run(&format!("{STEPS} {more}"));
        let frames = folder("frames-none");
        let steps = run(&format!("{STEPS} {more} --every 1000000 --frames {}", frames.display()));
        assert_eq!(steps.stdout, whole.stdout);
        assert_eq!((steps.stderr, steps.status), (whole.stderr, whole.status));
        assert!(listed(&frames).is_empty());
        let same = run(&format!("{STEPS} {more} --tighten 0:1e-10"));
        assert_eq!((same.stdout, same.status), (steps.stdout, steps.status));
    }
}

#[test]
fn frames_are_the_field_on_the_way() {
    let frames = folder("frames").join("new");
    let plot = scratch("frames.svg");
    let output = run(&format!("{STEPS} --every 100 --frames {} --plot {}", frames.display(), plot.display()));
    assert!(output.status.success());
    let mut names = listed(&frames);
    names.sort();
    assert_eq!(names, ["field-0000100.svg", "field-0000100.txt", "field-0000200.svg", "field-0000200.txt"]);
    let text = fs::read_to_string(frames.join("field-0000200.txt")).unwrap();
    assert!(text.starts_with("# the field after 200 substeps, at 0.") && text.lines().count() == 9);
    // What a run with that limit leaves.
    let stopped = String::from_utf8(run(&format!("{STEPS} --limit 200")).stdout).unwrap();
    assert!(text.lines().skip(1).eq(stopped.lines().skip(1)));
    let picture = fs::read_to_string(frames.join("field-0000100.svg")).unwrap();
    assert!(picture.starts_with("<svg ") && picture.contains(" % of tau"));
    // A frame is a vector again; and a folder with frames is not written to.
    let again = frames.join("field-0000100.txt").display().to_string();
    assert!(run(&format!("rod.mtx --tau 1 --vector {again}")).status.success());
    let output = run(&format!("{STEPS} --every 1 --frames {}", frames.display()));
    assert_eq!(output.status.code(), Some(74));
    assert_eq!(listed(&frames).len(), 4);
}

#[test]
fn what_was_tightened_is_reported() {
    let reports = ["tightened.html", "tightened.json"].map(scratch);
    let [html, json] = reports.clone().map(|path| path.display().to_string());
    assert!(run(&format!("{STEPS} --tol 1e-6 --tighten 0.5:1e-9 --report {html} --report {json}")).status.success());
    let [html, json] = reports.map(|path| fs::read_to_string(path).unwrap());
    assert!(html.contains("tol 1e-9 from 0.5 of tau on") && json.contains("\"tightened\":[{\"share\":0.5,\n\"tol\":1e-9}]"));
}

/// Not on a terminal either: a run by substeps hears Ctrl-C.
#[test]
fn a_run_that_ctrl_c_stops_leaves_a_paused_state() {
    let folder = folder("paused");
    let (field, html, json) = (folder.join("field.txt"), folder.join("page.html"), folder.join("page.json"));
    fs::write(&field, "kept\n").unwrap();
    let job = "rod.mtx --mass mass.txt --tau 6000 --vector start.txt --solver krylov --m 2 --tol 1e-13 --limit 1000000 --tighten 0:1e-13";
    let words = format!("{job} --output {} --report {} --report {}", field.display(), html.display(), json.display());
    let child = soak(&words).stdout(Stdio::piped()).stderr(Stdio::piped()).spawn().unwrap();
    std::thread::sleep(std::time::Duration::from_millis(300));
    assert!(Command::new("kill").args(["-INT", &child.id().to_string()]).status().unwrap().success());
    let output = child.wait_with_output().unwrap();
    let told = String::from_utf8_lossy(&output.stderr).into_owned();
    assert_eq!(output.status.code(), Some(81), "{told}");
    assert!(told.contains("soak: stopped by Ctrl-C at ") && told.contains("a paused state"));
    assert!(output.stdout.is_empty() && fs::read_to_string(&field).unwrap() == "kept\n");
    let state = folder.join("field.txt.state");
    let text = fs::read_to_string(&state).unwrap();
    assert!(text.starts_with("# not the field at tau 6000: the state of a run paused at ") && text.lines().count() == 9);
    // What it says of going on can be done.
    let rest = told.lines().find_map(|line| line.trim().strip_prefix("to go on: it as the first --vector, and --tau ")).unwrap();
    let on = format!("rod.mtx --mass mass.txt --tau {rest} --vector {} --solver krylov", state.display());
    assert!(run(&on).status.success());
    let [html, json] = [html, json].map(|path| fs::read_to_string(path).unwrap());
    assert!(html.contains("Stopped by Ctrl-C") && json.contains("\"status\":81") && json.contains("\"stopped_at\":"));
}

#[test]
fn every_stage_has_its_field_and_its_curve() {
    let (fields, plot, one) = (folder("every-stage"), scratch("stages.svg"), scratch("one-call.txt"));
    fs::remove_dir_all(&fields).unwrap();
    let schedule = "stages rod.mtx --mass mass.txt --start start.txt --schedule stages.csv";
    assert!(run(&format!("{schedule} --output {}", one.display())).status.success());
    let words = format!("{schedule} --every-stage {} --plot {} --output -", fields.display(), plot.display());
    let output = run(&words);
    assert!(output.status.success());
    let mut names = listed(&fields);
    names.sort();
    assert_eq!(names, ["stage-01.txt", "stage-02.txt", "stage-03.txt"]);
    let field = |i: usize| fs::read_to_string(fields.join(format!("stage-0{i}.txt"))).unwrap();
    // One call for each stage, to the bits of the one call for all.
    let last = fs::read_to_string(&one).unwrap();
    assert_eq!(field(3), format!("# the field after stage 3 (cool-down), tau 30\n{last}"));
    assert_eq!(String::from_utf8_lossy(&output.stdout), last);
    // The first stage is a soak of its own, and its field is w_0 of the second.
    let soaked = run("rod.mtx --mass mass.txt --tau 60 --vector start.txt --vector heating.txt");
    assert_eq!(field(1), format!("# the field after stage 1 (warm-up), tau 60\n{}", String::from_utf8_lossy(&soaked.stdout)));
    let first = fields.join("stage-01.txt");
    let next = format!("rod.mtx --mass mass.txt --tau 600 --vector {} --vector half.txt --vector zero.txt", first.display());
    let soaked = run(&format!("{next} --solver krylov --m 4 --tol 1e-8"));
    assert_eq!(field(2), format!("# the field after stage 2 (hold), tau 600\n{}", String::from_utf8_lossy(&soaked.stdout)));
    let svg = fs::read_to_string(&plot).unwrap();
    for name in ["start", "stage 1 (warm-up)", "stage 2 (hold)", "stage 3 (cool-down)"] {
        assert!(svg.contains(&format!(">{name}</text>")), "{name}");
    }
    // The folder is not empty any more.
    let again = run(&words);
    assert!(again.status.code() == Some(74) && String::from_utf8_lossy(&again.stderr).contains("is not empty"));
}

const LOG: &str = "log rod.mtx --mass mass.txt --field start.txt --load losses.txt --node 8";

#[test]
fn a_log_has_its_table_its_field_and_its_picture() {
    let (table, field, plot) = (scratch("log-table.csv"), scratch("log-field.txt"), scratch("log.svg"));
    let files = format!("--results {} --output {} --plot {}", table.display(), field.display(), plot.display());
    let output = run(&format!("{LOG} --records log.csv --window 2 {files}"));
    assert!(output.status.success() && output.stdout.is_empty());
    let rows = fs::read_to_string(&table).unwrap();
    assert!(rows.starts_with("duration,level,temperature,largest,smallest\n600,18,") && rows.lines().count() == 6);
    // Row 8 of the field is the last temperature, and the first record is a soak of its own.
    let last = fs::read_to_string(&field).unwrap().lines().last().unwrap().to_owned();
    assert_eq!(rows.lines().last().unwrap().split(',').nth(2), Some(last.as_str()));
    let load = scratch("losses-18.txt");
    fs::write(&load, "0\n".repeat(7) + &(0.0125 * 18.0).to_string()).unwrap();
    let soaked = run(&format!("rod.mtx --mass mass.txt --tau 600 --vector start.txt --vector {}", load.display()));
    let first = String::from_utf8_lossy(&soaked.stdout).lines().last().unwrap().to_owned();
    assert_eq!(rows.lines().nth(1).unwrap().split(',').nth(2), Some(first.as_str()));
    let svg = fs::read_to_string(&plot).unwrap();
    for name in ["temperature of row 8", "smallest to largest of", "the last 2 records", "ambient level", "time, min"] {
        assert!(svg.contains(&format!(">{name}</text>")), "{name}");
    }
    // The table is a table of records again, and gives itself.
    let again = run(&format!("{LOG} --records {} --window 2", table.display()));
    assert_eq!(String::from_utf8_lossy(&again.stdout), rows);
}

#[test]
fn a_refused_record_leaves_what_there_is() {
    let (table, field, plot) = (scratch("log-part.csv"), scratch("log-part.txt"), scratch("log-part.svg"));
    let files = format!("--results {} --output {} --plot {}", table.display(), field.display(), plot.display());
    let output = run(&format!("{LOG} --records log-negative.csv --window 2 {files}"));
    assert_eq!(output.status.code(), Some(14));
    let told = "record 3 (log-negative.csv:4) is refused by 14";
    assert!(fs::read_to_string(&table).unwrap().starts_with(&format!("# not the whole log: {told}\nduration,level,")));
    assert!(fs::read_to_string(&field).unwrap().starts_with(&format!("# not the field after the whole log: {told}\n")));
    assert!(fs::read_to_string(&plot).unwrap().contains(told));
    // At the first record nothing is written.
    let kept = scratch("log-kept.csv");
    fs::write(&kept, "kept\n").unwrap();
    let (none, picture) = (scratch("log-none.txt"), scratch("log-none.svg"));
    let files = format!("--results {} --output {} --plot {}", kept.display(), none.display(), picture.display());
    assert_eq!(run(&format!("{LOG} --records log-first.csv --window 2 {files}")).status.code(), Some(14));
    assert!(fs::read_to_string(&kept).unwrap() == "kept\n" && !none.exists() && !picture.exists());
}

#[test]
fn a_log_of_more_records_than_are_taken_is_refused() {
    let records = scratch("log-100001.csv");
    fs::write(&records, "duration,level\n".to_owned() + &"0,1\n".repeat(100_001)).unwrap();
    let output = run(&format!("{LOG} --records {} --window 2", records.display()));
    assert_eq!(output.status.code(), Some(39));
    assert!(String::from_utf8_lossy(&output.stderr).contains("log-100001.csv has 100001 records"));
}

#[test]
fn a_plot_goes_to_the_standard_output() {
    let field = scratch("beside-plot.txt");
    let output = run(&format!("integer.mtx --tau 1 --vector two.txt --output {} --plot -", field.display()));
    assert!(output.status.success() && output.stdout.starts_with(b"<svg "));
}

#[test]
fn a_closed_pipe_is_no_news() {
    let mut child = soak("--help").stdout(Stdio::piped()).stderr(Stdio::piped()).spawn().unwrap();
    drop(child.stdout.take());
    let output = child.wait_with_output().unwrap();
    assert!(output.stderr.is_empty());
    assert!([Some(0), Some(74)].contains(&output.status.code()));
}

#[test]
fn a_plot_has_axes_labels_and_a_curve() {
    let plot = scratch("plot<&>.svg");
    let words = format!("rod.mtx --mass mass.txt --tau 60 --vector start.txt --plot {}", plot.display());
    assert!(run(&words).status.success());
    let text = fs::read_to_string(&plot).unwrap();
    assert!(text.starts_with("<svg ") && text.ends_with("</svg>\n"));
    for part in [">row</text>", ">temperature, K</text>", "files/rod.mtx, tau 60 s, taylor", ">18</text>", "#a50026"] {
        assert!(text.contains(part), "no {part}");
    }
}

#[test]
fn a_map_has_a_scale_and_the_parts() {
    let (points, outline, plot) = (scratch("rz.txt"), scratch("parts.txt"), scratch("map.svg"));
    let boxes: String = (0..8).map(|i| format!("0 5 {} {}\n", 10 * i, 10 * i + 10)).collect();
    fs::write(&points, format!("# r0/mm r1/mm z0/mm z1/mm\n{boxes}")).unwrap();
    fs::write(&outline, "0 5 0 40 cold <end>\n0 5 40 80 warm end\n4 5 10 12 a sensor & its wire\n").unwrap();
    let job = "rod.mtx --mass mass.txt --tau 60 --vector start.txt --title Rod --unit °C";
    let words = format!("{job} --points {} --outline {} --plot {}", points.display(), outline.display(), plot.display());
    assert!(run(&words).status.success());
    let text = fs::read_to_string(&plot).unwrap();
    for part in [
        ">Rod<",
        ">z, mm<",
        ">r, mm<",
        ">temperature, °C<",
        ">cold &lt;end&gt;<",
        ">warm end<",
        ">1: a sensor &amp; its wire<",
        "stroke-dasharray",
    ] {
        assert!(text.contains(part), "no {part}");
    }
}

#[test]
fn a_job_has_a_page_and_lists_for_programs() {
    let reports = ["soaked.html", "soaked.json", "soaked.csv"].map(scratch);
    let [html, json, csv] = reports.clone().map(|path| path.display().to_string());
    let words = format!("rod.mtx --mass mass.txt --tau 60 --vector start.txt --report {html} --report {json} --report {csv}");
    let output = run(&words);
    assert!(output.status.success());
    let [html, json, csv] = reports.map(|path| fs::read_to_string(path).unwrap());
    let field = String::from_utf8(output.stdout).unwrap();
    assert_eq!(csv.lines().next(), Some("row,temperature"));
    assert!(csv.lines().skip(1).zip(field.lines()).enumerate().all(|(i, (row, value))| row == format!("{},{value}", i + 1)));
    assert!(json.contains(&format!("\"field\":[{}]", field.lines().collect::<Vec<_>>().join(","))));
    for part in ["<!DOCTYPE html>", "<svg ", "hottest", "mean, weighed by the mass", "sweeps", "rod.mtx --mass mass.txt", "8 rows"] {
        assert!(html.contains(part), "no {part}");
    }
    assert!(!html.contains("http://") || html.matches("http").count() == html.matches("http://www.w3.org/2000/svg").count());
}

#[test]
fn a_refused_job_has_a_page_too() {
    let reports = ["refused.html", "refused.json", "refused.csv"].map(scratch);
    let [html, json, csv] = reports.clone().map(|path| path.display().to_string());
    let words =
        format!("rod.mtx --tau 600 --vector start.txt --solver krylov --m 2 --limit 1 --report {html} --report {json} --report {csv}");
    assert_eq!(run(&words).status.code(), Some(27));
    let [html, json] = [&reports[0], &reports[1]].map(|path| fs::read_to_string(path).unwrap());
    assert!(html.contains("Refused: there is no field.") && html.contains("raise the limit"));
    assert!(json.contains("\"number\":27") && json.contains("\"status\":27"));
    assert!(!reports[2].exists());
}

#[test]
fn a_field_that_is_not_finite_is_written_drawn_and_told() {
    let (field, plot, json) = (scratch("nan.txt"), scratch("nan.svg"), scratch("nan.json"));
    let words =
        format!("turned.mtx --tau 1 --vector two.txt --output {} --plot {} --report {}", field.display(), plot.display(), json.display());
    assert_eq!(run(&words).status.code(), Some(80));
    assert_eq!(fs::read_to_string(&field).unwrap(), "NaN\nNaN\n");
    assert!(fs::read_to_string(&plot).unwrap().contains("no number of the field is finite"));
    let json = fs::read_to_string(&json).unwrap();
    assert!(json.contains("\"status\":80") && json.contains("\"field\":[null,null]") && json.contains("heat themselves"));
}

#[test]
fn a_name_that_is_no_text_is_a_name() {
    use std::os::unix::ffi::OsStrExt;
    let name = std::ffi::OsStr::from_bytes(b"\xff.mtx");
    let output = Command::new(env!("CARGO_BIN_EXE_soak")).arg(name).args(["--tau", "1"]).output().unwrap();
    assert_eq!(output.status.code(), Some(66));
}

#[test]
fn each_barrel_of_a_rotation_has_the_bits_of_its_soak_alone() {
    let fields = folder("rotation").join("new");
    let output = run(&format!("rotate barrels.csv --output {}", fields.display()));
    assert!(output.status.success());
    let alone = [
        ("rod", "rod.mtx --mass mass.txt --vector start.txt --vector heating.txt --tau 600 --tol 1e-8 --m 4"),
        ("short", "rod.mtx --mass mass.txt --vector start.txt --tau 60 --tol 1e-6 --m 3"),
        ("halves", "rod-halves.mtx --vector start.txt --tau 1"),
    ];
    for (name, words) in alone {
        let field = fs::read(fields.join(format!("{name}.txt"))).unwrap();
        assert_eq!(run(&format!("{words} --solver krylov")).stdout, field, "{name}");
    }
    assert_eq!(listed(&fields).len(), 3);
    assert_eq!(String::from_utf8(output.stdout).unwrap().lines().count(), 4);
}

#[test]
fn a_refused_barrel_leaves_its_state_and_the_others_their_fields() {
    let fields = folder("rotation-refused").join("new");
    let output = run(&format!("rotate barrels-refused.csv --output {}", fields.display()));
    assert_eq!(output.status.code(), Some(27));
    let mut names = listed(&fields);
    names.sort();
    assert_eq!(names, ["good.txt", "limited.txt.state", "zeros.txt"]);
    let state = fs::read_to_string(fields.join("limited.txt.state")).unwrap();
    assert!(state.starts_with("# not the field at tau 600: the state after the last accepted substep of a run refused by 27\n"));
    let alone = run("rod.mtx --mass mass.txt --vector start.txt --vector heating.txt --tau 600 --solver krylov --m 3 --limit 2");
    assert_eq!(String::from_utf8(alone.stdout).unwrap(), state);
}

/// The cells of a table, without its first line.
fn cells(table: &Path) -> Vec<Vec<f64>> {
    let text = fs::read_to_string(table).unwrap();
    text.lines().skip(1).map(|line| line.split(',').map(|cell| cell.parse().unwrap()).collect()).collect()
}

#[test]
fn a_series_has_the_start_and_each_substep() {
    let (field, table, curves, page) = (scratch("series.txt"), scratch("series.csv"), scratch("series.svg"), scratch("series.html"));
    let job = "rod.mtx --mass mass.txt --tau 1800 --vector start.txt --vector heating.txt --solver krylov --m 5 --tol 1e-5";
    let files = format!("--output {} --series {} --series {}", field.display(), table.display(), curves.display());
    let told = run(&format!("{job} {files} --node 8 --report {}", page.display()));
    assert!(told.status.success());
    let told = String::from_utf8(told.stderr).unwrap();
    let substeps: usize = told.strip_prefix("krylov: ").and_then(|rest| rest.split(' ').next()).unwrap().parse().unwrap();
    assert!(fs::read_to_string(&table).unwrap().starts_with("time,hottest,hottest row,coldest,coldest row,mean,row 8\n0,"));
    let moments = cells(&table);
    assert_eq!(moments.len(), substeps + 1);
    assert!(moments.windows(2).all(|pair| pair[0][0] < pair[1][0]));
    let last = moments.last().unwrap();
    let values: Vec<f64> = fs::read_to_string(&field).unwrap().lines().map(|line| line.parse().unwrap()).collect();
    assert_eq!((last[0], last[6]), (1800.0, values[7]));
    assert_eq!(last[1], values.iter().copied().fold(f64::MIN, f64::max));
    assert_eq!(last[3], values.iter().copied().fold(f64::MAX, f64::min));
    let drawn = fs::read_to_string(&curves).unwrap();
    assert!(["hottest row", "mean", "coldest row", "row 8", "time, min"].iter().all(|text| drawn.contains(text)));
    assert!(fs::read_to_string(&page).unwrap().contains("temperature over the time, after each substep"));
}

#[test]
fn a_series_of_stages_has_the_start_and_each_stage() {
    let (field, table, curves) = (scratch("staged.txt"), scratch("staged.csv"), scratch("staged.svg"));
    let job = "stages rod.mtx --mass mass.txt --start start.txt --schedule stages.csv";
    let files = format!("--output {} --series {} --series {}", field.display(), table.display(), curves.display());
    assert!(run(&format!("{job} {files}")).status.success());
    let moments = cells(&table);
    let stages = fs::read_to_string(Path::new(FILES).join("stages.csv"))
        .unwrap()
        .lines()
        .filter(|line| !line.is_empty() && !line.starts_with('#'))
        .count()
        - 1;
    assert_eq!((moments.len(), moments[0][0]), (stages + 1, 0.0));
    assert!(fs::read_to_string(&curves).unwrap().contains(&format!("{stages} stages: hottest")));
    // A refused schedule writes none.
    let refused = scratch("refused.csv");
    let job = "stages rod.mtx --mass mass.txt --start start.txt --schedule stages-negative.csv";
    assert_eq!(run(&format!("{job} --output {} --series {}", field.display(), refused.display())).status.code(), Some(14));
    assert!(!refused.exists());
}

#[test]
fn a_report_says_what_was_taken_and_why() {
    let report = scratch("taken.json");
    let stiff = "stiff-wide.mtx.gz --mass stiff-wide-mass.txt --vector stiff-wide-start.txt --vector stiff-wide-heating.txt --tau 7200";
    assert!(run(&format!("{stiff} --m 30 --tol 1e-8 --output /dev/null --report {}", report.display())).status.success());
    let text = fs::read_to_string(&report).unwrap();
    assert!(text.contains(r#""chosen":["auto: krylov with m 30: taylor would make "#), "{text}");
    assert!(text.contains(r#""auto: krylov with m 60: krylov with m 30 is refused by 28"]"#));
    assert!(text.contains(r#""name":"krylov""#) && text.contains(r#""m":60"#));
    assert!(run(&format!("rod.mtx --tau 1 --vector start.txt --solver taylor --output /dev/null --report {}", report.display()))
        .status
        .success());
    assert!(fs::read_to_string(&report).unwrap().contains(r#""chosen":[]"#));
}

/// A report of each kind.
fn reported(name: &str, words: &str) -> (Option<i32>, [Option<String>; 3]) {
    let reports = ["html", "json", "csv"].map(|kind| scratch(&format!("{name}.{kind}")));
    let named: String = reports.iter().map(|path| format!(" --report {}", path.display())).collect();
    let output = run(&format!("{words}{named} --output /dev/null"));
    (output.status.code(), reports.map(|path| fs::read_to_string(path).ok()))
}

fn has_all(text: &Option<String>, parts: &[&str]) {
    let text = text.as_deref().unwrap();
    parts.iter().for_each(|part| assert!(text.contains(part), "no {part} in {text}"));
}

const STAGES: &str = "stages rod.mtx --mass mass.txt --start start.txt --schedule";

#[test]
fn stages_have_a_page_and_lists_for_programs() {
    let (status, [html, json, csv]) = reported("staged", &format!("{STAGES} stages.csv --unit °C"));
    assert_eq!(status, Some(0));
    has_all(&html, &["<!DOCTYPE html>", "Soaked in 3 stages.", "Stage by stage", "2 (hold)", "temperature over the time", "°C", "8 rows"]);
    has_all(
        &html,
        &[">180</td>", ">910</td>", "krylov, tol 1e-8, m 4", "stages rod.mtx --mass mass.txt", "time of the call", "heating.txt"],
    );
    has_all(&json, &["\"status\":0", "\"refusal\":null", "\"name\":\"hold\"", "\"until\":690", "\"applications\":910", "\"field\":[23.69"]);
    has_all(&csv, &["row,start,stage 1 (warm-up),stage 2 (hold),stage 3 (cool-down)\n1,20,"]);
    // The last column is the field of the call alone.
    let field = String::from_utf8(run(&format!("{STAGES} stages.csv")).stdout).unwrap();
    let last: String = csv.unwrap().lines().skip(1).map(|line| line.rsplit(',').next().unwrap().to_owned() + "\n").collect();
    assert_eq!(last, field);
}

#[test]
fn a_page_of_stages_has_the_map() {
    let points = scratch("stages-rz.txt");
    let boxes: String = (0..8).map(|i| format!("0 5 {} {}\n", 10 * i, 10 * i + 10)).collect();
    fs::write(&points, format!("# r0/mm r1/mm z0/mm z1/mm\n{boxes}")).unwrap();
    let (_, [html, json, csv]) = reported("staged-map", &format!("{STAGES} stages.csv --points {}", points.display()));
    has_all(&html, &["temperature over z and r", "temperature along z", ">z, mm<"]);
    has_all(&json, &["\"axes\":[\"z, mm\",\"r, mm\"]", "\"places\":[[5,2.5]"]);
    has_all(&csv, &["row,z/mm,r/mm,start,stage 1 (warm-up)"]);
}

#[test]
fn refused_stages_have_a_page_of_those_before() {
    let (status, [html, json, csv]) = reported("staged-refused", &format!("{STAGES} stages-limit.csv"));
    assert_eq!((status, csv), (Some(27), None));
    has_all(
        &html,
        &["Refused at stage ", "there is no field after all stages", "raise the limit", "What follows is of the stage before it"],
    );
    has_all(&json, &["\"status\":27", "\"number\":27", "\"stage\":2", "the state after the last accepted substep of stage 2"]);
    let (status, [html, json, csv]) = reported("staged-none", &format!("{STAGES} stages-65.csv"));
    assert_eq!((status, csv), (Some(37), None));
    has_all(&html, &["Refused before any stage: there is no field."]);
    has_all(&json, &["\"status\":37", "\"stage\":0", "\"left\":null"]);
}

#[test]
fn a_log_has_a_page_and_lists_for_programs() {
    let (status, [html, json, csv]) = reported("logged", &format!("{LOG} --records log.csv --window 2"));
    assert_eq!(status, Some(0));
    has_all(
        &html,
        &["Soaked through 5 records.", "temperature of row 8 over the time, the band of the last 2 records", "5 records", "8 rows"],
    );
    has_all(&html, &["products with the generator, by the plans", "The field after record 5", "temperature over the rows", "log rod.mtx"]);
    has_all(&json, &["\"status\":0", "\"node\":8", "\"until\":[600,1200,1500,2100,2160]", "\"not_a_number_after\":null", "\"field\":["]);
    // As single soaks make them.
    let made = |tau: u32| {
        let told = run(&format!("rod.mtx --mass mass.txt --tau {tau} --vector start.txt --vector losses.txt --solver taylor"));
        let told = String::from_utf8(told.stderr).unwrap();
        told.trim().rsplit(", ").next().and_then(|last| last.split(' ').next()).unwrap().parse::<u64>().unwrap()
    };
    has_all(&json, &[&format!("\"applications\":{}", 3 * made(600) + made(300) + made(60))]);
    // Without record and time it is the table of results.
    let results = String::from_utf8(run(&format!("{LOG} --records log.csv --window 2")).stdout).unwrap();
    let without = |line: &str| line.splitn(3, ',').nth(2).unwrap().to_owned() + "\n";
    assert_eq!(csv.unwrap().lines().map(without).collect::<String>(), results);
}

#[test]
fn a_log_that_is_not_whole_has_a_page_of_what_there_is() {
    let (status, [html, json, csv]) = reported("log-refused", &format!("{LOG} --records log-negative.csv --window 2"));
    assert_eq!((status, csv), (Some(14), None));
    has_all(&html, &["Refused at record 3 of 4.", "give a finite time of 0 or more", "What follows is of the 2 records before it."]);
    has_all(&json, &["\"status\":14", "\"record\":3", "\"until\":[600,660]"]);
    let nan = "log difference.mtx --field three-zeros.txt --load large-load.txt --records log-nan.csv --node 1 --window 2";
    let (status, [html, json, csv]) = reported("log-not-a-number", nan);
    assert_eq!((status, csv), (Some(82), None));
    has_all(&html, &["Not a number after record 3 of 3.", "what to change", "not finite"]);
    has_all(&json, &["\"status\":82", "\"not_a_number_after\":3", "\"refusal\":null"]);
    let (status, [html, json, _]) = reported("log-none", &format!("{LOG} --records log-none.csv --window 2"));
    assert_eq!(status, Some(39));
    has_all(&html, &["Refused before any record: there is no result."]);
    has_all(&json, &["\"status\":39", "\"temperatures\":[]"]);
}

#[test]
fn a_plan_is_what_the_run_takes_transposed_too() {
    for (mass, transposed) in [("mass.txt", ""), ("mass-rising.txt", ""), ("mass.txt", "--transpose"), ("mass-rising.txt", "--transpose")] {
        let model = format!("rod.mtx --mass {mass} --tau 600 {transposed}");
        let planned = String::from_utf8(run(&format!("plan {model}")).stdout).unwrap();
        let told = String::from_utf8(run(&format!("{model} --vector start.txt --vector heating.txt --solver taylor")).stderr).unwrap();
        assert_eq!(planned.lines().next(), told.lines().next(), "{model}");
    }
}
