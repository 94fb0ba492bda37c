//! Several barrels on one unit (document 02, N6): random histories put to the proved library, and to a queue of the driver's own over each
//! run alone. See ../README.md.
//!
//! usage: rotation [SEED [HISTORIES]], by default 1 and 20,000. Status 1 if an answer differs, or if a fault put into the queue is not found.

#[allow(dead_code)]
#[path = "../../src/generate.rs"]
mod generate;
mod history;
#[allow(dead_code)]
#[path = "../../src/random.rs"]
mod random;
mod reference;

use std::collections::BTreeMap;
use std::process::ExitCode;

use jobs::paused::Run;
use jobs::rotation::{Unit, UnitLeft, PLACES};
use jobs::Job;
use random::Random;
use reference::{Asked, Fault, Queue, FAULTS};

/// Barrels of a history.
const BARRELS: usize = 20;
/// Histories in which a fault has to be found.
const TRIAL: usize = 400;
/// How many differences are printed.
const SHOWN: u64 = 5;

#[derive(Default)]
struct Tally {
    histories: u64,
    events: u64,
    different: u64,
    /// What was met, and how often.
    met: BTreeMap<String, u64>,
}

impl Tally {
    fn hit(&mut self, what: impl Into<String>) {
        *self.met.entry(what.into()).or_default() += 1;
    }

    fn add(&mut self, other: Tally) {
        self.histories += other.histories;
        self.events += other.events;
        self.different += other.different;
        other.met.into_iter().for_each(|(what, hits)| *self.met.entry(what).or_default() += hits);
    }
}

/// The unit as the library left it, and what the caller keeps.
struct Caller {
    unit: Unit,
    queue: Queue,
    /// By place: the run's job, and the field as the library left it and as the run alone left it.
    held: Vec<Option<(Job, Vec<f64>, Vec<f64>)>>,
    /// Turns of others since the last turn of a place that waits.
    since: [u32; PLACES],
}

impl Caller {
    fn new(fault: Option<Fault>) -> Caller {
        let marks = Unit { numbers: vec![jobs::mark(0); 160], counts: vec![7; 144] };
        let (number, unit) = library::rotation::clear(marks);
        assert_eq!(number, 0, "an empty unit");
        Caller { unit, queue: Queue::new(fault), held: vec![None; PLACES], since: [0; PLACES] }
    }

    /// The unit as it is lent: seldom with another length.
    fn lent(&self, r: &mut Random) -> (Unit, bool) {
        let mut unit = self.unit.clone();
        if !r.once_in(150) {
            return (unit, true);
        }
        match r.below(4) {
            0 => drop(unit.numbers.pop()),
            1 => unit.numbers.push(1.0),
            2 => drop(unit.counts.pop()),
            _ => unit.counts.push(0),
        }
        (unit, false)
    }

    fn join(&mut self, job: &Job, t: &mut Tally, r: &mut Random) -> Option<(UnitLeft, UnitLeft)> {
        let (given, fits) = self.lent(r);
        let lent = history::lent_to_join(job, r);
        let got = library::rotation::join(job, lent.clone(), given.clone());
        let expected = self.queue.join(Asked { job, lent, fits }, &given);
        let place = expected.place;
        t.hit(match (expected.run.number, place) {
            (0, PLACES) => "joins ended at their start".to_string(),
            (0, _) => format!("joins that took place {place:2}"),
            (number, _) => format!("joins refused by {number:2}"),
        });
        if got.differs(&expected).is_empty() && place < PLACES {
            self.held[place] = Some((job.clone(), got.run.run.field.clone(), expected.run.run.field.clone()));
            self.since[place] = 0;
        }
        self.keep(fits, got, expected)
    }

    fn turn(&mut self, others: &[Job], t: &mut Tally, r: &mut Random) -> Option<(UnitLeft, UnitLeft)> {
        let (given, fits) = self.lent(r);
        let next = self.queue.next();
        let held = self.held.get(next).cloned().flatten();
        let (own, field, alone) = held.unwrap_or_else(|| (others[0].clone(), vec![0.5; 3], vec![0.5; 3]));
        let job = history::brought(&own, others, r);
        let tol = history::tolerance(r);
        let state = history::state_for_turn(r);
        // a field of another length is refused early
        let short = r.once_in(60);
        let cut = |mut field: Vec<f64>| {
            if short {
                field.pop();
            }
            field
        };
        let got = library::rotation::turn(&job, tol, Run { field: cut(field.clone()), ..state.clone() }, given.clone());
        let lent = Run { field: cut(alone.clone()), ..state };
        let expected = self.queue.turn(Asked { job: &job, lent, fits }, tol, &given);
        let (number, place) = (expected.run.number, expected.place);
        t.hit(match number {
            0 if self.queue.waiting.contains(&place) => "turns after which the run waits".to_string(),
            0 => "turns that ended a run with a result".to_string(),
            number => format!("turns refused by {number:2}"),
        });
        if tol.is_some() && number == 0 {
            t.hit("turns with a new tolerance");
        }
        if place < PLACES {
            let waiting = |p: &usize| *p != place && self.queue.waiting.contains(p);
            (0..PLACES).filter(waiting).for_each(|p| self.since[p] += 1);
            self.since[place] = 0;
            let most = self.since.iter().copied().max().unwrap_or(0);
            t.hit(match most {
                15 => "turns at which another waits for fifteen",
                16.. => "MORE THAN FIFTEEN TURNS OF OTHERS",
                _ => "turns at which all wait for fewer",
            });
            if matches!(number, 0 | 27..=29) {
                self.held[place] = Some((own, got.run.run.field.clone(), expected.run.run.field.clone()));
            }
        }
        self.keep(fits, got, expected)
    }

    /// The unit comes back as left; one of another length was lent on trial, and is not changed.
    fn keep(&mut self, fits: bool, got: UnitLeft, expected: UnitLeft) -> Option<(UnitLeft, UnitLeft)> {
        if fits {
            self.unit = got.unit.clone();
        }
        let same = got.differs(&expected).is_empty() && library::rotation::next(&self.unit) == self.queue.next();
        (!same).then_some((got, expected))
    }
}

/// A history, up to the first answer that differs.
fn one(t: &mut Tally, seed: u64, i: usize, fault: Option<Fault>) {
    let mut r = Random::of(seed, i);
    let r = &mut r;
    t.histories += 1;
    let crowded = r.once_in(3);
    let barrels: Vec<Job> = (0..if crowded { BARRELS } else { r.from_to(1, 8) as usize })
        .map(|k| {
            let job = history::barrel(crowded && k < 18, r);
            if r.once_in(12) {
                history::damaged(&job, r)
            } else {
                job
            }
        })
        .collect();
    let mut caller = Caller::new(fault);
    let mut coming = 0;
    let events = if crowded { r.from_to(30, 120) } else { r.from_to(3, 50) };
    for event in 0..events {
        let joins = coming < barrels.len() && if crowded && coming < 17 { !r.once_in(6) } else { r.once_in(4) };
        // where no run waits, a turn is asked for seldom
        if !joins && caller.queue.next() == PLACES && !r.once_in(8) {
            continue;
        }
        t.events += 1;
        let differs = if joins {
            coming += 1;
            caller.join(&barrels[coming - 1], t, r)
        } else {
            caller.turn(&barrels, t, r)
        };
        if let Some((got, expected)) = differs {
            t.different += 1;
            if fault.is_none() && t.different <= SHOWN {
                let (parts, next) = (got.differs(&expected).join(", "), caller.queue.next());
                let (got, expected) = (got.print(), expected.print());
                println!("history {i}, event {event} differs in {parts}; next {next}:\n  rattle {got}\n  queue  {expected}");
            }
            return;
        }
    }
}

/// All histories, a share for each thread.
fn all(seed: u64, histories: usize, fault: Option<Fault>) -> Tally {
    let threads = std::thread::available_parallelism().map_or(1, usize::from);
    let share = |first: usize| {
        let mut t = Tally::default();
        (first..histories).step_by(threads).for_each(|i| one(&mut t, seed, i, fault));
        t
    };
    let mut t = Tally::default();
    std::thread::scope(|scope| {
        let shares: Vec<_> = (0..threads).map(|first| scope.spawn(move || share(first))).collect();
        shares.into_iter().for_each(|s| t.add(s.join().expect("a thread that ends")));
    });
    t
}

fn main() -> ExitCode {
    let mut numbers = std::env::args().skip(1).map(|word| word.parse::<u64>().expect("a number"));
    let (seed, histories) = (numbers.next().unwrap_or(1), numbers.next().unwrap_or(20_000) as usize);
    let t = all(seed, histories, None);
    println!("histories {}, joins and turns {}", t.histories, t.events);
    t.met.iter().for_each(|(what, hits)| println!("  {what:46} {hits}"));
    println!("different histories: {}", t.different);
    let mut found = 0;
    for fault in FAULTS {
        let different = all(seed, TRIAL.min(histories), Some(fault)).different;
        println!("  fault {:40} different in {different}", format!("{fault:?}"));
        found += usize::from(different > 0);
    }
    println!("faults found: {found} of {}", FAULTS.len());
    if t.different == 0 && found == FAULTS.len() {
        ExitCode::SUCCESS
    } else {
        ExitCode::FAILURE
    }
}
