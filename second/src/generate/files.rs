//! Bench files from a seed: jobs that follow one another, good captures and damaged ones, mostly with a bad job after them.

mod bad_job;
mod bad_jobs;
mod bit_faults;
mod cable_faults;
mod code_faults;
mod content_faults;
mod distance_faults;
mod faults;
mod modules;
mod order_faults;
mod rowless;
pub mod sender;
mod signal;

use super::rows::Row;
use crate::job::Job;
use crate::random::Random;
use modules::Module;

/// What can be among a file, by name.
pub type Kind = &'static str;

/// A way to spoil something, with its name.
type Fault<Spoilt> = (Kind, fn(&mut Random, &mut Spoilt));
/// A way to spoil rows that follow one another, at a place.
type OrderFault = (Kind, fn(&mut Random, &mut Vec<Row>, usize));

/// No job is added to a file that has so many bytes.
const ENOUGH: usize = 60_000;

/// Jobs without rows have at most so many words.
const SHORT: usize = 500;
const LONG: usize = 10_000;

pub struct File {
    pub bytes: Vec<u8>,
    /// What was put in it, as far as it is read.
    pub kinds: Vec<Kind>,
}

const IN_TWO_JOBS: Kind = "one capture in two jobs";

/// All kinds that come.
pub fn kinds() -> Vec<Kind> {
    let of_bad_jobs = bad_jobs::ALL.map(|(kind, _)| kind);
    let of_modules = modules::kinds().into_iter().chain([IN_TWO_JOBS]);
    of_modules.chain(of_bad_jobs).collect()
}

/// What is put in a file.
struct Notes {
    kinds: Vec<Kind>,
    /// Whose turn it is.
    turn: u64,
}

/// The turns of a file are so far from one another.
const STRIDE: u64 = 23;

impl Notes {
    fn note(&mut self, kind: Kind) {
        self.kinds.push(kind);
    }

    /// What is chosen in turn, by the seed, so that all come.
    fn in_turn<T: Copy>(&mut self, table: &[(Kind, T)]) -> T {
        let place = (self.turn % table.len() as u64) as usize;
        self.turn = self.turn.wrapping_add(STRIDE);
        self.chosen(table[place])
    }

    fn any<T: Copy>(&mut self, random: &mut Random, table: &[(Kind, T)]) -> T {
        self.chosen(random.pick(table))
    }

    fn chosen<T>(&mut self, (kind, chosen): (Kind, T)) -> T {
        self.note(kind);
        chosen
    }
}

/// The same seed, the same file.
pub fn file(seed: u64) -> File {
    let random = &mut Random::new(seed);
    let mut notes = Notes {
        kinds: Vec::new(),
        turn: seed,
    };
    let jobs = jobs(random, &mut notes);
    let mut bytes: Vec<u8> = jobs.iter().flat_map(Job::bytes).collect();
    if !random.one_in(4) {
        let most = random.pick(&[SHORT, SHORT, SHORT, LONG]);
        notes.turn = seed;
        bytes.extend(bad_end(random, most, &mut notes));
    }
    File {
        bytes,
        kinds: notes.kinds,
    }
}

/// A bad job of at most so many words, and perhaps another job.
fn bad_end(random: &mut Random, most: usize, notes: &mut Notes) -> Vec<u8> {
    let job = rowless_job(random, most);
    let faults = match most {
        SHORT.. => &bad_jobs::ALL,
        _ => bad_jobs::OF_FEW_WORDS,
    };
    let bad = bad_jobs::bad_job(random, job, faults, notes);
    let mut bytes = bad.bytes();
    // Of the jobs after it nothing is read.
    if !bad.is_cut() && random.bit() {
        bytes.extend(rowless_job(random, most.min(SHORT)).bytes());
    }
    bytes
}

/// A few jobs without rows, each of at most so many words, half of the time with a bad job after them.
pub fn short_file(random: &mut Random, most: usize) -> Vec<u8> {
    let count = random.pick(&[0, 1, 1, 2, 3]);
    let jobs: Vec<Job> = (0..count).map(|_| rowless_job(random, most)).collect();
    let mut bytes: Vec<u8> = jobs.iter().flat_map(Job::bytes).collect();
    if count == 0 || random.bit() {
        let turn = random.number().into();
        let kinds = Vec::new();
        bytes.extend(bad_end(random, most, &mut Notes { kinds, turn }));
    }
    bytes
}

/// None, a few, now and then tens of short ones, or seldom one of a frame.
fn jobs(random: &mut Random, notes: &mut Notes) -> Vec<Job> {
    if random.one_in(120) {
        let frame = modules::frame(random, notes);
        return vec![job_of(random, frame)];
    }
    if random.one_in(15) {
        let count = random.below(40);
        return (0..count).map(|_| rowless_job(random, SHORT)).collect();
    }
    let count = random.pick(&[0, 1, 1, 1, 2, 2, 2, 3, 5]);
    let mut jobs = Vec::new();
    let mut bytes = 0;
    while jobs.len() < count && bytes < ENOUGH {
        let module = modules::any(random, notes);
        bytes += 2 * module.words.len();
        for module in in_two(random, module, notes) {
            jobs.push(job_of(random, module));
        }
    }
    jobs
}

/// Seldom the words of a module come in two jobs, of which the second knows nothing of the first.
fn in_two(random: &mut Random, mut module: Module, notes: &mut Notes) -> Vec<Module> {
    if module.words.len() < 2 || !random.one_in(10) {
        return vec![module];
    }
    notes.note(IN_TWO_JOBS);
    let last = module.words.len() - 1;
    // Also in the first EAV, or in the last.
    let places = [
        random.place(last),
        random.place(12),
        last.saturating_sub(random.place(30)),
    ];
    let place = random.pick(&places);
    let second = Module {
        code: module.code,
        words: module.words.split_off(place.min(last)),
    };
    vec![module, second]
}

/// A job without rows, of at most so many words.
pub fn rowless_job(random: &mut Random, most: usize) -> Job {
    let (_, mut module) = rowless::any(random);
    module.words.truncate(most);
    job_of(random, module)
}

fn job_of(random: &mut Random, module: Module) -> Job {
    let wipe = random.bit();
    Job::new(&tag(random), module.code as u8, wipe, module.words)
}

/// "1 to 32 bytes", "printable ASCII without spaces"
pub fn tag(random: &mut Random) -> String {
    let any = random.between(1, 32);
    let count = random.pick(&[1, 2, 8, 31, 32, any, any]);
    let edges = random.one_in(4);
    (0..count)
        .map(|_| match edges {
            true => random.pick(&['!', '~']),
            false => char::from(random.short(0x21, 0x7e) as u8),
        })
        .collect()
}

/// The place of one of so many rows: the first, the second, the last, or any.
fn aim(random: &mut Random, count: usize) -> usize {
    let any = random.place(count);
    let second = 1.min(count - 1);
    random.pick(&[0, second, second, count - 1, any])
}
