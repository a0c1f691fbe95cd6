//! What comes of bytes of a bench file.

use crate::line;
use crate::session::Verdict;

#[derive(Clone, Debug, PartialEq, Eq)]
pub enum Outcome {
    Nothing,
    Done(Done),
    /// The file is refused with this number.
    Refused(u32),
}

#[derive(Clone, Debug, Default, PartialEq, Eq)]
pub struct Done {
    pub tag: Vec<u8>,
    pub raster: u32,
    pub wipe: bool,
    pub rows: u32,
    pub faults: u32,
    pub verdict: Option<Verdict>,
}

impl Outcome {
    /// "0 nothing, 1 a job is done, 2 the file is refused; then the refusal's number [..]; then of the job that is done
    /// (zeros and an empty list where none is) its tag [..], its raster (as printed), wipe (flag), rows, faults, verdict"
    pub fn numbers(&self) -> Vec<u32> {
        let (kind, refusal, job) = match self {
            Self::Nothing => (0, 0, &Done::default()),
            Self::Done(job) => (1, 0, job),
            Self::Refused(number) => (2, *number, &Done::default()),
        };
        let verdict = job.verdict.map_or(0, |verdict| verdict as u32);
        let mut numbers = vec![kind, refusal, job.tag.len() as u32];
        numbers.extend(job.tag.iter().map(|&byte| u32::from(byte)));
        numbers.extend([job.raster, job.wipe.into(), job.rows, job.faults, verdict]);
        numbers
    }

    /// What is printed; nothing comes of nothing.
    pub fn line(&self) -> Vec<u8> {
        match self {
            Self::Nothing => Vec::new(),
            Self::Done(job) => {
                line::of_job(&job.tag, [job.raster, job.rows, job.faults], job.verdict)
            }
            Self::Refused(number) => line::of_refusal(*number),
        }
    }
}
