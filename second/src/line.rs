//! What is printed of a job or of a refused file.

use crate::session::Verdict;

/// As in "A17 raster 1 rows 0 faults 0 NO SIGNAL".
pub fn of_job(tag: &[u8], [raster, rows, faults]: [u32; 3], verdict: Option<Verdict>) -> Vec<u8> {
    let verdict = verdict.map(|verdict| verdict.to_string());
    let verdict = verdict.unwrap_or_default();
    let rest = format!(" raster {raster} rows {rows} faults {faults} {verdict}\n");
    [tag, rest.as_bytes()].concat()
}

/// "on a refusal `bad file` and its number"
pub fn of_refusal(number: u32) -> Vec<u8> {
    format!("bad file {number}\n").into_bytes()
}
