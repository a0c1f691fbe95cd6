//! Lists of words, and by their runs.

/// "the count of its elements and then the elements"
pub fn list(words: &[u16]) -> Vec<u32> {
    let elements = words.iter().map(|&word| u32::from(word));
    [words.len() as u32].into_iter().chain(elements).collect()
}

/// "the count of runs, then for each run how many times (at least 1) and the word";
/// "In an answer the runs are the longest possible".
pub fn runs(words: &[u16]) -> Vec<u32> {
    let runs: Vec<&[u16]> = words.chunk_by(|one, next| one == next).collect();
    let mut numbers = vec![runs.len() as u32];
    for run in runs {
        numbers.extend([run.len() as u32, run[0].into()]);
    }
    numbers
}

/// "cable words by runs of two": a flag that says whether they are to be scrambled, the runs, and a LIST of those words at
/// the end that no run is shorter for.
pub fn signal(to_scramble: bool, words: &[u16]) -> Vec<u32> {
    let (twos, odd) = words.as_chunks::<2>();
    let mut runs: Vec<&[[u16; 2]]> = twos.chunk_by(|one, next| one == next).collect();
    let mut listed = odd.len();
    while runs.last().is_some_and(|run| run.len() == 1) {
        runs.pop();
        listed += 2;
    }
    let mut numbers = vec![to_scramble.into(), runs.len() as u32];
    for run in runs {
        let [one, other] = run[0].map(u32::from);
        numbers.extend([run.len() as u32, one, other]);
    }
    numbers.extend(list(&words[words.len() - listed..]));
    numbers
}
