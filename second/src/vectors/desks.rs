//! The bench file that the paper prints, at a desk, and its lines; what bytes and takes are refused for.

use super::sessions::{of, FRESH, NO_SIGNAL};
use super::{vector, Vector};
use crate::functions::*;
use crate::session::Numbers;

/// "03000000 413137 02000000 0100 00000000"
const A17: [u32; 17] = [3, 0, 0, 0, 0x41, 0x31, 0x37, 2, 0, 0, 0, 1, 0, 0, 0, 0, 0];
/// "03000000 423032 02000000 0700 00000000"
const B02: [u32; 17] = [3, 0, 0, 0, 0x42, 0x30, 0x32, 2, 0, 0, 0, 7, 0, 0, 0, 0, 0];
const WIPE: usize = 12;

/// Buffers that are just long enough, and too short by one.
const ENOUGH: [u32; 6] = [1, 4125, 0x155, 1, 4125, 0x2aa];
const SHORT_Y: [u32; 6] = [1, 4124, 0x155, 1, 4125, 0x2aa];
const SHORT_C: [u32; 6] = [1, 4125, 0x155, 1, 4124, 0x2aa];

/// The OUTCOMEs: nothing, and a file refused with 9.
const NOTHING: [u32; 8] = [0; 8];
const BAD_9: [u32; 8] = [2, 9, 0, 0, 0, 0, 0, 0];

pub fn all() -> Vec<Vector> {
    let groups = [
        at_a_desk(),
        refused_bytes(),
        refused_at_a_desk(),
        taken(),
        lines(),
    ];
    groups.into_iter().flatten().collect()
}

/// A job that is done without a sync: "raster 1 rows 0 faults 0 NO SIGNAL".
fn done(job: &[u32], raster: u32) -> Vec<u32> {
    [&[1, 0, 3], &job[4..7], &[raster, 0, 0, 0, NO_SIGNAL]].concat()
}

/// What a take answers: its refusal, how many bytes it took, and its OUTCOME.
type Taken<'a> = (u32, u32, &'a [u32]);

fn numbers((refusal, count, outcome): &Taken) -> Vec<u32> {
    [&[*refusal, *count], *outcome].concat()
}

/// How many bytes a desk is lent by each take but the last, all bytes, and the buffers.
type Lent<'a> = (&'a [u32], &'a [u32], [u32; 6]);

fn desk((lengths, bytes, buffers): Lent, takes: &[Taken], finish: [u32; 8]) -> Vector {
    let [takes_before, count] = [lengths, bytes].map(|list| list.len() as u32);
    let request = [&[DESK, takes_before], lengths, &[count], bytes, &buffers];
    let answer: Vec<u32> = takes.iter().flat_map(numbers).collect();
    vector(
        &request.concat(),
        &[&answer, &finish[..], &buffers].concat(),
    )
}

/// A take stops after the byte that ends a job; what it was lent beyond is lent again.
fn at_a_desk() -> Vec<Vector> {
    let both = [A17, B02].concat();
    // "Code 0 stands for 7, our local cameras, and is printed as 7."
    let mut local = B02;
    local[11] = 0;
    let (a17, b02) = (&done(&A17, 1)[..], &done(&B02, 7)[..]);
    let (first, second): (Taken, Taken) = ((0, 17, a17), (0, 17, b02));
    // Lent by 5, 0, 12 and 16 bytes, and by the last.
    let parts = [
        (0, 5, &NOTHING[..]),
        (0, 0, &NOTHING),
        (0, 12, a17),
        (0, 16, &NOTHING),
        (0, 1, b02),
    ];
    vec![
        desk((&[], &[], ENOUGH), &[(0, 0, &NOTHING)], NOTHING),
        desk((&[], &both, ENOUGH), &[first], NOTHING),
        desk((&[34], &both, ENOUGH), &[first, second], NOTHING),
        desk((&[5, 0, 12, 16], &both, ENOUGH), &parts, NOTHING),
        desk((&[], &local, ENOUGH), &[second], NOTHING),
        desk((&[], &both[..16], ENOUGH), &[(0, 16, &NOTHING)], BAD_9),
    ]
}

/// Each section with a byte that is refused, and two bytes after it, of which nothing comes.
fn refused_bytes() -> Vec<Vector> {
    let with = |place: usize, byte| {
        let mut job = A17;
        job[place] = byte;
        job
    };
    let mut word = A17.to_vec();
    word[13] = 1;
    word.extend([0x00, 0x04]);
    let mut wipe_and_raster = with(11, 12);
    wipe_and_raster[WIPE] = 2;
    let refused = |bytes: &[u32], number| {
        let count = bytes.len() as u32;
        let bad = [2, number, 0, 0, 0, 0, 0, 0];
        let takes: [Taken; 2] = [(0, count, &bad), (0, 2, &NOTHING)];
        let file = [bytes, &[0x41, 0x20]].concat();
        desk((&[count + 2], &file, ENOUGH), &takes, NOTHING)
    };
    vec![
        refused(&with(0, 0)[..4], 9),
        refused(&with(0, 33)[..4], 9),
        refused(&with(3, 1)[..4], 9),
        refused(&with(5, 0x20)[..6], 9),
        refused(&with(6, 0x7f)[..7], 9),
        refused(&with(7, 3)[..11], 9),
        refused(&with(WIPE, 2)[..13], 9),
        refused(&with(11, 12)[..13], 4),
        refused(&wipe_and_raster[..13], 9),
        refused(&word, 3),
    ]
}

/// After a refused byte all bytes are taken, and nothing comes of them; a refused take takes none.
fn refused_at_a_desk() -> Vec<Vector> {
    let file = [0, 0, 0, 0, 1];
    let (bad, stopped): (Taken, Taken) = ((0, 4, &BAD_9), (0, 1, &NOTHING));
    let refused: Taken = (1, 0, &NOTHING);
    vec![
        desk((&[], &file, ENOUGH), &[bad], NOTHING),
        desk((&[9], &file, ENOUGH), &[bad, stopped], NOTHING),
        desk((&[], &A17, SHORT_Y), &[refused], NOTHING),
        desk((&[3], &A17, SHORT_C), &[refused, refused], NOTHING),
    ]
}

/// A job of the tag `A` and raster 1 up to its wipe byte.
const UP_TO_WIPE: [u32; 10] = [1, 0, 0, 0, 0x41, 2, 0, 0, 0, 1];

/// The same up to the count of words, and then so many bytes of these: one word, 3FF.
fn job_up_to(count: usize) -> Vec<u32> {
    [&UP_TO_WIPE[..], &[0], &[1, 0, 0, 0, 0xff, 0x03][..count]].concat()
}

/// A take that is lent these bytes after those: what it answers, and the session afterwards.
fn take(
    before: &[u32],
    session: Numbers,
    bytes: &[u32],
    buffers: [u32; 6],
    (taken, after): (Taken, [u32; 15]),
) -> Vector {
    let lengths = [1, before.len() as u32];
    let count = lengths[1] + bytes.len() as u32;
    let asked = [&[TAKE], &lengths[..], &[count], before, bytes].concat();
    let request = [&asked, &session.list()[..], &buffers].concat();
    vector(&request, &[&numbers(&taken), &after[..], &buffers].concat())
}

/// "7 where the desk reads words and its session is not running or not in range, else 1 where a buffer has fewer than 4,125
/// words"; elsewhere the session counts for nothing.
fn taken() -> Vec<Vector> {
    let closed = Numbers::default();
    let counted = Numbers { rows: 5, ..closed };
    let bad = Numbers {
        history: 0x400,
        ..of(1)
    };
    let (nothing, wipe_9): (Taken, Taken) = ((0, 1, &NOTHING), (0, 1, &BAD_9));
    let refused = |before: &[u32], session: Numbers, buffers, refusal| {
        let answer = ((refusal, 0, &NOTHING[..]), session.list());
        take(before, session, &[0], buffers, answer)
    };
    let mut vectors = ends();
    // Before the count of words, amid it, before a word's low byte, and before its high byte.
    for before in [0, 2, 4, 5].map(job_up_to) {
        vectors.extend([
            refused(&before, closed, ENOUGH, 7),
            refused(&before, counted, SHORT_Y, 7),
            refused(&before, bad, SHORT_C, 7),
            refused(&before, of(1), SHORT_Y, 1),
            refused(&before, of(1), SHORT_C, 1),
        ]);
    }
    // The first byte of a file, the wipe byte, a bad one, and a byte after a refused one.
    for session in [closed, counted, bad, of(7)] {
        let as_it_was = (nothing, session.list());
        vectors.extend([
            refused(&[], session, SHORT_Y, 1),
            take(&[], session, &[3], ENOUGH, as_it_was),
            take(&UP_TO_WIPE, session, &[1], ENOUGH, (nothing, of(1).list())),
            take(&UP_TO_WIPE, session, &[2], ENOUGH, (wipe_9, FRESH)),
            take(&[0; 4], session, &[3], ENOUGH, as_it_was),
        ]);
    }
    vectors
}

/// The last bytes of a job without a sync: the count of no words, one word, its high byte, and a word above 3FF.
fn ends() -> Vec<Vector> {
    let done = [1, 0, 1, 0x41, 1, 0, 0, 0, NO_SIGNAL];
    let bad_3 = [2, 3, 0, 0, 0, 0, 0, 0];
    let end = |count: usize, bytes: &[u32], taken, outcome: &[u32]| {
        let answer = ((0, taken, outcome), FRESH);
        take(&job_up_to(count), of(1), bytes, ENOUGH, answer)
    };
    vec![
        end(0, &[0, 0, 0, 0, 3], 4, &done),
        end(4, &[0xff, 0x03, 3], 2, &done),
        end(5, &[0x03, 3], 1, &done),
        end(4, &[0x00, 0x04, 3], 2, &bad_3),
    ]
}

/// The lines of the paper's file and of refused ones; one for a verdict that has no words; none for nothing.
fn lines() -> Vec<Vector> {
    let line = |outcome: &[u32], text: &str| {
        let bytes: Vec<u32> = text.bytes().map(u32::from).collect();
        let answer = [&[bytes.len() as u32], &bytes[..]].concat();
        vector(&[&[OUTCOME_LINE], outcome].concat(), &answer)
    };
    let wiped = [1, 0, 1, 0x41, 10, 1, 4_294_967_295, 100, 2];
    let unsaid = [1, 0, 0, 1, 0, 0, 0, 0];
    vec![
        line(&done(&A17, 1), "A17 raster 1 rows 0 faults 0 NO SIGNAL\n"),
        line(&done(&B02, 7), "B02 raster 7 rows 0 faults 0 NO SIGNAL\n"),
        line(&wiped, "A raster 10 rows 4294967295 faults 100 FAIL\n"),
        line(
            &[1, 0, 0, 2, 0, 750, 0, 4],
            " raster 2 rows 750 faults 0 PASS\n",
        ),
        line(
            &[1, 0, 0, 2, 0, 749, 0, 3],
            " raster 2 rows 749 faults 0 SHORT\n",
        ),
        line(&unsaid, " raster 1 rows 0 faults 0 \n"),
        line(&BAD_9, "bad file 9\n"),
        line(&[2, 4, 0, 0, 0, 0, 0, 0], "bad file 4\n"),
        line(&NOTHING, ""),
    ]
}
