//! What the captures and the frames print.

use super::printed;
use crate::generate::captures::{capture, names};
use crate::generate::frames::{flipped, frames, slipped};
use crate::generate::loads::{dead, jobs, noise};

const PRINTED: [(&str, &str); 4] = [
    (
        "dead-after-good",
        "CAM-0412 raster 1 rows 6 faults 0 SHORT\n\
         CAM-0413 raster 1 rows 0 faults 0 NO SIGNAL\n",
    ),
    (
        "damaged",
        "CAM-0420 raster 1 rows 3 faults 0 SHORT\n\
         CAM-0421 raster 1 rows 3 faults 1 FAIL\n\
         CAM-0422 raster 1 rows 1 faults 1 FAIL\n",
    ),
    (
        "bad-file",
        "CAM-0430 raster 1 rows 1 faults 0 SHORT\n\
         bad file 4\n",
    ),
    (
        "full-frame",
        "CAM-0440 raster 7 rows 1125 faults 0 PASS\n\
         CAM-0441 raster 7 rows 0 faults 0 NO SIGNAL\n",
    ),
];

#[test]
fn every_capture_prints_its_lines() {
    assert_eq!(names(), PRINTED.map(|(name, _)| name));
    for (name, expected) in PRINTED {
        let file = capture(name).expect("there is such a capture");
        assert_eq!(printed(&*file), expected, "{name}");
        assert!(file.len() < 100_000 || name == "full-frame");
    }
}

#[test]
fn frames_pass() {
    for (code, seed, line) in [
        (0, 1, " raster 7 rows 1125 faults 0 PASS\n"),
        (1, 2, " raster 1 rows 750 faults 0 PASS\n"),
    ] {
        let file = frames(code, 1, seed).expect("there is such a raster");
        let printed = printed(&*file);
        assert!(printed.ends_with(line), "{printed}");
    }
    assert!(frames(12, 1, 1).is_err());
}

/// A bit flipped in each row is a fault of each that counts; a bit lost drops each.
#[test]
fn frames_fail_in_every_row() {
    let file = flipped(1, 1, 2).expect("there is such a raster");
    assert!(printed(&*file).ends_with(" raster 1 rows 750 faults 750 FAIL\n"));
    assert_eq!(file.len(), frames(1, 1, 2).expect("as above").len());
    let file = slipped(1, 1, 2).expect("there is such a raster");
    assert!(printed(&*file).ends_with(" raster 1 rows 0 faults 751 FAIL\n"));
}

#[test]
fn loads_have_no_sync_or_a_line_for_each_job() {
    for file in [noise(100_000, 1), dead(100_000)] {
        assert!(printed(&*file).ends_with(" raster 7 rows 0 faults 0 NO SIGNAL\n"));
    }
    let file = jobs(300, 1);
    assert_eq!(printed(&*file).lines().count(), 300);
    assert!(file.len() < 300 * 1100);
}
