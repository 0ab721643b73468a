//! The count of erasures on a line compared with the independent program: both numbers, and flags that stay as they were.

use compare::{LARGE_SHAPES, SHAPES_AT_THE_LIMITS, ScanTrial, random_shape, twin};
use jibrufath::{Shape, scan};
use reference::Scan;
use reference::random::Random;

/// Whether the scan of a line is one that the flags force in the request's words.
fn ends_at_the_third(places: &[u8], scan: Scan) -> bool {
    let Scan { holes, read } = scan;
    let found = places[..read].iter().filter(|&&flag| flag == 1).count();
    let third_is_last = holes == 3 && places[read - 1] == 1;
    found == holes && (third_is_last || holes < 3 && read == places.len())
}

/// A small shape with this length along the axis.
fn small_shape(axis: usize, len: usize) -> Shape {
    let mut lengths = [3, 4, 5];
    lengths[axis - 1] = len;
    let [l1, l2, l3] = lengths;
    Shape::new(l1, l2, l3, 1)
}

#[test]
fn every_pattern_of_a_short_line() {
    let mut random = Random::new(9001);
    let mut seen = [0; 4];
    for axis in 1..=3 {
        for len in 3..=8 {
            let shape = small_shape(axis, len);
            let lines: Vec<_> = twin(shape).lines(axis).collect();
            for pattern in 0..1_usize << len {
                let number = random.among(0..=lines.len() - 1);
                let mut trial = ScanTrial::new(&mut random, shape, axis, number);
                let places: Vec<u8> = (0..len).map(|i| (pattern >> i & 1) as u8).collect();
                for (cell, &flag) in lines[number].cells().zip(&places) {
                    trial.flags[cell] = flag;
                }
                let scan = trial.compare(&mut random).expect("a line of the cube");
                assert!(ends_at_the_third(&places, scan), "{places:?}");
                seen[scan.holes] += 1;
            }
        }
    }
    assert!(seen.iter().all(|&count| count > 15), "{seen:?}");
}

/// A line of each axis with holes at these places alone, among cells that are all missing.
fn compare_holes(random: &mut Random, len: usize, holes: &[usize], expected: Scan) {
    for axis in 1..=3 {
        let shape = small_shape(axis, len);
        let lines: Vec<_> = twin(shape).lines(axis).collect();
        for (number, line) in lines.iter().enumerate() {
            let mut trial = ScanTrial::new(random, shape, axis, number);
            trial.flags.fill(1);
            line.cells().for_each(|cell| trial.flags[cell] = 0);
            holes.iter().for_each(|&i| trial.flags[line.cell(i)] = 1);
            assert_eq!(trial.compare(random), Ok(expected), "{len}, {holes:?}");
        }
    }
}

#[test]
fn holes_at_the_ends_exactly_two_and_a_third_in_the_last_place() {
    let mut random = Random::new(9002);
    for len in [3, 4, 17, 64, 254, 255] {
        let last = len - 1;
        for (holes, found, read) in [
            (&[][..], 0, len),
            (&[0], 1, len),
            (&[last], 1, len),
            (&[0, last], 2, len),
            (&[0, 1], 2, len),
            (&[last - 1, last], 2, len),
            (&[0, 1, last], 3, len),
            (&[last - 2, last - 1, last], 3, len),
            (&[0, 1, 2], 3, 3),
        ] {
            let expected = Scan { holes: found, read };
            compare_holes(&mut random, len, holes, expected);
        }
    }
}

#[test]
fn random_lines() {
    let mut random = Random::new(9003);
    let mut seen = [0; 5];
    for _ in 0..20_000 {
        let trial = ScanTrial::random(&mut random);
        match trial.compare(&mut random) {
            Ok(scan) => seen[scan.holes] += 1,
            Err(_) => seen[4] += 1,
        }
    }
    assert!(seen.iter().all(|&count| count > 500), "{seen:?}");
}

#[test]
fn every_line_of_large_cubes() {
    let mut random = Random::new(9004);
    for shape in LARGE_SHAPES {
        let twin = twin(shape);
        let percent = random.among(0..=12);
        let flags: Vec<u8> = (0..twin.cells())
            .map(|_| u8::from(random.chance(percent)))
            .collect();
        for axis in 1..=3 {
            let lines: Vec<_> = twin.lines(axis).collect();
            for (number, line) in lines.iter().enumerate() {
                let places: Vec<bool> = line.cells().map(|cell| flags[cell] == 1).collect();
                let told = scan(shape, axis, number, &flags).expect("a line of the cube");
                let expected = reference::scanned(&places);
                assert_eq!((told.erasures, told.read), (expected.holes, expected.read));
            }
        }
    }
}

#[test]
fn places_behind_the_third_do_not_matter() {
    let mut random = Random::new(9005);
    let mut behind = 0;
    for _ in 0..4_000 {
        let trial = ScanTrial::random(&mut random);
        let Ok(scan) = trial.compare(&mut random) else {
            continue;
        };
        let shape = twin(trial.shape);
        let line = shape
            .lines(trial.axis)
            .nth(trial.line)
            .expect("a line of the cube");
        let read: Vec<usize> = line.cells().take(scan.read).collect();
        let mut other = trial.clone();
        for cell in (0..other.flags.len()).filter(|cell| !read.contains(cell)) {
            other.flags[cell] = random.byte();
        }
        assert_eq!(other.compare(&mut random), Ok(scan));
        behind += usize::from(scan.read < line.length);
    }
    assert!(behind > 500, "{behind}");
}

#[test]
fn shapes_axes_and_lines_at_the_limits() {
    let mut random = Random::new(9006);
    for (shape, number) in SHAPES_AT_THE_LIMITS {
        for axis in [0, 1, 2, 3, 4, usize::MAX] {
            for line in [0, 1, 8, 9, 65_024, 65_025, usize::MAX] {
                let mut trial = ScanTrial::new(&mut random, Shape::new(3, 3, 3, 1), axis, line);
                trial.shape = shape;
                trial.flags = vec![1; 5];
                let refused = trial.compare(&mut random).expect_err("five flags");
                assert!(refused == number || refused == 1, "{trial:?}");
            }
        }
    }
}

#[test]
fn one_line_too_many_and_one_flag_more_or_less() {
    let mut random = Random::new(9007);
    for _ in 0..500 {
        let shape = random_shape(&mut random);
        for axis in 1..=3 {
            let lines = twin(shape).lines(axis).count();
            let last = ScanTrial::new(&mut random, shape, axis, lines - 1);
            assert!(last.compare(&mut random).is_ok());
            let behind = ScanTrial::new(&mut random, shape, axis, lines);
            assert_eq!(behind.compare(&mut random), Err(1));
            for change in [-1, 1] {
                let mut trial = last.clone();
                let len = trial.flags.len().saturating_add_signed(change);
                trial.flags.resize(len, 1);
                assert_eq!(trial.compare(&mut random), Err(4));
                // The line is asked before the length.
                trial.line = lines;
                assert_eq!(trial.compare(&mut random), Err(1));
            }
        }
    }
}
