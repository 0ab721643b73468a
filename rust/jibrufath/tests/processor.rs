//! The archives for one processor and another: which are there, which is in use, and that both give the same bytes.

use std::fs;
use std::panic::catch_unwind;
use std::thread;

use compare::{LARGE_SHAPES, random_code_cube};
use jibrufath::processor::Instructions::{self, Avx2, Baseline};
use jibrufath::{Shape, encode, extract, fill, is_code_cube, mend, mend_axis};
use reference::random::Random;

/// Whether the system says that the processor has all of x86-64-v3.
fn has_v3() -> bool {
    let told = fs::read_to_string("/proc/cpuinfo").expect("Linux tells of the processor");
    let flags = told.lines().find(|line| line.starts_with("flags"));
    let flags: Vec<&str> = flags.unwrap_or("").split_whitespace().collect();
    // Linux calls lzcnt abm.
    let v3 = ["avx2", "bmi1", "bmi2", "f16c", "fma", "abm", "movbe"];
    v3.iter().all(|flag| flags.contains(flag))
}

#[test]
fn available_and_in_use() {
    let with_avx2 = has_v3() && !cfg!(feature = "baseline");
    let available: &[Instructions] = match with_avx2 {
        true => &[Baseline, Avx2],
        false => &[Baseline],
    };
    assert_eq!(Instructions::available(), available);
    assert_eq!(Some(&Instructions::in_use()), available.last());
}

#[test]
fn in_use_for_one_work_in_one_thread() {
    let usual = Instructions::in_use();
    Baseline.with(|| {
        assert_eq!(Instructions::in_use(), Baseline);
        let other = thread::spawn(Instructions::in_use).join();
        assert_eq!(other.expect("the thread ends"), usual);
    });
    assert_eq!(Instructions::in_use(), usual);
    let panicked = catch_unwind(|| Baseline.with(|| panic!("the work panics")));
    assert!(panicked.is_err());
    assert_eq!(Instructions::in_use(), usual);
    if !Instructions::available().contains(&Avx2) {
        assert!(catch_unwind(|| Avx2.with(|| ())).is_err());
    }
}

/// All that the calls on one cube leave.
fn all_calls(shape: Shape, damaged: &[u8], flags: &[u8]) -> Vec<Vec<u8>> {
    let (mut cube, mut filled) = (damaged.to_vec(), flags.to_vec());
    let left = fill(shape, &mut cube, &mut filled);
    let mut data = vec![1; shape.capacity().expect("the shape is good")];
    extract(shape, &cube, &mut data).expect("reads");
    let mut encoded = vec![2; cube.len()];
    encode(shape, &data, &mut encoded).expect("encodes");
    let mut second = vec![3; cube.len()];
    let mended = mend(shape, &cube, &vec![0; flags.len()], &mut second);
    let mut passed = damaged.to_vec();
    mend_axis(shape, 2, &mut passed).expect("the axis is good");
    let told = format!("{left:?}, {mended:?}, {:?}", is_code_cube(shape, &encoded));
    vec![
        cube,
        filled,
        data,
        encoded,
        second,
        passed,
        told.into_bytes(),
    ]
}

#[test]
fn the_same_bytes_from_both() {
    let mut random = Random::new(40);
    for shape in LARGE_SHAPES {
        let mut damaged = random_code_cube(&mut random, shape);
        let mut flags = vec![0; shape.cells().expect("the shape is good")];
        let burst = shape.l1 * shape.l2;
        let first = random.among(0..=flags.len() - burst);
        flags[first..first + burst].fill(1);
        let bytes = shape.w * first..shape.w * (first + burst);
        damaged[bytes].copy_from_slice(&random.bytes(shape.w * burst));
        let expected = Baseline.with(|| all_calls(shape, &damaged, &flags));
        for instructions in Instructions::available() {
            let given = instructions.with(|| all_calls(shape, &damaged, &flags));
            assert!(given == expected, "{shape:?}, {instructions:?}");
        }
    }
}
