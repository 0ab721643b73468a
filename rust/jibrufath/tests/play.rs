//! The player of recorded calls, targets/play.c: it passes what the independent program does, and tells any other answer, array or byte.

mod c;

use std::fs;
use std::path::{Path, PathBuf};
use std::process::Command;

use compare::{Calls, recorded};
use reference::{Scan, Shape};

const SHAPE: Shape = Shape {
    lengths: [4, 3, 3],
    w: 2,
};

/// The shape as calls take it.
const NUMBERS: [usize; 4] = [4, 3, 3, 2];

/// What a player says, and whether that ends well.
struct Said {
    good: bool,
    words: String,
}

/// Compiles the player with these words for the compiler besides.
fn player(name: &str, besides: &[&str]) -> PathBuf {
    c::compile(name, "targets/play.c", besides)
}

/// Plays a file.
fn play(player: &Path, file: &[u8]) -> Said {
    let path = player.with_extension("calls");
    fs::write(&path, file).expect("the file is written");
    let output = Command::new(player).arg(path).output();
    let output = output.expect("the player runs");
    Said {
        good: output.status.success(),
        words: String::from_utf8_lossy(&[output.stdout, output.stderr].concat()).into(),
    }
}

#[test]
fn what_the_independent_program_does() {
    let file = recorded(11, 410);
    assert!(file == recorded(11, 410) && file != recorded(12, 410));
    let Said { good, words } = play(&player("play", &[]), &file);
    let [counts, last] = words.lines().collect::<Vec<_>>()[..] else {
        panic!("{words}");
    };
    assert!(good && last.ends_with(" calls, 0 differences"), "{words}");
    let counts: Vec<&str> = counts.split(", ").collect();
    assert_eq!(counts.len(), 25);
    assert!(
        counts.iter().all(|count| !count.ends_with(" 0")),
        "{counts:?}"
    );
}

/// Extracts, and then lies about the answer or about what is left.
fn extracted(lie: fn(&mut [u8], &mut [u8]) -> Result<(), u8>) -> Vec<u8> {
    let (cube, data) = (vec![7; SHAPE.cube_bytes()], vec![9; SHAPE.capacity()]);
    let mut calls = Calls::default();
    calls.call("extract", [&cube, &data], &NUMBERS, |[cube, data]| {
        reference::extract(SHAPE, cube, data)?;
        lie(cube, data)
    });
    calls.into_file()
}

/// Scans the first line, which has no hole, and answers this.
fn scanned(answer: Scan) -> Vec<u8> {
    let numbers = [&NUMBERS[..], &[1, 0]].concat();
    let mut calls = Calls::default();
    calls.call("scan", [&[0; 36]], &numbers, |_| Ok::<_, u8>(answer));
    calls.into_file()
}

#[test]
fn lies() {
    let player = player("play_lies", &[]);
    let told = |file: &[u8], told: &str| {
        let Said { good, words } = play(&player, file);
        assert!(!good && words.contains(told), "{told}: {words}");
    };
    let truth = extracted(|_, _| Ok(()));
    assert!(play(&player, &truth).good);
    let lie = extracted(|_, _| Err(16));
    told(&lie, "call 0, extract: the answer is 0, and not 16");
    let lie = extracted(|cube, _| {
        cube[71] = 8;
        Ok(())
    });
    told(&lie, "extract: slice 0, byte 71 is 07h, and not 08h");
    let lie = extracted(|_, data| {
        data[0] = 9;
        Ok(())
    });
    told(&lie, "extract: slice 1, byte 0 is 07h, and not 09h");

    assert!(play(&player, &scanned(Scan { holes: 0, read: 4 })).good);
    let lie = scanned(Scan { holes: 1, read: 4 });
    told(&lie, "call 0, scan: array 0, place 0 is 0, and not 1");
    let lie = scanned(Scan { holes: 0, read: 3 });
    told(&lie, "call 0, scan: array 0, place 1 is 4, and not 3");

    for len in [0, 7, 9, 40, truth.len() - 1] {
        told(&truth[..len], "the file is cut");
    }
    told(&[&truth[..], &[0]].concat(), "bytes behind the last call");
    told(&Calls::default().into_file(), "0 calls, 0 differences");
    let mut calls = Calls::default();
    calls.call("encipher", [&[1]], &[], |_| Ok::<_, u8>(()));
    told(&calls.into_file(), "encipher: there is no such call");
}

/// An `extract` that also changes a byte beside its second slice.
const BESIDE: &str = "
#include \"jibrufath.h\"
static uint64_t beside(const uint8_t *cube, uint64_t cube_len, uint8_t *data, uint64_t data_len,
    uint64_t l1, uint64_t l2, uint64_t l3, uint64_t w)
{
    data[PLACE] ^= 1;
    return jibrufath_extract(cube, cube_len, data, data_len, l1, l2, l3, w);
}
#define jibrufath_extract beside
";

#[test]
fn bytes_beside_a_slice() {
    let header = Path::new(env!("CARGO_TARGET_TMPDIR")).join("beside.h");
    fs::write(&header, BESIDE).expect("the header is written");
    let header = header.to_str().expect("a path in characters");
    for (name, place) in [("play_before", "-1"), ("play_behind", "data_len")] {
        let player = player(name, &["-include", header, &format!("-DPLACE={place}")]);
        let Said { good, words } = play(&player, &extracted(|_, _| Ok(())));
        let told = words.contains("extract: a byte beside a slice has changed");
        assert!(!good && told, "{words}");
    }
}
