//! The two linked programs: what they print for a pack on standard input, byte for byte as the independent program says.

use std::io::{ErrorKind, Write};
use std::path::PathBuf;
use std::process::{Command, Stdio};
use std::thread;

use compare::{KINDS, Source};
use reference::Shape;
use reference::pack::{Packet, pack};
use reference::programs;
use reference::random::Random;
use reference::write::data_string;

/// What is printed for an input, a cube or a written pack above 65,536 bytes.
const TOO_BIG: &[u8] = b"too big\n";

/// Packs of each kind that both programs are given.
const OF_A_KIND: usize = 30;

/// What the program prints for an input.
fn printed(program: &str, input: &[u8]) -> Vec<u8> {
    let path = PathBuf::from(env!("CARGO_MANIFEST_DIR"))
        .join("../../crates")
        .join(program)
        .join("out")
        .join(program);
    let mut child = Command::new(&path)
        .stdin(Stdio::piped())
        .stdout(Stdio::piped())
        .stderr(Stdio::piped())
        .spawn()
        .unwrap_or_else(|error| {
            panic!(
                "{}: {error}; run `rt run` in its crate first",
                path.display()
            )
        });
    let mut stdin = child.stdin.take().expect("standard input is a pipe");
    let output = thread::scope(|scope| {
        scope.spawn(move || match stdin.write_all(input) {
            // A program need not read all of an input that is too big.
            Err(error) if error.kind() != ErrorKind::BrokenPipe => panic!("{error}"),
            _ => {}
        });
        child.wait_with_output().expect("the program ends")
    });
    assert!(output.status.success(), "{program}: {}", output.status);
    assert!(output.stderr.is_empty(), "{program} writes an error");
    output.stdout
}

/// Both programs on one input, compared with the independent program.
fn compare_printed(what: &str, input: &[u8]) {
    for (program, expected) in [
        ("write", programs::write(input)),
        ("receive", programs::receive(input)),
    ] {
        let printed = printed(program, input);
        assert!(
            printed == expected,
            "{program}, {what}: {:?}\nand not {:?}",
            String::from_utf8_lossy(&printed),
            String::from_utf8_lossy(&expected)
        );
    }
}

#[test]
fn random_packs() {
    let mut random = Random::new(6001);
    for (kind, make) in KINDS {
        for _ in 0..OF_A_KIND {
            compare_printed(kind, &make(&mut random));
        }
    }
}

#[test]
fn example_of_document_01() {
    let shape = Shape::new(3, 3, 3, 5);
    let written = printed("write", &pack(shape, &[0x08], &[]));
    let source = Source::new(shape, &data_string(shape, &[0x08]));
    let all: Vec<usize> = (0..27).collect();
    assert_eq!(written, source.air_in_order(&all));
    let without_the_first = source.air_in_order(&all[1..]);
    assert_eq!(
        String::from_utf8_lossy(&printed("receive", &without_the_first)),
        "shape 3 3 3 5\npackets 26\nrepeats 0\nleft 0\nfile 1\n08\n"
    );
}

#[test]
fn lengths_of_files() {
    // Lines of 16 bytes.
    let shape = Shape::new(4, 3, 3, 40);
    for len in [0, 1, 15, 16, 17, 31, 32, 33, 76] {
        let file: Vec<u8> = (0..len).map(|i| 0xF8 ^ i as u8).collect();
        compare_printed("job", &pack(shape, &file, &[]));
        let source = Source::new(shape, &data_string(shape, &file));
        compare_printed("air", &source.air_in_order(&[3, 8, 3]));
    }
}

#[test]
fn large_inputs() {
    let mut random = Random::new(6002);
    let small = Shape::new(3, 3, 3, 31);
    let packet_of_34_bytes = Packet {
        place: [2, 1, 0],
        bytes: &[0x00; 31],
    };
    // 17 + 1,927 × 34 bytes.
    let mut air = pack(small, &[], &[packet_of_34_bytes; 1927]);
    assert_eq!(air.len(), 65_535);
    for (len, starts) in [
        (65_535, "shape 3 3 3 31\npackets 1927\nrepeats 1926\n"),
        (65_536, "refused 8\n"),
        (65_537, "too big\n"),
        (65_538, "too big\n"),
        (200_000, "too big\n"),
    ] {
        air.resize(len, 0);
        compare_printed(&format!("{len} bytes"), &air);
        let printed = String::from_utf8(printed("receive", &air)).expect("text");
        assert!(printed.starts_with(starts), "{len} bytes: {printed}");
    }
    for len in [65_535, 65_536, 65_537, 1_000_000] {
        compare_printed("garbage", &random.bytes(len));
        // A file that makes the job so long.
        let file = random.bytes(len - 17);
        compare_printed("job", &pack(Shape::new(20, 20, 20, 255), &file, &[]));
    }
}

#[test]
fn large_cubes() {
    let mut random = Random::new(6003);
    for (l1, l2, l3, w) in [
        (7, 7, 7, 188),       // a written pack of 65,530 bytes
        (5, 4, 4, 816),       // a written pack of 65,537, a cube of 65,280
        (16, 16, 16, 16),     // a cube of 65,536
        (4, 4, 4, 1024),      //
        (255, 4, 3, 21),      // a cube of 64,260
        (17, 241, 16, 1),     // a cube of 65,552
        (255, 255, 255, 16),  // the most cells
        (128, 128, 16, 1024), // the most bytes
        (255, 255, 255, 17),  // refused 3
    ] {
        let shape = Shape::new(l1, l2, l3, w);
        let what = format!("{shape:?}");
        compare_printed(&what, &pack(shape, &[1, 2, 3], &[]));
        compare_printed(&what, &pack(shape, &[], &[]));
        if shape.cube_bytes() <= 100_000 {
            let source = Source::with_file(&mut random, shape);
            let some = (0..shape.cells()).filter(|_| random.chance(80)).collect();
            compare_printed(&what, &source.air(&mut random, some));
            let few = random.different(10, shape.cells());
            compare_printed(&what, &source.air(&mut random, few));
        }
        // 8 comes before the place of 4.
        let after = [pack(shape, &[], &[]), vec![0]].concat();
        compare_printed(&what, &after);
    }
}

/// With unsent cells the pack may be below 65,536 bytes where its cube is above, or where the pack of all cells is: both are compared.
#[test]
fn cubes_and_packs_with_unsent_cells() {
    let mut random = Random::new(6004);
    // The shape, the used data cells, and the length of the pack that is written; none where the cube or the pack is too big.
    for (l1, l2, l3, w, used, written) in [
        (16, 16, 16, 16, 2744, None), // a pack of 77,845 bytes, a cube of 65,536
        (16, 16, 16, 16, 1, Some(25_728)), // the same cube
        (17, 16, 16, 16, 1, None),    // a cube of 69,632, a pack of 26,868
        (19, 19, 39, 2, 9717, Some(65_536)), // a cube of 28,158
        (19, 19, 39, 2, 9718, None),  // a pack of 65,541
        (3, 13, 39, 41, 375, None),   // a pack of 65,537
        (3, 13, 39, 41, 374, Some(65_493)), //
        (255, 255, 255, 16, 1, None), // the most cells
        (128, 128, 16, 1024, 1, None), // the most bytes
    ] {
        let header = Shape::new(l1, l2, l3, w).used(used);
        let what = format!("{header:?}");
        let job = pack(header, &[1, 2, 3], &[]);
        compare_printed(&what, &job);
        let printed = printed("write", &job);
        let len = (printed != TOO_BIG).then_some(printed.len());
        assert_eq!(len, written, "{what}");
        if header.shape.cube_bytes() > 100_000 {
            continue;
        }
        let source = Source::with_file(&mut random, header);
        let mut some = header.sent();
        some.retain(|_| random.chance(80));
        compare_printed(&what, &source.air(&mut random, some));
        compare_printed(&what, &pack(header, &[], &[]));
    }
}

/// Unsent cells are no holes, and the shape's line is as without them.
#[test]
fn holes_are_cells_that_were_sent() {
    let shape = Shape::new(5, 5, 5, 4);
    let nothing = pack(shape.used(1), &[], &[]);
    compare_printed("no packet", &nothing);
    let text = String::from_utf8(printed("receive", &nothing)).expect("text");
    let starts = "shape 5 5 5 4\npackets 0\nrepeats 0\nleft 27\nhole 0 0 0\nhole 3 0 0\n";
    assert!(text.starts_with(starts), "{text}");
    assert_eq!(text.lines().count(), 4 + 27);

    for (used, file, printed_by_write) in [
        (0, 0, "refused 19\n"),
        (28, 0, "refused 19\n"),
        (1, 1, "refused 19\n"),
        (27, 105, "refused 10\n"),
    ] {
        let job = pack(shape.used(used), &vec![7; file], &[]);
        compare_printed("refused", &job);
        assert_eq!(printed("write", &job), printed_by_write.as_bytes());
    }
}
