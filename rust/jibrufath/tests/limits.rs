//! Packs that ask for much memory: what the receiver takes by default, by a limit, and where the system has none.

use std::env;
use std::process::Command;

use compare::{KINDS, LARGE_SHAPES, SHAPES_AT_THE_LIMITS, Source, twin};
use jibrufath::text::{from_text, to_text};
use jibrufath::{
    AirPack, Error, Reception, Shape, default_limit, needs, packets, receive, receive_within, write,
};
use reference::random::Random;

/// The air pack of a shape without a packet: 17 bytes.
fn no_packet(shape: Shape) -> Vec<u8> {
    AirPack::new(shape).expect("a good shape").into_bytes()
}

#[test]
fn short_packs_of_large_cubes() {
    let mut large = 0;
    for (shape, number) in SHAPES_AT_THE_LIMITS {
        if number != 4 || twin(shape).capacity() < 4 {
            continue;
        }
        let air = no_packet(shape);
        let bytes = needs(&air).expect("a good shape").receiver_bytes();
        match receive(&air) {
            Ok(reception) => assert_eq!(reception.left().count(), twin(shape).cells()),
            Err(error) => {
                let limit = default_limit(&air);
                assert!(bytes > limit && limit == 1 << 20, "{shape:?}");
                assert_eq!(error, Error::Limit { bytes, limit }, "{shape:?}");
                large += 1;
            }
        }
        // What is not well formed is refused as such, and not for its size.
        let refused = receive_within(&air[..16], 0);
        assert!(matches!(refused, Err(Error::Refused(_))), "{refused:?}");
    }
    assert!(large >= 4, "{large}");
}

#[test]
fn a_limit_to_the_byte() {
    let air = no_packet(Shape::new(5, 4, 3, 16));
    let bytes = 960 + 60 + 92;
    for limit in [0, 1, bytes - 1] {
        let error = Error::Limit { bytes, limit };
        assert_eq!(receive_within(&air, limit), Err(error));
    }
    for limit in [bytes, bytes + 1, usize::MAX] {
        let reception = receive_within(&air, limit).expect("memory enough");
        assert!(matches!(reception, Reception::Left { cells: 60, .. }));
    }
}

/// No pack that gives a file asks for more than the default where all data cells are used: of every kind, and with as few packets as
/// there are data cells.
#[test]
fn files_stay_within_the_default() {
    let mut random = Random::new(9001);
    let mut files = 0;
    for case in 0..3_600 {
        let (kind, make) = KINDS[case % KINDS.len()];
        let air = make(&mut random);
        if air.first() == Some(&9) {
            continue;
        }
        if let Ok(Reception::File { .. }) = receive_within(&air, 100_000_000) {
            let bytes = needs(&air).expect("a good pack").receiver_bytes();
            assert!(bytes < 28 * air.len(), "{kind}");
            assert!(
                matches!(receive(&air), Ok(Reception::File { .. })),
                "{kind}"
            );
            files += 1;
        }
    }
    assert!(files > 500, "{files}");

    let smallest = [Shape::new(3, 3, 3, 1024), Shape::new(3, 3, 255, 1024)];
    for shape in smallest.into_iter().chain(LARGE_SHAPES) {
        let other = twin(shape);
        let source = Source::with_file(&mut random, other);
        let data_cells: Vec<usize> = (0..other.cells()).filter(|&n| other.is_data(n)).collect();
        let air = source.air_in_order(&data_cells);
        let reception = receive(&air).expect("the default is enough");
        assert!(matches!(reception, Reception::File { .. }), "{shape:?}");
    }
}

/// Where few data cells are used, a pack with every packet that is sent stays within the default; one packet of a big cube does not.
#[test]
fn unsent_cells_and_the_default() {
    for shape in [
        Shape::new(3, 3, 3, 1024),
        Shape::new(69, 69, 25, 9),
        Shape::new(140, 140, 140, 4),
        Shape::new(255, 255, 20, 4),
    ] {
        let header = shape.used_by(0);
        let written = write(header, &[]).expect("memory for the cube");
        let reception = receive(&written).expect("the default is enough");
        assert_eq!(reception.into_file(), Some(vec![]), "{shape:?}");

        let mut air = AirPack::new(header).expect("a good header");
        let first = packets(&written).expect("a written pack").next();
        air.push(first.expect("packets")).expect("the cell in use");
        let air = air.as_bytes();
        let bytes = needs(air).expect("a good pack").receiver_bytes();
        let limit = default_limit(air);
        if bytes > limit {
            assert_eq!(receive(air), Err(Error::Limit { bytes, limit }));
        }
        let reception = receive_within(air, bytes).expect("memory enough");
        assert_eq!(reception.into_file(), Some(vec![]), "{shape:?}");
    }
}

/// In 200 MB of address space the system has no memory for the largest cubes, nor for a long text or its pack: the calls say so and
/// go on.
#[test]
fn no_memory() {
    const CHILD: &str = "JIBRUFATH_SHORT_OF_MEMORY";
    if env::var_os(CHILD).is_some() {
        return short_of_memory();
    }
    let program = env::current_exe().expect("the test's own program");
    let output = Command::new("sh")
        .args(["-c", "ulimit -v 200000 && exec \"$0\" --exact no_memory"])
        .arg(program)
        .env(CHILD, "yes")
        .output()
        .expect("a shell");
    assert!(output.status.success(), "{output:?}");
}

fn short_of_memory() {
    let shape = Shape::new(255, 255, 255, 16);
    let bytes = twin(shape).cube_bytes();
    let short = Err(Error::Allocation { bytes });
    assert_eq!(receive_within(&no_packet(shape), usize::MAX), short);
    assert_eq!(
        write(shape, b"a file").err(),
        Some(Error::Allocation { bytes })
    );
    let small = write(Shape::new(3, 3, 3, 5), &[0x08]).expect("memory for a small cube");
    assert_eq!(
        receive(&small).expect("as much").into_file(),
        Some(vec![0x08])
    );
    short_of_memory_for_texts();
}

/// A pack of 21 MB, and its text of 62, where less than 16 are left.
fn short_of_memory_for_texts() {
    const W: usize = 1024;
    const PACKETS: usize = 20_000;
    let shape = Shape::new(3, 3, 3, W);
    let mut air = no_packet(shape);
    air[13..].copy_from_slice(&(PACKETS as u32).to_le_bytes());
    air.resize(17 + PACKETS * (3 + W), 0x00);
    let text = to_text(&air).expect("memory for a text");

    let taken = all_but(16_000_000);
    let bytes = text.len();
    assert_eq!(to_text(&air), Err(Error::Allocation { bytes }));
    let bytes = air.len();
    let short = Err(Error::Allocation { bytes });
    assert_eq!(from_text(text.as_bytes()), short);
    drop(taken);
    assert!(from_text(text.as_bytes()) == Ok(air));
}

/// Takes memory until the system has no piece of so many bytes left.
fn all_but(bytes: usize) -> Vec<Vec<u8>> {
    let mut taken = Vec::new();
    loop {
        let mut piece: Vec<u8> = Vec::new();
        if piece.try_reserve_exact(bytes).is_err() {
            return taken;
        }
        taken.push(piece);
    }
}
