//! The iterator over packets and the builder of air packs, on packs of every kind and against the independent program.

use compare::{KINDS, SHAPES_AT_THE_LIMITS, Source, random_shape, twin};
use jibrufath::{
    AirPack, Error, Header, Packet, Refusal, Shape, job_pack, packets, receive, write,
};
use reference::pack::{pack, read_air};
use reference::random::Random;

/// The air pack of these packets.
fn built<'a>(
    header: impl Into<Header>,
    packets: impl IntoIterator<Item = Packet<'a>>,
) -> Result<AirPack, Error> {
    let mut air = AirPack::new(header)?;
    for packet in packets {
        air.push(packet)?;
    }
    Ok(air)
}

/// A packet as the independent program has it.
fn twin_packet(packet: Packet<'_>) -> reference::pack::Packet<'_> {
    reference::pack::Packet {
        place: packet.coordinates,
        bytes: packet.bytes,
    }
}

/// The iterator gives the packets of the independent program, or its refusal.
fn compare_packets(kind: &str, air: &[u8]) {
    match (packets(air), read_air(air)) {
        (Ok(packets), Ok(expected)) => {
            assert_eq!(packets.len(), expected.packets.len(), "{kind}");
            let back: Vec<_> = packets.clone().rev().map(twin_packet).collect();
            let packets: Vec<_> = packets.map(twin_packet).collect();
            assert_eq!(packets, expected.packets, "{kind}");
            assert!(back.iter().rev().eq(&packets), "{kind}");
        }
        (Err(refusal), Err(number)) => assert_eq!(refusal.number(), number, "{kind}"),
        (told, expected) => panic!("{kind}: {told:?}, and not {expected:?}"),
    }
}

#[test]
fn packets_of_every_kind_of_pack() {
    let mut random = Random::new(8001);
    for case in 0..7_200 {
        let (kind, make) = KINDS[case % KINDS.len()];
        let air = make(&mut random);
        compare_packets(kind, &air);
        // Also with a byte changed, and cut.
        if let Some(last) = air.len().checked_sub(1) {
            let mut damaged = air;
            damaged[random.among(0..=last)] ^= random.nonzero_byte();
            compare_packets(kind, &damaged);
            damaged.truncate(random.among(0..=last));
            compare_packets(kind, &damaged);
        }
    }
}

#[test]
fn a_pack_taken_apart_and_built_again() {
    let mut random = Random::new(8002);
    let mut rebuilt = 0;
    for case in 0..7_200 {
        let (kind, make) = KINDS[case % KINDS.len()];
        let air = make(&mut random);
        let Ok(packets) = packets(&air) else {
            continue;
        };
        let header = Header::of_pack(&air).expect("a pack with packets has a header");
        let outside = packets
            .clone()
            .position(|packet| !header.sends(packet.coordinates));
        match (built(header, packets), outside) {
            (Ok(again), None) => assert!(again.as_bytes() == air, "{kind}"),
            // The builder refuses the packet that the receiver would.
            (Err(error), Some(index)) => {
                let packet = index as u64;
                assert_eq!(error, Refusal::CellIndex { packet }.into(), "{kind}");
                let received = receive(&air);
                let limited = matches!(received, Err(Error::Limit { .. }));
                assert!(limited || received == Err(error), "{kind}: {received:?}");
            }
            (again, outside) => panic!("{kind}: {again:?}, {outside:?}"),
        }
        rebuilt += 1;
    }
    assert!(rebuilt > 3_000, "{rebuilt}");
}

#[test]
fn any_list_of_packets_round_trips() {
    let mut random = Random::new(8003);
    for _ in 0..400 {
        let shape = random_shape(&mut random);
        let other = twin(shape);
        if other.capacity() < 4 {
            continue;
        }
        let len = random.among(0..=other.file_bytes());
        let file = random.bytes(len);
        let written = write(shape, &file).expect("the file fits");
        let all: Vec<Packet> = packets(&written).expect("a written pack").collect();
        let count = random.among(0..=2 * all.len());
        let list: Vec<usize> = (0..count)
            .map(|_| random.among(0..=all.len() - 1))
            .collect();
        let air = built(shape, list.iter().map(|&cell| all[cell])).expect("packets of the cube");
        assert_eq!(air.packets() as usize, count);

        let source = Source::new(other, &reference::write::data_string(other, &file));
        assert!(air.as_bytes() == source.air_in_order(&list), "{shape:?}");
        let mut lost = vec![true; all.len()];
        list.iter().for_each(|&cell| lost[cell] = false);
        let stuck = reference::fill::largest_stopping_set(other, &lost);
        let reception = receive(air.as_bytes()).expect("packets of one code cube");
        assert!(
            reception
                .left()
                .eq((0..lost.len()).filter(|&cell| stuck[cell]))
        );
        assert!(
            reception
                .into_file()
                .is_none_or(|received| received == file)
        );
    }
}

#[test]
fn more_than_255_packets() {
    // A count of more than a byte.
    let shape = Shape::new(10, 10, 10, 4);
    let written = write(shape, &[7; 1000]).expect("the file fits");
    for heard in [255, 256, 257, 999, 1000] {
        let air = built(shape, packets(&written).expect("a pack").take(heard)).expect("packets");
        assert_eq!(packets(air.as_bytes()).expect("a pack").len(), heard);
        let reception = receive(air.as_bytes()).expect("packets of one code cube");
        assert_eq!(reception.into_file().is_some(), heard > 900, "{heard}");
    }
}

#[test]
fn packets_that_the_builder_refuses() {
    let shape = Shape::new(5, 4, 3, 2);
    let mut air = built(
        shape,
        [Packet {
            coordinates: [4, 3, 2],
            bytes: &[1, 2],
        }],
    )
    .expect("the last cell");
    let outside = Refusal::CellIndex { packet: 1 };
    for (coordinates, bytes, refusal) in [
        ([5, 0, 0], &[1, 2][..], outside),
        ([0, 4, 0], &[1, 2], outside),
        ([0, 0, 3], &[1, 2], outside),
        ([255, 255, 255], &[1, 2], outside),
        ([0, 0, 0], &[], Refusal::SliceLength),
        ([0, 0, 0], &[1], Refusal::SliceLength),
        ([0, 0, 0], &[1, 2, 3], Refusal::SliceLength),
        // The first of several reasons counts.
        ([5, 0, 0], &[1], Refusal::SliceLength),
    ] {
        let before = air.clone();
        let packet = Packet { coordinates, bytes };
        assert_eq!(air.push(packet), Err(refusal.into()), "{packet:?}");
        assert_eq!(air, before, "{packet:?}");
    }
}

#[test]
fn shapes_and_files_that_are_refused() {
    for (shape, number) in SHAPES_AT_THE_LIMITS {
        // A good shape may still have no room for the file's length.
        let refusal = match number {
            4 if twin(shape).capacity() >= 4 => None,
            4 => Some(10),
            _ => Some(number),
        };
        let numbered = |error| match error {
            Error::Refused(refusal) => refusal.number(),
            other => panic!("{shape:?}: {other}"),
        };
        assert_eq!(
            AirPack::new(shape).err().map(numbered),
            refusal,
            "{shape:?}"
        );
        assert_eq!(
            job_pack(shape, &[]).err().map(numbered),
            refusal,
            "{shape:?}"
        );
        let Ok(room) = shape.file_bytes() else {
            continue;
        };
        if room < 1_000_000 {
            let file = vec![7; room + 1];
            let fits = job_pack(shape, &file[..room]).expect("the file fits");
            assert!(fits == pack(twin(shape), &file[..room], &[]), "{shape:?}");
            assert_eq!(job_pack(shape, &file), Err(Refusal::Capacity.into()));
        }
    }
}
