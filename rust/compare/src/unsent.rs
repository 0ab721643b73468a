//! Packs with data cells that are never sent: section 1 has count 9, and its last four bytes say how many data cells are in use.

use reference::pack::{COUNT, Packet, pack, packet};
use reference::random::Random;
use reference::{Header, Shape};

use crate::Source;
use crate::packs::{job_of, roomy_shape};

/// Where the number of data cells in use stands in a pack.
const USED_AT: usize = 9;

/// A number of data cells in use that has room for the file's length: the least, the most, one at the end of a row or of a plane or
/// beside it, or any.
pub fn random_used(random: &mut Random, shape: Shape) -> Header {
    let [row, rows, _] = shape.lengths.map(|length| length - 2);
    let most = shape.number_of_data_cells();
    let least = COUNT.div_ceil(shape.w);
    let run = random.pick(&[row, row * rows]);
    let end = run * random.among(1..=most / run);
    let used = match random.among(0..=5) {
        0 => least,
        1 => most,
        2 => end,
        3 => random.pick(&[end - 1, end + 1]),
        _ => random.among(least..=most),
    };
    shape.used(used.clamp(least, most))
}

/// A random number of data cells in use, in a shape in which some are not.
fn some_unsent(random: &mut Random) -> Header {
    loop {
        let shape = roomy_shape(random);
        let header = random_used(random, shape);
        if header.used_cells() < shape.number_of_data_cells() {
            return header;
        }
    }
}

/// Packets of the cells that are sent, and among them one or two for unsent cells, with 00h or other bytes; now and then also one that
/// is outside the cube.
pub(crate) fn unsent_packet(random: &mut Random) -> Vec<u8> {
    let header = some_unsent(random);
    let shape = header.shape;
    let source = Source::with_file(random, header);
    let unsent: Vec<usize> = shape.data_cells().skip(header.used_cells()).collect();
    let other = random.bytes(shape.w);
    let count = random.among(0..=10);
    let sent = random.shuffled(&header.sent()).into_iter().take(count);
    let mut packets: Vec<Packet> = sent.map(|cell| packet(shape, &source.cube, cell)).collect();
    for _ in 0..random.among(1..=2) {
        let mut unsent = packet(shape, &source.cube, random.pick(&unsent));
        if random.chance(50) {
            unsent.bytes = &other;
        }
        packets.insert(random.among(0..=packets.len()), unsent);
    }
    if random.chance(30) {
        let mut outside = packets[0];
        let axis = random.among(0..=2);
        outside.place[axis] = random.among(shape.lengths[axis]..=255) as u8;
        packets.insert(random.among(0..=packets.len()), outside);
    }
    pack(header, &[], &packets)
}

/// A job or an air pack with another number of data cells in use: none, one too many, one that is good in its low bytes alone, or any.
pub(crate) fn other_used(random: &mut Random) -> Vec<u8> {
    let shape = roomy_shape(random);
    let header = random_used(random, shape);
    let mut pack = match random.chance(50) {
        true => job_of(random, header),
        false => Source::with_file(random, header).some_of_it(random),
    };
    let most = shape.number_of_data_cells() as u32;
    let used = header.used_cells() as u32;
    let others = [
        0,
        1,
        most,
        most + 1,
        used.saturating_sub(1),
        used + 1,
        used + (1 << 24),
        used + (1 << 31),
        u32::MAX,
        random.number() as u32,
    ];
    pack[USED_AT..USED_AT + COUNT].copy_from_slice(&random.pick(&others).to_le_bytes());
    pack
}

/// A file for which the data cells in use have just room, or that is a byte too long for them, whole or cut; in cells of a few bytes
/// perhaps one for which they have not even room for its length.
pub(crate) fn file_at_the_limit(random: &mut Random) -> Vec<u8> {
    let shape = roomy_shape(random);
    let most = shape.number_of_data_cells();
    let header = match random.chance(30) {
        true => shape.used(random.among(1..=most)),
        false => random_used(random, shape),
    };
    let room = (header.used_cells() * shape.w).saturating_sub(COUNT);
    let len = room + random.among(0..=1);
    let mut job = pack(header, &random.bytes(len), &[]);
    if random.chance(20) {
        job.truncate(random.among(0..=job.len()));
    }
    job
}

/// Section 1 of count 9, cut anywhere; perhaps with a length or a number of data cells in use that is bad.
pub(crate) fn header_cut(random: &mut Random) -> Vec<u8> {
    let shape = roomy_shape(random);
    let header = random_used(random, shape);
    let mut head = pack(header, &[], &[]);
    match random.among(0..=3) {
        0 => head[random.among(COUNT..=COUNT + 2)] = random.among(0..=2) as u8,
        1 => head[USED_AT..USED_AT + COUNT].fill(0),
        _ => {}
    }
    head.truncate(random.among(0..=USED_AT + COUNT));
    head
}

#[cfg(test)]
mod tests {
    use super::*;
    use reference::pack::{read_air, read_job};
    use std::collections::BTreeSet;

    #[test]
    fn numbers_of_data_cells_in_use() {
        let mut random = Random::new(13_101);
        // 3 rows of 2 data cells in a plane, and 4 planes.
        let shape = Shape::new(4, 5, 6, 2);
        let seen: BTreeSet<usize> = (0..2_000)
            .map(|_| random_used(&mut random, shape).used_cells())
            .collect();
        assert!(seen.into_iter().eq(2..=24));
    }

    #[test]
    fn packs_at_the_limits() {
        let mut random = Random::new(13_102);
        let mut jobs = [0; 2];
        for _ in 0..1_000 {
            let air = unsent_packet(&mut random);
            assert!(read_air(&air).is_ok());
            assert!(reference::text_bytes(&air).is_err());
            let job = file_at_the_limit(&mut random);
            match read_job(&job).err() {
                None => jobs[0] += 1,
                Some(19) => jobs[1] += 1,
                _ => {}
            }
        }
        assert!(jobs.iter().all(|&count| count > 200), "{jobs:?}");
    }
}
