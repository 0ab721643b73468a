//! What the two programs print for the bytes on their standard input.

use crate::pack::{read_air, read_job};
use crate::{Outcome, Received, Refusal, Shape, receive_pack, write_pack};

/// The most bytes of an input, of a cube and of a written pack.
pub const MOST_BYTES: usize = 65_536;

const TOO_BIG: &str = "too big\n";

/// What the program `write` prints.
pub fn write(input: &[u8]) -> Vec<u8> {
    if input.len() > MOST_BYTES {
        return TOO_BIG.into();
    }
    let header = match read_job(input) {
        Err(number) => return refused(number),
        Ok(job) => job.header,
    };
    let [cube_bytes, pack_bytes] = [header.shape.cube_bytes(), header.pack_bytes()];
    if cube_bytes > MOST_BYTES || pack_bytes > MOST_BYTES {
        return TOO_BIG.into();
    }
    let mut cube = vec![0; cube_bytes];
    let mut output = vec![0; pack_bytes];
    match write_pack(input, &mut cube, &mut output) {
        Err(number) => refused(number),
        Ok(()) => output,
    }
}

/// What the program `receive` prints.
pub fn receive(input: &[u8]) -> Vec<u8> {
    if input.len() > MOST_BYTES {
        return TOO_BIG.into();
    }
    let shape = match read_air(input) {
        Err(number) => return refused(number),
        Ok(air) => air.header.shape,
    };
    if shape.cube_bytes() > MOST_BYTES {
        return TOO_BIG.into();
    }
    let mut cube = vec![0; shape.cube_bytes()];
    let mut flags = vec![0; shape.cells()];
    let mut file = vec![0; shape.file_bytes()];
    match receive_pack(input, &mut cube, &mut flags, &mut file) {
        Err(Refusal { number, .. }) => refused(number),
        Ok(received) => report(shape, received, &flags, &file).into(),
    }
}

fn refused(number: u8) -> Vec<u8> {
    format!("refused {number}\n").into()
}

fn report(shape: Shape, received: Received, flags: &[u8], file: &[u8]) -> String {
    let Received {
        outcome,
        packets,
        repeats,
        ..
    } = received;
    let [l1, l2, l3] = shape.lengths;
    let w = shape.w;
    let head = format!("shape {l1} {l2} {l3} {w}\npackets {packets}\nrepeats {repeats}\n");
    let rest = match outcome {
        Outcome::File { len } => format!("left 0\nfile {len}\n{}", hexadecimal(&file[..len])),
        Outcome::Left { cells } => format!("left {cells}\n{}", holes(shape, flags)),
    };
    head + &rest
}

/// Lines of 16 bytes, the last perhaps shorter.
fn hexadecimal(bytes: &[u8]) -> String {
    let line = |bytes: &[u8]| {
        let digits: Vec<String> = bytes.iter().map(|byte| format!("{byte:02x}")).collect();
        digits.join(" ") + "\n"
    };
    bytes.chunks(16).map(line).collect()
}

/// A line for each cell left, in cell order.
fn holes(shape: Shape, flags: &[u8]) -> String {
    (0..shape.cells())
        .filter(|&cell| flags[cell] == 1)
        .map(|cell| {
            let [a, b, c] = shape.coordinates(cell);
            format!("hole {a} {b} {c}\n")
        })
        .collect()
}

#[cfg(test)]
mod tests {
    use super::*;
    use crate::Header;
    use crate::pack::{Air, pack};

    /// What `receive` prints for the packets of a file whose index passes the test.
    fn received(header: impl Into<Header>, file: &[u8], keep: impl Fn(usize) -> bool) -> String {
        let written = write(&pack(header, file, &[]));
        let Air { header, packets } = read_air(&written).unwrap();
        let kept: Vec<_> = (0..packets.len())
            .filter(|&index| keep(index))
            .map(|index| packets[index])
            .collect();
        String::from_utf8(receive(&pack(header, &[], &kept))).unwrap()
    }

    #[test]
    fn example_of_document_01() {
        assert_eq!(
            received(Shape::new(3, 3, 3, 5), &[0x08], |index| index != 0),
            "shape 3 3 3 5\npackets 26\nrepeats 0\nleft 0\nfile 1\n08\n"
        );
    }

    #[test]
    fn lines_of_sixteen_bytes() {
        let file: Vec<u8> = (0xF0..=0xFF).chain([0x00]).collect();
        for (len, lines) in [
            (0, "file 0\n"),
            (1, "file 1\nf0\n"),
            (
                16,
                "file 16\nf0 f1 f2 f3 f4 f5 f6 f7 f8 f9 fa fb fc fd fe ff\n",
            ),
            (
                17,
                "file 17\nf0 f1 f2 f3 f4 f5 f6 f7 f8 f9 fa fb fc fd fe ff\n00\n",
            ),
        ] {
            let head = "shape 4 3 3 300\npackets 36\nrepeats 0\nleft 0\n";
            let printed = received(Shape::new(4, 3, 3, 300), &file[..len], |_| true);
            assert_eq!(printed, head.to_owned() + lines);
        }
    }

    #[test]
    fn holes_in_cell_order() {
        let printed = received(Shape::new(3, 4, 3, 2), &[], |index| index / 3 % 4 == 2);
        let head = "shape 3 4 3 2\npackets 9\nrepeats 0\nleft 27\nhole 0 0 0\nhole 1 0 0\nhole 2 0 0\nhole 0 1 0\n";
        assert_eq!(printed[..head.len()], *head);
        assert!(printed.ends_with("hole 1 3 2\nhole 2 3 2\n"));
        assert_eq!(printed.lines().count(), 4 + 27);
    }

    /// Unsent cells are no holes, and the shape line does not say how many there are.
    #[test]
    fn holes_are_cells_that_were_sent() {
        let header = Shape::new(5, 5, 5, 4).used(1);
        let printed = received(header, &[], |_| false);
        assert!(
            printed.starts_with(
                "shape 5 5 5 4\npackets 0\nrepeats 0\nleft 27\nhole 0 0 0\nhole 3 0 0\n"
            )
        );
        assert_eq!(printed.lines().count(), 4 + 27);
        let printed = received(header, &[], |index| index != 0);
        assert_eq!(
            printed,
            "shape 5 5 5 4\npackets 98\nrepeats 0\nleft 0\nfile 0\n"
        );
    }

    #[test]
    fn too_big_or_refused() {
        let most = Shape::new(16, 16, 16, 16);
        let more = Shape::new(17, 16, 16, 16);
        let after = |shape| [pack(shape, &[], &[]), vec![0]].concat();
        for (input, write_prints, receive_prints) in [
            (vec![0; 65_537], "too big\n", "too big\n"),
            (vec![0; 65_536], "refused 7\n", "refused 7\n"),
            (vec![], "refused 6\n", "refused 6\n"),
            (pack(more, &[], &[]), "too big\n", "too big\n"),
            // 8 comes before the place of 4.
            (after(more), "refused 8\n", "refused 8\n"),
            // A cube of 65,536 bytes passes, its pack does not.
            (pack(most, &[], &[]), "too big\n", "shape 16 16 16 16\n"),
            // With cells that are not sent the pack is small enough, but not the cube of 69,632 bytes.
            (pack(most.used(1), &[], &[]), "\u{9}", "shape 16 16 16 16\n"),
            (pack(more.used(1), &[], &[]), "too big\n", "too big\n"),
            (pack(more.used(0), &[], &[]), "refused 19\n", "refused 19\n"),
        ] {
            assert!(write(&input).starts_with(write_prints.as_bytes()));
            assert!(receive(&input).starts_with(receive_prints.as_bytes()));
        }
    }
}
