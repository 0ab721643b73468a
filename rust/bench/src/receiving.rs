//! Receiving of packs, and those of the reference set against memcpy of the cube.

use compare::patterns::in_succession;
use jibrufath::{AirPack, Error, Packet, Received, Refusal, Shape, packets, receive_pack, write};
use reference::random::Random;

use crate::REFERENCE_SET;
use crate::bars::Bar;
use crate::measure::{ROUNDS, ROWS, Row, beside_memcpy};

/// A list of packets to receive, by the numbers of their cells, those of them that are damaged, by their places in the list, and
/// whether the file comes back.
pub struct Kind {
    what: String,
    cells: Vec<usize>,
    damaged: Vec<usize>,
    whole: bool,
}

/// Packs of one shape, and the memory that they are received in.
pub struct Receiving {
    shape: Shape,
    kinds: Vec<Kind>,
    airs: Vec<Vec<u8>>,
    cube: Vec<u8>,
    flags: Vec<u8>,
    file: Vec<u8>,
}

/// Every packet once, and twice: the rows that a bar compares.
const ONCE: &str = "receive: all packets";
const TWICE: &str = "receive: all packets, twice";

/// Prints the table, and gives its rows and the bar that it is held to.
pub fn table() -> Result<(Vec<Row>, Bar), Error> {
    println!(
        "\
Receiving of 69 × 69 × 25, W 397: placing the packets, filling, and reading the file where nothing is left.

{ROWS}"
    );
    let rows = Receiving::new(REFERENCE_SET, kinds()?)?.rows(ROUNDS);
    rows.iter().for_each(Row::print);
    let [once, twice] = [ONCE, TWICE].map(|what| {
        let row = rows.iter().find(|row| row.what == what);
        row.expect("a row of the table").sse2.milliseconds
    });
    let bar = Bar {
        what: "reference set: receive, every packet twice over once".into(),
        measured: twice / once,
        most: 1.4,
    };
    Ok((rows, bar))
}

/// What is received of the reference set.
fn kinds() -> Result<Vec<Kind>, Refusal> {
    let cells = REFERENCE_SET.cells()?;
    let first = |percent: usize| -> Vec<usize> { (0..cells * percent / 100).collect() };
    let twice = [first(100), first(100)].concat();
    let one_in_100 = (cells..2 * cells).step_by(100);
    let burst = in_succession(REFERENCE_SET);
    Ok(vec![
        Kind::new(ONCE, first(100), true),
        Kind::without("receive: all but 2 × L1 × L2 in succession", &burst),
        Kind::new("receive: the first 25 % of the packets", first(25), false),
        Kind::new("receive: the first 50 %", first(50), false),
        Kind::new("receive: the first 75 %", first(75), false),
        Kind::new(TWICE, twice.clone(), true),
        Kind {
            damaged: one_in_100.collect(),
            ..Kind::new("receive: twice, 1 % of the second damaged", twice, true)
        },
    ])
}

impl Kind {
    fn new(what: &str, cells: Vec<usize>, whole: bool) -> Kind {
        Kind {
            what: what.into(),
            cells,
            damaged: vec![],
            whole,
        }
    }

    /// All packets but those of the flagged cells, which come back.
    pub fn without(what: &str, flags: &[u8]) -> Kind {
        let heard = (0..flags.len()).filter(|&cell| flags[cell] == 0);
        Kind::new(what, heard.collect(), true)
    }
}

impl Receiving {
    /// The packs of a written file, each received once to see that the file comes back exactly where it should.
    pub fn new(shape: Shape, kinds: Vec<Kind>) -> Result<Receiving, Error> {
        let file = Random::new(8).bytes(shape.file_bytes()?);
        let written = write(shape, &file)?;
        let packets: Vec<Packet> = packets(&written)?.collect();
        let airs = kinds.iter().map(|kind| air(shape, &packets, kind));
        let mut state = Receiving {
            shape,
            airs: airs.collect::<Result<_, _>>()?,
            kinds,
            cube: vec![1; shape.cube_bytes()?],
            flags: vec![1; shape.cells()?],
            file: vec![1; file.len()],
        };
        for pack in 0..state.kinds.len() {
            state.file.fill(1);
            let received = state.receive(pack)?;
            let Kind { what, whole, .. } = &state.kinds[pack];
            assert_eq!(*whole, matches!(received, Received::File { .. }), "{what}");
            assert_eq!(*whole, state.file == file, "{what}");
        }
        Ok(state)
    }

    /// All packs are received in the same rounds, so that a slow second of the machine falls on every row alike.
    pub fn rows(&mut self, rounds: usize) -> Vec<Row> {
        let receive_one = |pack: usize| {
            move |s: &mut Receiving| {
                s.receive(pack).expect("a code cube with losses");
            }
        };
        let each: Vec<_> = (0..self.kinds.len()).map(receive_one).collect();
        let work: Vec<_> = each
            .iter()
            .map(|one| one as &dyn Fn(&mut Receiving))
            .collect();
        let times = beside_memcpy(rounds, self.shape, self, |_| {}, &work);
        times.rows(self.kinds.iter().map(|kind| kind.what.as_str()))
    }

    fn receive(&mut self, pack: usize) -> Result<Received, Refusal> {
        let air = &self.airs[pack];
        receive_pack(air, &mut self.cube, &mut self.flags, &mut self.file)
    }
}

/// The pack of these of the packets of a written pack. A damaged one has another last byte.
fn air(shape: Shape, written: &[Packet], kind: &Kind) -> Result<Vec<u8>, Error> {
    let mut air = AirPack::new(shape)?;
    let head = air.as_bytes().len();
    for &cell in &kind.cells {
        air.push(written[cell])?;
    }
    let mut bytes = air.into_bytes();
    for &index in &kind.damaged {
        bytes[head + (index + 1) * (3 + shape.w) - 1] ^= 0x01;
    }
    Ok(bytes)
}
