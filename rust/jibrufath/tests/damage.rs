//! Damage that mending undoes, compared with the independent program: up to seven wrong bytes of each layer wherever they are, seven packets, a
//! whole plane, and all else without two planes that each have two rows with two wrong bytes; and a box of eight, which it does not undo.

use compare::{
    LARGE_SHAPES, Mended, lightest_cube, random_box, random_code_cube, random_shape, twin,
};
use jibrufath::Shape;
use reference::random::Random;

/// A code cube, and the same with wrong bytes.
struct Damage {
    shape: Shape,
    right: Vec<u8>,
    damaged: Vec<u8>,
}

impl Damage {
    fn none(random: &mut Random, shape: Shape) -> Damage {
        let right = random_code_cube(random, shape);
        let damaged = right.clone();
        Damage {
            shape,
            right,
            damaged,
        }
    }

    /// Adds to the byte of a cell in a layer.
    fn add(&mut self, cell: usize, layer: usize, wrong: u8) {
        self.damaged[cell * self.shape.w + layer] ^= wrong;
    }

    /// Puts other bytes into a cell, any of them right or wrong.
    fn overwrite(&mut self, random: &mut Random, cell: usize) {
        let bytes = random.bytes(self.shape.w);
        self.damaged[twin(self.shape).bytes(cell)].copy_from_slice(&bytes);
    }

    /// Makes at most seven bytes of a layer wrong, in a way that is hard on the passes.
    fn spoil_layer(&mut self, random: &mut Random, layer: usize) {
        let count = random.pick(&[0, 1, 2, 3, 4, 5, 6, 7, 7, 7, 7, 7]);
        let same = random.nonzero_byte();
        match random.among(0..=3) {
            // Anywhere.
            0 => {
                for cell in random.different(count, twin(self.shape).cells()) {
                    self.add(cell, layer, random.nonzero_byte());
                }
            }
            // A box of 2 by 2 by 2 without one cell, one error in all: where two are on a line the first sum is 00h.
            1 => self.spoil_box(random, layer, [2; 3], count, Some(same)),
            // Close together, on few lines.
            2 => {
                let sizes = random.pick(&[[7, 1, 1], [1, 7, 1], [1, 1, 7], [2, 4, 1], [2, 2, 3]]);
                let same = random.chance(50).then_some(same);
                self.spoil_box(random, layer, sizes, count, same);
            }
            _ => self.spoil_towards_another(random, layer, count),
        }
    }

    /// Makes up to so many bytes wrong in a box of random places, by one error or each by its own.
    fn spoil_box(
        &mut self,
        random: &mut Random,
        layer: usize,
        sizes: [usize; 3],
        count: usize,
        same: Option<u8>,
    ) {
        let cells = random_box(random, self.shape, sizes);
        for i in random.different(count.min(cells.len()), cells.len()) {
            let wrong = same.unwrap_or_else(|| random.nonzero_byte());
            self.add(cells[i], layer, wrong);
        }
    }

    /// Adds so many bytes of a lightest code cube, of two places along each axis: two wrong bytes of a line then look like one at a third place,
    /// which a pass puts in.
    fn spoil_towards_another(&mut self, random: &mut Random, layer: usize, count: usize) {
        let mut corners = lightest_cube(random, self.shape);
        corners.retain(|light| light.place.iter().all(|&place| place < 2));
        for i in random.different(count, corners.len()) {
            self.add(corners[i].cell, layer, corners[i].byte);
        }
    }

    /// How many bytes of a layer are wrong.
    fn wrong(&self, layer: usize) -> usize {
        let differ = |cell: &usize| {
            let byte = cell * self.shape.w + layer;
            self.damaged[byte] != self.right[byte]
        };
        (0..twin(self.shape).cells()).filter(differ).count()
    }

    fn mend(&self, random: &mut Random) -> Mended {
        Mended::compare(random, self.shape, &self.right, &self.damaged)
    }

    fn assert_restored(&self, random: &mut Random, what: &str) {
        let shape = self.shape;
        assert_eq!(self.mend(random), Mended::Restored, "{shape:?}, {what}");
    }
}

/// Up to seven wrong bytes in each layer of a cube, all layers at once.
fn seven_a_layer(random: &mut Random, shape: Shape) -> Damage {
    let mut damage = Damage::none(random, shape);
    for layer in 0..shape.w {
        damage.spoil_layer(random, layer);
    }
    damage
}

#[test]
fn seven_bytes_a_layer() {
    let mut random = Random::new(4101);
    let mut full_layers = 0;
    for _ in 0..10_000 {
        let shape = random_shape(&mut random);
        let damage = seven_a_layer(&mut random, shape);
        let wrong = (0..shape.w).map(|layer| damage.wrong(layer));
        full_layers += wrong.filter(|&wrong| wrong == 7).count();
        damage.assert_restored(&mut random, "up to seven bytes a layer");
    }
    assert!(full_layers > 50_000, "{full_layers}");
}

#[test]
fn seven_bytes_a_layer_of_long_and_large_cubes() {
    let mut random = Random::new(4102);
    for _ in 0..600 {
        let mut lengths = [0; 3].map(|_| random.among(3..=5));
        let long = random.among(0..=2);
        lengths[long] = random.pick(&[100, 200, 254, 255]);
        if random.chance(20) {
            lengths[(long + 1) % 3] = random.pick(&[64, 65, 255]);
        }
        let [l1, l2, l3] = lengths;
        let shape = Shape::new(l1, l2, l3, random.among(1..=4));
        seven_a_layer(&mut random, shape).assert_restored(&mut random, "long axes");
    }
    for shape in LARGE_SHAPES {
        seven_a_layer(&mut random, shape).assert_restored(&mut random, "large");
    }
}

#[test]
fn seven_packets() {
    let mut random = Random::new(4103);
    for case in 0..2_000 {
        let shape = random_shape(&mut random);
        let mut damage = Damage::none(&mut random, shape);
        let cells = match case % 2 {
            0 => random.different(7, twin(shape).cells()),
            _ => random_box(&mut random, shape, [2; 3]).split_off(1),
        };
        for cell in cells {
            damage.overwrite(&mut random, cell);
        }
        damage.assert_restored(&mut random, "seven packets");
    }
}

#[test]
fn a_whole_plane() {
    let mut random = Random::new(4104);
    let shapes: Vec<Shape> = (0..500).map(|_| random_shape(&mut random)).collect();
    for shape in shapes.into_iter().chain(LARGE_SHAPES) {
        for axis in 0..3 {
            let mut damage = Damage::none(&mut random, shape);
            let place = random.among(0..=twin(shape).lengths[axis] - 1);
            for cell in 0..twin(shape).cells() {
                if twin(shape).coordinates(cell)[axis] == place {
                    damage.overwrite(&mut random, cell);
                }
            }
            damage.assert_restored(&mut random, &format!("place {place} on axis {}", axis + 1));
        }
    }
}

/// One plane is garbage, in every other one row is, and in every other row one cell at most.
#[test]
fn no_two_planes_with_two_rows_with_two_wrong_bytes() {
    let mut random = Random::new(4105);
    for _ in 0..2_000 {
        let shape = random_shape(&mut random);
        let [l1, l2, l3] = twin(shape).lengths;
        let mut damage = Damage::none(&mut random, shape);
        let plane = random.among(0..=l3 - 1);
        for c in 0..l3 {
            let row = random.among(0..=l2 - 1);
            for b in 0..l2 {
                let one = random.among(0..=l1 - 1);
                for a in 0..l1 {
                    if c == plane || b == row || a == one {
                        damage.overwrite(&mut random, twin(shape).cell([a, b, c]));
                    }
                }
            }
        }
        damage.assert_restored(
            &mut random,
            "one plane, one row of each other, one cell of each other",
        );
    }
}

/// Seven is tight: the same error in a box of 2 by 2 by 2 is two on each line that meets it, whose first sum is 00h.
#[test]
fn a_box_of_eight_is_refused() {
    let mut random = Random::new(4106);
    for _ in 0..1_000 {
        let shape = random_shape(&mut random);
        let boxed = random.among(0..=shape.w - 1);
        let mut damage = Damage::none(&mut random, shape);
        for layer in 0..shape.w {
            if layer == boxed {
                let same = random.nonzero_byte();
                damage.spoil_box(&mut random, layer, [2; 3], 8, Some(same));
            } else {
                damage.spoil_layer(&mut random, layer);
            }
        }
        assert_eq!(damage.wrong(boxed), 8);
        assert_eq!(damage.mend(&mut random), Mended::Refused, "{shape:?}");
    }
}
