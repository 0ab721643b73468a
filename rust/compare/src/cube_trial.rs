//! One cube for the calls on cubes, to be recorded.

use jibrufath::Shape;
use reference::random::Random;

use crate::text_trial::nearly;
use crate::{Calls, FillTrial, SHAPES_AT_THE_LIMITS, twin};

/// With one of these added, a number is as good as before in its low 32 bits alone.
pub(crate) const HIGH_BITS: [usize; 2] = [1 << 32, 1 << 63];

/// A cube with its flags, and the shape that the calls are given.
pub struct CubeTrial {
    lent: FillTrial,
    given: Shape,
}

impl CubeTrial {
    /// A random code cube in which bytes may be wrong, cells missing, and known cells unsent. Now and then a flag is any byte but 0, a
    /// slice has a wrong length, or the calls are given another shape.
    pub fn random(random: &mut Random, shape: Shape) -> CubeTrial {
        let mut lent = FillTrial::new(random, shape);
        let last = lent.flags.len() - 1;
        for _ in 0..random.pick(&[0, 0, 1, 2, 5, 60]) {
            let cell = random.among(0..=last);
            lent.spoil(random, cell);
        }
        if random.chance(50) {
            let percent = random.among(0..=95);
            lent.lose_percent(random, percent);
        }
        if random.chance(30) {
            let percent = random.among(1..=100);
            lent.unsend_percent(random, percent);
        }
        if random.chance(5) {
            let any = random.nonzero_byte();
            lent.flags[random.among(0..=last)] = random.pick(&[3, 255, any]);
        }
        for slice in [&mut lent.cube, &mut lent.flags] {
            let len = nearly(random, slice.len());
            slice.resize(len, 0);
        }
        let given = match random.among(0..=19) {
            0 => random.pick(&SHAPES_AT_THE_LIMITS).0,
            1 => {
                let mut given = numbers(shape);
                given[random.among(0..=3)] += random.pick(&HIGH_BITS);
                shape_of(given)
            }
            _ => shape,
        };
        CubeTrial { lent, given }
    }

    /// Records the calls on the cube, and encodes data over garbage of its length.
    pub fn record(&self, random: &mut Random, calls: &mut Calls) {
        let FillTrial { shape, cube, flags } = &self.lent;
        let capacity = nearly(random, twin(*shape).capacity());
        let [data, other, second] = [capacity, cube.len(), cube.len()].map(|len| random.bytes(len));
        let numbers = numbers(self.given);
        let shape = twin(self.given);
        calls.call("encode", [&data, &other], &numbers, |[data, cube]| {
            reference::encode(shape, data, cube)
        });
        calls.call("extract", [cube, &data], &numbers, |[cube, data]| {
            reference::extract(shape, cube, data)
        });
        calls.call("is_code_cube", [cube], &numbers, |[cube]| {
            reference::is_code_cube(shape, cube)
        });
        calls.call("fill", [cube, flags], &numbers, |[cube, flags]| {
            reference::fill(shape, cube, flags)
        });
        let slices = [cube, flags, &second].map(Vec::as_slice);
        calls.call("mend", slices, &numbers, |[cube, flags, second]| {
            reference::mend(shape, cube, flags, second)
        });
        let axis = random.pick(&[1, 1, 1, 2, 2, 2, 3, 3, 3, 0, 4, HIGH_BITS[0] + 1]);
        let numbers = [&numbers[..], &[axis]].concat();
        calls.call("mend_axis", [cube], &numbers, |[cube]| {
            reference::mend_axis(shape, axis, cube)
        });
    }
}

/// A shape as the calls take it.
pub(crate) fn numbers(shape: Shape) -> [usize; 4] {
    [shape.l1, shape.l2, shape.l3, shape.w]
}

/// The shape of these numbers.
pub(crate) fn shape_of([l1, l2, l3, w]: [usize; 4]) -> Shape {
    Shape::new(l1, l2, l3, w)
}
