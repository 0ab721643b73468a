//! The kinds of packs, of texts and of plans.

use crate::{KINDS, PLAN_KINDS, TEXT_KINDS};

/// A kind of packs, of texts or of plans, by its place among these.
#[derive(Clone, Copy, PartialEq, Eq, PartialOrd, Ord)]
pub enum Kind {
    Pack(usize),
    Text(usize),
    Plan(usize),
}

impl Kind {
    pub fn all() -> Vec<Kind> {
        let packs = (0..KINDS.len()).map(Kind::Pack);
        let texts = (0..TEXT_KINDS.len()).map(Kind::Text);
        let plans = (0..PLAN_KINDS.len()).map(Kind::Plan);
        packs.chain(texts).chain(plans).collect()
    }

    pub fn name(self) -> &'static str {
        match self {
            Kind::Pack(kind) => KINDS[kind].0,
            Kind::Text(kind) => TEXT_KINDS[kind].0,
            Kind::Plan(kind) => PLAN_KINDS[kind].0,
        }
    }
}
