//! What every comparison of the library with the independent program needs: random inputs, patterns of losses, lent memory that
//! shows a byte written beside it, and one function that runs both programs; and calls recorded for other processors.

mod agreement;
mod copies;
mod cube_trial;
mod cubes;
mod fill_trial;
mod kind;
mod mend_trial;
mod packs;
pub mod patterns;
mod plan_trial;
pub mod plans;
mod record;
mod recorded;
mod scan_trial;
mod shapes;
mod text_trial;
mod texts;
mod trial;
mod unsent;

use agreement::compare;
pub use agreement::{Agreed, agree, numbered, placed};
pub use copies::{CellCopy, air_of};
pub use cubes::{Embedded, LightByte, lightest_cube, lightest_line, random_box, random_code_cube};
pub use fill_trial::FillTrial;
pub use kind::Kind;
pub use mend_trial::Mended;
pub use packs::{COPY_KINDS, KINDS, Source};
pub use plan_trial::{PlanFile, PlanLists, PlanPack};
pub use plans::PLAN_KINDS;
pub use record::Calls;
pub use recorded::recorded;
pub use scan_trial::ScanTrial;
pub use shapes::{LARGE_SHAPES, SHAPES_AT_THE_LIMITS, narrow_shapes, random_shape, twin};
pub use text_trial::{FromText, ToText};
pub use texts::{TEXT_KINDS, broken_words};
pub use trial::{Answers, Lens, Trial};
pub use unsent::random_used;
