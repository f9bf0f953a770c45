//! Planning files drawn from a seed, together with what they mean; damage to
//! them; and large ones to measure with. Nothing here reads what a file says:
//! of a sound one that is known before it is put into bytes.

pub mod arrangement;
pub mod damage;
pub mod days;
pub mod dress;
mod feeder;
pub mod form;
pub mod large;
pub mod meaning;
pub mod model;
pub mod page;
pub mod random;
pub mod texts;

pub use arrangement::Arrangement;
pub use model::{Content, Datum, Heading, Model, Record};
pub use page::Page;
pub use random::Random;

/// A sound file and what it says.
pub struct Sample {
    pub model: Model,
    pub page: Page,
}

impl Sample {
    pub fn bytes(&self) -> Vec<u8> {
        self.page.bytes()
    }
}

/// A small sound file over any of the ten tables, in any order and dress, in
/// half of the files with columns in the sender's order.
pub fn sound(random: &mut Random) -> Sample {
    let most = meaning::draw_size(random);
    let model = meaning::draw(random, most);
    let page = dress::dress(random, &model);
    Sample { model, page }
}

/// A small file with one to three pieces of damage; some do no harm.
pub fn damaged(random: &mut Random) -> Vec<u8> {
    damage::damaged(random)
}
