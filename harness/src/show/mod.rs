//! Packs shown: as text, before and after both lowerings, and as pictures.

pub mod answers;
pub mod dot;
pub mod exprs;
pub mod ids;
pub mod labels;
pub mod page;
pub mod steps;
pub mod words;

use crate::decode::{refused_at, Refusal};

/// Why a pack cannot be read, in words.
pub fn unreadable(pack: &[u8]) -> Option<String> {
    let (Refusal { number, value }, what) = refused_at(pack)?;
    Some(format!("The pack is refused.\n{}met at      {what}\n", answers::answer(number, value)))
}
