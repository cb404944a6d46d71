//! Pictures before and after a clear.

use super::Card;
use second::Format;

/// A checkered picture, so that neither dark nor lit goes unseen.
pub fn checkered(format: Format, ctrl1: u8) -> Card {
    let mut card = Card::new(format);
    card.picture.fill(0x5A);
    card.write(1, ctrl1);
    card
}

pub fn untouched(card: &Card) -> bool {
    whole(card, 0x5A)
}

pub fn whole(card: &Card, byte: u8) -> bool {
    card.picture.iter().all(|&seen| seen == byte)
}

// readings 48 and 49: only 0C looks at bit 1, none at bit 0
pub fn left_by(code: u8, ctrl1: u8) -> u8 {
    if code == 0x0C && ctrl1 & 2 != 0 {
        0xFF
    } else {
        0x00
    }
}
