//! The order in which a plain PBM has the dots.

use crate::format::Format;

/// The places of all dots: top line first, each from the left. Y = 0 is the bottom line.
pub fn top_line_first(format: Format) -> impl Iterator<Item = (u16, u16)> {
    let lines_down = (0..format.height()).rev();
    lines_down.flat_map(move |y| (0..format.width()).map(move |x| (x, y)))
}
