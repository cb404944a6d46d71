//! A forecast of 96 points drawn as a curve and erased again, as `examples/host.c` does it.

/// A card that is drawn on by registers and write cycles.
pub trait Draws {
    fn write(&mut self, address: u8, value: u8);
    fn grant(&mut self, n: u16, picture: &mut [u8], table: &[u8]) -> u16;
}

pub const POINTS: usize = 96;
const LEFT: u16 = 24;
const STEP: u8 = 5;
/// CTRL1: down, a flag when ready rises, and bit 1 says which of the two.
const PEN: u8 = 0x43;
const ERASER: u8 = 0x41;

/// The height of each point, those of the example.
#[rustfmt::skip]
pub fn figures() -> [u8; POINTS] {
    [
        45, 45, 45, 45, 46, 46, 46, 47, 48, 49, 51, 53, 56, 60, 65, 71, 78, 86, 95, 106, 117, 129, 142, 155,
        168, 179, 190, 198, 205, 209, 210, 209, 205, 198, 190, 179, 168, 155, 142, 130, 117, 106, 95, 86, 78, 71, 66, 61,
        58, 56, 54, 54, 54, 54, 56, 58, 60, 63, 67, 71, 76, 81, 87, 93, 100, 106, 113, 119, 125, 130, 135, 139,
        142, 143, 144, 143, 142, 139, 135, 130, 125, 119, 113, 106, 100, 93, 87, 81, 76, 71, 67, 63, 60, 57, 54, 52,
    ]
}

/// Column and line of a figure.
pub fn place(point: usize, figure: u8) -> (u16, u16) {
    (LEFT + u16::from(STEP) * point as u16, u16::from(figure))
}

/// One vector from point to point, each run to its end.
pub fn draw<R: Draws>(card: &mut R, figures: &[u8; POINTS], ctrl1: u8, picture: &mut [u8], table: &[u8]) {
    let (x, y) = place(0, figures[0]);
    card.write(1, ctrl1);
    card.write(8, (x >> 8) as u8);
    card.write(9, x as u8);
    card.write(10, (y >> 8) as u8);
    card.write(11, y as u8);
    for ends in figures.windows(2) {
        card.write(5, STEP);
        card.write(7, ends[1].abs_diff(ends[0]));
        card.write(0, if ends[1] < ends[0] { 0x15 } else { 0x11 });
        card.grant(65_535, picture, table);
    }
}

/// By day the pen, by night the eraser on the same way.
pub fn whole<R: Draws>(card: &mut R, figures: &[u8; POINTS], picture: &mut [u8], table: &[u8]) {
    draw(card, figures, PEN, picture, table);
    draw(card, figures, ERASER, picture, table);
}

#[cfg(test)]
mod tests {
    /// So that what is timed stays what a reader of the example runs.
    #[test]
    fn the_figures_are_the_example_s() {
        let example = include_str!("../../../../examples/host.c");
        let (_, after) = example.split_once("forecast[POINTS] = {").expect("the example has a forecast");
        let (heights, _) = after.split_once('}').expect("the forecast ends");
        let heights: Vec<u8> = heights.split(',').filter_map(|height| height.trim().parse().ok()).collect();
        assert_eq!(heights, super::figures());
    }
}
