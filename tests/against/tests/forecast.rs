//! The forecast curve drawn by day and erased by night, in each format.

use against::bench::morning::{draw, figures, place, Draws};
use against::card::Card;
use against::draw::arguments::bytes;
use against::draw::states::FORMATS;
use against::flat::Flat;
use against::lent::Part;
use against::library::Library;
use against::model::Model;
use against::random::Random;
use second::Format;

/// A card with its state; every call must be accepted.
struct Panel<'c, C: Card> {
    card: &'c C,
    state: Flat,
}

impl<C: Card> Draws for Panel<'_, C> {
    fn write(&mut self, address: u8, value: u8) {
        let answer = self.card.write(self.state, address, value);
        assert_eq!((answer.number, answer.value), (0, 0));
        self.state = answer.state;
    }

    fn grant(&mut self, n: u16, picture: &mut [u8], table: &[u8]) -> u16 {
        let mut table = table.to_vec();
        let (pic_length, table_length) = (picture.len(), table.len());
        let picture = Part { whole: picture, start: 0, length: pic_length };
        let table = Part { whole: &mut table, start: 0, length: table_length };
        let answer = self.card.grant(self.state, n, picture, table);
        assert_eq!(answer.number, 0);
        self.state = answer.state;
        answer.value
    }
}

const DAY: u8 = 3;
const NIGHT: u8 = 1;

/// The picture after the curve is drawn or erased, and where X and Y end.
fn drawn(card: &impl Card, format: u8, ctrl1: u8, before: &[u8]) -> (Vec<u8>, (u16, u16)) {
    let mut panel = Panel { card, state: card.fresh(format).state };
    let mut picture = before.to_vec();
    draw(&mut panel, &figures(), ctrl1, &mut picture, &[0; 480]);
    (picture, (panel.state.x, panel.state.y))
}

fn forecast(format: u8) {
    let library = Library::reach();
    let format_itself: Format = FORMATS[usize::from(format)];
    let dark = vec![0; bytes(format_itself)];
    let (curve, end) = drawn(&library, format, DAY, &dark);

    assert!(drawn(&Model, format, DAY, &dark) == (curve.clone(), end));
    assert_eq!(end, place(95, figures()[95]));
    passes_through_its_points(format_itself, &curve);
    assert!(drawn(&library, format, NIGHT, &curve).0 == dark, "the night leaves dots of the curve");

    let mut busy = dark.clone();
    Random::new(96).fill(&mut busy);
    let day = drawn(&library, format, DAY, &busy).0;
    let night = drawn(&library, format, NIGHT, &day).0;
    for i in 0..busy.len() {
        assert_eq!(day[i], busy[i] | curve[i], "by day, byte {i}");
        assert_eq!(night[i], busy[i] & !curve[i], "by night, byte {i}");
    }
}

/// Points past the window's right edge are outside, and the pen goes on to them all the same.
fn passes_through_its_points(format: Format, curve: &[u8]) {
    let width = if format == Format::Ef9365Low { 256 } else { 512 };
    for (point, figure) in figures().into_iter().enumerate() {
        let (x, y) = place(point, figure);
        if usize::from(x) < width {
            let byte = curve[usize::from(y) * width / 8 + usize::from(x) / 8];
            assert!(byte >> (x % 8) & 1 == 1, "point {point} at ({x}, {y})");
        }
    }
}

#[test]
fn on_an_ef9366() {
    forecast(0);
}

#[test]
fn on_an_ef9365_with_fmat_high() {
    forecast(1);
}

#[test]
fn on_an_ef9365_with_fmat_low() {
    forecast(2);
}
