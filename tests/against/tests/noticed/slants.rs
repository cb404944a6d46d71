//! Faults of tilted characters: refused as they once were, or leaning otherwise than they should.

use super::{again, noticed, noticed_of_both, told_as, Fault};
use against::call::Call;
use against::card::Card;
use against::convert::state_of;
use against::draw::count;
use against::flat::{Flat, FlatAnswer};
use against::formula::{Character, TILT};
use against::lent::Part;
use against::model::Model;
use second::Work;

/// The character or block that runs tilted, and the cycles it has used.
pub fn tilted(state: &Flat) -> Option<(Character, u16)> {
    let state = state_of(state)?;
    let Work::Steps { code, done } = state.work else {
        return None;
    };
    Character::of(&state, code).filter(|character| character.is_tilted).map(|character| (character, done))
}

/// A grant cycle by cycle: X and Y then stand where the fault has the next one.
pub fn leaning(fault: Fault, state: Flat, n: u16, mut picture: Part, mut table: Part) -> FlatAnswer {
    let (mut state, mut used) = (state, 0);
    loop {
        let (picture, table) = (again(&mut picture), again(&mut table));
        let answer = Model.grant(state, (n - used).min(1), picture, table);
        let next = match tilted(&state) {
            Some((character, done)) if answer.value == 1 => {
                let after = tilted(&answer.state).map(|(_, done)| done);
                let by = off(fault, &character, after) - off(fault, &character, Some(done));
                moved(answer.state, &character, by)
            }
            _ => return FlatAnswer { value: used, ..answer },
        };
        (state, used) = (next, used + 1);
    }
}

/// The answer for a tilted character, and the dots of a straight one.
pub fn straight_dots(state: Flat, n: u16, picture: Part, mut table: Part) -> FlatAnswer {
    let (character, done) = tilted(&state).expect("a tilted character runs");
    let by = off(Fault::Straight, &character, Some(done));
    let straight = Flat { ctrl2: state.ctrl2 & !TILT, ..moved(state, &character, by) };
    let mut unseen = picture.whole.to_vec();
    let unseen = Part { whole: &mut unseen, ..picture };
    Model.grant(straight, n, picture, again(&mut table));
    Model.grant(state, n, unseen, table)
}

/// How much further in the direction of writing the fault has a cycle than it is; or, after the last one, X and Y.
fn off(fault: Fault, character: &Character, i: Option<u16>) -> i32 {
    let (lines, q) = (i32::from(character.lines()), i32::from(character.q));
    let Some(v) = i.map(|i| i32::from(i) % lines) else {
        return if fault == Fault::KeptSlant { lines - 1 } else { 0 };
    };
    match fault {
        Fault::Straight => -v,
        Fault::RowsSlanted => v / q - v,
        Fault::SlantedBack if character.is_turned => -2 * v,
        _ => 0,
    }
}

fn moved(state: Flat, character: &Character, by: i32) -> Flat {
    let stepped = |position: u16| (i32::from(position) + by).rem_euclid(4096) as u16;
    if character.is_turned {
        Flat { y: stepped(state.y), ..state }
    } else {
        Flat { x: stepped(state.x), ..state }
    }
}

#[test]
fn a_slanted_character_drawn_straight() {
    // After one cycle of 0A X is one further; no dot is needed.
    told_as(&noticed(Fault::Straight), "grant 000000000000000411000000000A0800 1 16384 480");
}

#[test]
fn only_the_dots_of_a_slanted_character_drawn_straight() {
    // The dot of the second cycle of 0A, by the pen.
    told_as(&noticed(Fault::StraightDots), "grant 000000000000030411000000000A0800 2 16384 480");
}

#[test]
fn a_slant_of_one_step_a_row_of_the_glyph() {
    // P and Q are 16, and for that CSIZE is 0.
    told_as(&noticed(Fault::RowsSlanted), "grant 000000000000000400000000000A0800 1 16384 480");
}

#[test]
fn a_slant_the_wrong_way_upwards() {
    told_as(&noticed(Fault::SlantedBack), "grant 000000000000000C11000000000A0800 1 16384 480");
}

#[test]
fn a_slant_that_is_not_taken_back() {
    // The last cycle is among those granted, and none behind it.
    let told = noticed(Fault::KeptSlant);
    let state = state_of(&told.case.state).expect("a state");
    let Call::Grant { n, .. } = told.case.call else { panic!("{told}") };
    assert_eq!(n, count::rest(&state), "{told}");
    assert_eq!((state.csize, state.x, state.y, state.ctrl1, state.ctrl2), (0x11, 0, 0, 0, 4), "{told}");
}

#[test]
fn a_tilted_block_refused() {
    told_as(&noticed(Fault::RefusedBlock), "write 00000000000000041100000000000000 00 0B");
    noticed_of_both(Fault::RefusedBlock, "Both agree, but no call gives 7.");
}

#[test]
fn a_tilted_character_that_may_not_run() {
    told_as(&noticed(Fault::RefusedTilt), "read 000000000000000411000000000A0800 00");
    noticed_of_both(Fault::RefusedTilt, "Both agree, but the state was drawn good");
}
