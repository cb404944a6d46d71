//! Granted write cycles, one dot at a time.

use crate::answer::Answer;
use crate::picture::write_dot;
use crate::position::moved;
use crate::refusal::{self, ACCEPTED};
use crate::state::{State, Work};
use crate::status::ready_rises;
use crate::stepping::Stepping;

/// The value is the number of cycles used; those left over are lost.
pub fn cycles(state: &State, n: u16, picture: &mut [u8], table: &[u8]) -> Answer {
    let number = refusal::of_cycles(state, picture, table);
    if number != ACCEPTED {
        return Answer::refused(number, state);
    }
    let mut next = state.with_frames_that_count();
    let mut used = 0;
    while used < n {
        let Some(after) = after_one_cycle(&next, picture, table) else {
            break;
        };
        next = after;
        used += 1;
    }
    Answer::accepted(used, next)
}

/// None when no command waits for write cycles.
fn after_one_cycle(state: &State, picture: &mut [u8], table: &[u8]) -> Option<State> {
    let Work::Steps { code, done } = state.work else {
        return None;
    };
    let command = Stepping::of(state, code)?;
    if command.has_dot(done, table) {
        write_dot(state, picture);
    }
    let mut next = *state;
    let following = done + 1;
    if following < command.count() {
        step(&mut next, command.offset(done), command.offset(following));
        next.work = Work::Steps { code, done: following };
    } else {
        step(&mut next, command.offset(done), command.end());
        next.work = Work::Idle;
        ready_rises(&mut next);
    }
    Some(next)
}

/// The start of the command is the present place less the present offset (reading 3).
fn step(state: &mut State, present: (i32, i32), following: (i32, i32)) {
    let start_x = moved(state.x, -present.0);
    let start_y = moved(state.y, -present.1);
    state.x = moved(start_x, following.0);
    state.y = moved(start_y, following.1);
}
