//! Refusal numbers 2 to 6 and 8, in every call where they can arise. 7 is free since request c.

mod common;

use common::numbers::{busy, cycles_number, idle, lpck_number, read_number, vb_number, write_number, TABLE};
use common::{picture, picture_bytes, CLEARS, FORMATS, NO_TIME};
use second::{lpck, set_vb, write, Format, Pen, State, Work};

fn clearing(open: bool, frames_done: u8) -> Work {
    Work::Clear { kind: CLEARS[0].1, open, frames_done }
}

// 2: the picture

// reading 13: also when nothing would be written
#[test]
fn picture_of_another_length_in_the_cycles_call() {
    for format in FORMATS {
        let right = picture_bytes(format);
        for work in [Work::Idle, Work::Steps { code: 0xE9, done: 1 }, clearing(true, 0), clearing(true, 1)] {
            let state = State { format, work, ..idle() };
            for n in [0, 1, 100] {
                assert_eq!(cycles_number(&state, n, right, &TABLE), 0);
                for wrong in [0, 1, 480, right - 1, right + 1, 8_192, 16_384, 32_768] {
                    let expected = if wrong == right { 0 } else { 2 };
                    assert_eq!(
                        cycles_number(&state, n, wrong, &TABLE),
                        expected,
                        "{format:?} {work:?} {n} {wrong}"
                    );
                }
            }
        }
    }
}

// readings 13 and 24: at the present level too, and with no clear under way
#[test]
fn picture_of_another_length_in_the_vb_call() {
    for format in FORMATS {
        let right = picture_bytes(format);
        for work in [Work::Idle, Work::Steps { code: 0xE9, done: 1 }, clearing(false, 0), clearing(false, 1)]
        {
            for present in [false, true] {
                let state = State { format, work, vb: present, ..idle() };
                for level in [false, true] {
                    assert_eq!(vb_number(&state, level, right), 0);
                    for wrong in [0, right - 1, right + 1, right * 2, right / 2] {
                        assert_eq!(vb_number(&state, level, wrong), 2);
                    }
                }
            }
        }
    }
}

#[test]
fn picture_of_another_length_leaves_a_clear_waiting() {
    for format in FORMATS {
        let right = picture_bytes(format);
        for frames_done in [0, 1] {
            let state = State { format, work: clearing(true, frames_done), ..idle() };
            assert_eq!(vb_number(&state, true, right - 1), 2);
            assert_eq!(vb_number(&state, true, right), 0);
        }
    }
}

// 3: the character table

// readings 14 and 81: whatever runs, and for 0 cycles
#[test]
fn table_of_another_length() {
    let clears = [clearing(false, 0), clearing(false, 1)];
    let steps = [0x0A, 0x0B, 0x0F, 0x11, 0x41, 0xE9].map(|code| Work::Steps { code, done: 0 });
    for work in steps.into_iter().chain(clears).chain([Work::Idle]) {
        let state = State { work, ..idle() };
        for n in [0, 1, 100] {
            for length in [0, 5, 479, 481, 640] {
                assert_eq!(cycles_number(&state, n, 16_384, &vec![0; length]), 3, "{work:?} {n} {length}");
            }
            assert_eq!(cycles_number(&state, n, 16_384, &[0; 480]), 0);
        }
    }
}

// 4: no such register

#[test]
fn addresses_without_a_register() {
    let expected = |address: u8| {
        if [4, 6, 14, 15].contains(&address) || address > 15 {
            4
        } else {
            0
        }
    };
    for address in 0..=255 {
        assert_eq!(read_number(&idle(), address), expected(address), "{address}");
        let written = if [12, 13].contains(&address) { 5 } else { expected(address) };
        assert_eq!(write_number(&idle(), address, 0), written, "{address}");
    }
}

// 5: read only

// reading 17: 5 goes before 6
#[test]
fn pen_registers_are_not_written() {
    for address in [12, 13] {
        for value in [0, 0x41, 255] {
            assert_eq!(write_number(&idle(), address, value), 5);
            assert_eq!(write_number(&busy(), address, value), 5);
        }
    }
}

// 6: busy

// reading 18: every other address, and commands that take no time too
#[test]
fn writes_while_a_command_runs() {
    let clears = CLEARS.map(|(_, kind)| Work::Clear { kind, open: false, frames_done: 0 });
    let steps = [0x0A, 0x0B, 0x0F, 0x11, 0x41, 0xE9].map(|code| Work::Steps { code, done: 0 });
    for work in clears.into_iter().chain(steps) {
        let state = State { work, ..idle() };
        for address in [0, 1, 2, 3, 5, 7, 8, 9, 10, 11] {
            for value in [0x00, 0x08, 0x11, 0xFF] {
                assert_eq!(write_number(&state, address, value), 6, "{work:?} {address}");
            }
            assert_eq!(read_number(&state, address), 0);
        }
        for code in NO_TIME {
            assert_eq!(write_number(&state, 0, code), 6);
        }
        assert_eq!(read_number(&state, 12), 0);
        assert_eq!(read_number(&state, 13), 0);
    }
}

// reading 19: a pen sequence is not a running command
#[test]
fn writes_while_a_pen_sequence_is_under_way() {
    for pen in [Pen::Waiting, Pen::Open] {
        let state = State { pen, ..idle() };
        for address in [0, 1, 2, 3, 5, 7, 8, 9, 10, 11] {
            assert_eq!(write_number(&state, address, 0x11), 0);
        }
        assert_eq!(write_number(&state, 0, 0x08), 0);
    }
}

// 7: free, as no command is refused for tilt

#[test]
fn no_command_is_refused_for_ctrl2() {
    for ctrl2 in 0..16 {
        let state = State { ctrl2, ..idle() };
        for code in 0..=255 {
            assert_eq!(write_number(&state, 0, code), 0, "{ctrl2} {code:02X}");
        }
        for address in [1, 2, 3, 5, 7, 8, 9, 10, 11] {
            assert_eq!(write_number(&state, address, 0x41), 0);
        }
    }
}

// 8: the pen's range

// reading 21: also with no sequence under way
#[test]
fn edges_out_of_range() {
    for pen in [Pen::Off, Pen::Waiting, Pen::Open] {
        let state = State { pen, ..idle() };
        for (h, v) in [(64, 0), (0, 256), (64, 256), (65_535, 0), (0, 65_535), (65_535, 65_535), (255, 255)] {
            assert_eq!(lpck_number(&state, h, v), 8, "{pen:?} {h} {v}");
        }
        for (h, v) in [(0, 0), (63, 255), (63, 0), (0, 255)] {
            assert_eq!(lpck_number(&state, h, v), 0, "{pen:?} {h} {v}");
        }
    }
}

// reading 23
#[test]
fn accepted_writes_vb_calls_and_edges_have_value_0() {
    let state = State { pen: Pen::Open, ..idle() };
    assert_eq!(write(&state, 1, 0x7F).value, 0);
    assert_eq!(write(&state, 0, 0x41).value, 0);
    assert_eq!(set_vb(&state, true, &mut picture(Format::Ef9366, 0)).value, 0);
    assert_eq!(lpck(&state, 63, 255).value, 0);
}
