//! The register file: writing, reading, dropped bits.

mod common;

use common::{Card, NO_FLAGS};
use second::{fresh, read, write, Format, Pen, State, Work};

#[test]
fn fresh_state() {
    for format in common::FORMATS {
        let expected = State {
            format,
            ctrl1: 0,
            ctrl2: 0,
            csize: 0x11,
            deltax: 0,
            deltay: 0,
            x: 0,
            y: 0,
            xlp: 0,
            ylp: 0,
            work: Work::Idle,
            pen: Pen::Off,
            vb: false,
            flags: NO_FLAGS,
        };
        assert_eq!(fresh(format), expected);
    }
}

#[test]
fn fresh_registers_read() {
    let expected = [
        (0, 0x05),
        (1, 0),
        (2, 0),
        (3, 0x11),
        (5, 0),
        (7, 0),
        (8, 0),
        (9, 0),
        (10, 0),
        (11, 0),
        (12, 0),
        (13, 0),
    ];
    for (address, value) in expected {
        assert_eq!(read(&fresh(Format::Ef9366), address).value, value, "{address:X}");
    }
}

// reading 26: the low four bits of the byte at 8 and A are the upper four of X and Y
#[test]
fn a_write_changes_its_register_alone() {
    let before = State { x: 0x123, y: 0x456, xlp: 41, ylp: 20, ..fresh(Format::Ef9366) };
    let rows = [
        (1, 0xFF, State { ctrl1: 0x7F, ..before }),
        (1, 0x80, State { ctrl1: 0x00, ..before }),
        (2, 0xFF, State { ctrl2: 0x0F, ..before }),
        (2, 0xF5, State { ctrl2: 0x05, ..before }),
        (3, 0xA7, State { csize: 0xA7, ..before }),
        (5, 0xFF, State { deltax: 0xFF, ..before }),
        (7, 0xFE, State { deltay: 0xFE, ..before }),
        (8, 0xA7, State { x: 0x723, ..before }),
        (8, 0xFF, State { x: 0xF23, ..before }),
        (9, 0xA7, State { x: 0x1A7, ..before }),
        (10, 0xA7, State { y: 0x756, ..before }),
        (11, 0xA7, State { y: 0x4A7, ..before }),
    ];
    for (address, value, after) in rows {
        let answer = write(&before, address, value);
        assert_eq!((answer.number, answer.value, answer.state), (0, 0, after), "{address:X} {value:02X}");
    }
}

#[test]
fn written_values_read_back_without_unused_bits() {
    let rows =
        [(1, 0x7F), (2, 0x0F), (3, 0xFF), (5, 0xFF), (7, 0xFF), (8, 0x0F), (9, 0xFF), (10, 0x0F), (11, 0xFF)];
    for (address, used) in rows {
        for value in 0..=255 {
            let mut card = Card::new(Format::Ef9365Low);
            assert_eq!(card.write(address, value).read(address), u16::from(value & used));
        }
    }
}

#[test]
fn each_address_reads_its_own_register() {
    let state = State {
        ctrl1: 0x0A,
        ctrl2: 0x0B,
        csize: 0x23,
        deltax: 0x34,
        deltay: 0x45,
        x: 0x567,
        y: 0x89A,
        xlp: 0xBC,
        ylp: 0xCD,
        ..fresh(Format::Ef9366)
    };
    let rows = [
        (0x0, 0x0D),
        (0x1, 0x0A),
        (0x2, 0x0B),
        (0x3, 0x23),
        (0x5, 0x34),
        (0x7, 0x45),
        (0x8, 0x05),
        (0x9, 0x67),
        (0xA, 0x08),
        (0xB, 0x9A),
        (0xC, 0xBC),
        (0xD, 0xCD),
    ];
    for (address, value) in rows {
        let answer = read(&state, address);
        assert_eq!((answer.number, answer.value, answer.state), (0, value, state), "{address:X}");
    }
}

// readings 38 and 40: only STATUS, C and D leave something changed
#[test]
fn what_a_read_leaves_behind() {
    let flags = second::Flags { pen_end: true, vb_rise: true, ready: true };
    let state = State { flags, xlp: 41, ylp: 20, ..fresh(Format::Ef9366) };
    for address in [1, 2, 3, 5, 7, 8, 9, 10, 11] {
        assert_eq!(read(&state, address).state, state);
    }
    assert_eq!(read(&state, 0).state, State { flags: NO_FLAGS, ..state });
    assert_eq!(read(&state, 12).state, State { xlp: 40, ..state });
    assert_eq!(read(&state, 13).state, State { xlp: 40, ..state });
}

// reading 39: reads are allowed while a command runs; 8 to B give the next place
#[test]
fn reads_while_a_command_runs() {
    let mut card = Card::at(Format::Ef9366, 0x1FE, 0x0FE);
    card.state.xlp = 41;
    card.deltas(5, 2).command(0x11).grant(2);
    assert_eq!(card.read(8), 0x02);
    assert_eq!(card.read(9), 0x00);
    assert_eq!(card.read(10), 0x00);
    assert_eq!(card.read(11), 0xFF);
    assert_eq!(card.read(1), 3);
    assert_eq!(card.read(12), 41);
    assert_eq!(card.read(12), 40);
    assert_eq!(card.state.work, Work::Steps { code: 0x11, done: 2 });
}

// reading 44: CTRL1 bit 2 is stored and changes nothing else
#[test]
fn fast_writing_bit_is_only_stored() {
    for ctrl1 in [0x00, 0x01, 0x03, 0x0B, 0x73] {
        let mut with = Card::at(Format::Ef9366, 4090, 254);
        let mut without = with.clone();
        with.write(1, ctrl1 | 4);
        without.write(1, ctrl1);
        for card in [&mut with, &mut without] {
            card.write(3, 0x21).deltas(30, 9).run(0x11);
            card.run(0x0A);
            card.command(0x08).vb(true).vb(false).edge(3, 4);
            card.command(0x0C).vb(true).vb(false).vb(true);
        }
        assert_eq!(with.read(1), u16::from(ctrl1 | 4));
        assert_eq!(with.picture, without.picture);
        assert_eq!(State { ctrl1, ..with.state }, without.state);
    }
}
