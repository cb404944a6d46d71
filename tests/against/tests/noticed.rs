//! A card with one fault is noticed, and told as one small call that shows it again by itself.

#[path = "noticed/slants.rs"]
mod slants;

use against::call::Call;
use against::card::Card;
use against::case::Case;
use against::convert::format_of;
use against::differ::compare;
use against::difference::Difference;
use against::draw::count;
use against::flat::{
    Flat, FlatAddress, FlatAnswer, FlatPbm, CLEAR, CLEAR_IS_OPEN, FIRST_FRAME_OVER, FORMAT, READY_FLAG,
    SIGNALS_BIT_0, STEPS, VB, WORK,
};
use against::lent::Part;
use against::model::Model;
use against::positions;
use against::tally::{Tally, WHOLE_RUN};

#[derive(Clone, Copy, PartialEq)]
enum Fault {
    /// Another number for a character while busy and tilted.
    Number,
    /// A grant that says it used all that it was given.
    Value,
    /// Reading YLP leaves the lowest bit of XLP.
    State,
    /// A clear that misses the last byte.
    Picture,
    /// A byte behind the lent picture changed.
    Behind,
    /// A byte of the table changed.
    Table,
    /// The MSL lines of FMAT low turned over.
    Lines,
    /// A format's number above 2 read as FMAT low.
    Mended,
    /// A bit that is not in use refused with 1.
    Strict,
    /// An open frame looked at where no clear runs.
    Looking,
    /// A left-over code handed back by an accepted call.
    Keeping,
    /// A left-over progress taken out of what a refusal hands back.
    Tidying,
    /// A fresh card whose ready flag is set.
    Fresh,
    /// An impossible state taken as good.
    Lenient,
    /// The first of two frames ends a clear.
    OneFrame,
    /// A second frame where a clear has one.
    TwoFrames,
    /// Half of the lines darkened when the first of two frames ends.
    HalfCleared,
    /// A left-over first frame that a clear begins with.
    HeadStart,
    /// A first frame handed back where a clear has one.
    KeptMark,
    /// A first frame refused where a clear has one.
    StrictMark,
    /// VB high in the second of two frames taken as good.
    LenientFrame,
    /// A tilted character drawn as a straight one.
    Straight,
    /// The dots of a tilted character where a straight one has them, and X and Y right.
    StraightDots,
    /// Tilted, one step for a row of the glyph instead of one for each of its lines.
    RowsSlanted,
    /// Tilted and turned, slanted down instead of up.
    SlantedBack,
    /// X, or turned Y, left as far along at the end as the last line is.
    KeptSlant,
    /// 0B refused with 7 while tilt is high.
    RefusedBlock,
    /// A character that runs tilted refused with 1.
    RefusedTilt,
    /// The bottom line written first.
    Upturned,
    /// A byte behind the written ones changed in the buffer.
    Overrun,
    /// The picture changed though the dots are refused.
    HalfRead,
    /// The last dot of a file left dark.
    LastDot,
    /// A width of 32 bits and more looked at without those above.
    Wrapped,
    /// A format that is none read as FMAT low.
    AnyFormat,
}

/// The model with a fault.
struct Wrong(Fault);

impl Card for Wrong {
    fn fresh(&self, format: u8) -> FlatAnswer {
        let mut answer = Model.fresh(format);
        if self.0 == Fault::Fresh {
            answer.state.signals |= READY_FLAG;
        }
        answer
    }

    fn write(&self, state: Flat, address: u8, value: u8) -> FlatAnswer {
        let mut answer = Model.write(state, address, value);
        let tilted_character = address == 0 && (0x20..0x80).contains(&value) && state.ctrl2 & 4 != 0;
        if self.0 == Fault::Number && answer.number == 6 && tilted_character {
            answer.number = 7;
        }
        let tilted_block = address == 0 && value == 0x0B && state.ctrl2 & 4 != 0;
        if self.0 == Fault::RefusedBlock && answer.number == 0 && tilted_block {
            return FlatAnswer { number: 7, value: 0, state };
        }
        if self.0 == Fault::HeadStart && two_frames(&answer.state) && answer.number == 0 {
            answer.state.modes |= state.modes & FIRST_FRAME_OVER;
        }
        answer
    }

    fn read(&self, state: Flat, address: u8) -> FlatAnswer {
        let mut answer = Model.read(state, address);
        let inside = state.modes & CLEAR_IS_OPEN != 0 && state.modes & WORK != CLEAR;
        match self.0 {
            Fault::State if address == 13 && answer.number == 0 => answer.state.xlp = state.xlp,
            Fault::Looking if inside && state.signals & VB != 0 => {
                return FlatAnswer { number: 1, value: 0, state };
            }
            Fault::RefusedTilt if slants::tilted(&state).is_some() => {
                return FlatAnswer { number: 1, value: 0, state };
            }
            Fault::Tidying if answer.number == 4 && state.modes & WORK != STEPS => answer.state.done = 0,
            Fault::StrictMark if one_frame(&state) && state.modes & FIRST_FRAME_OVER != 0 => {
                return FlatAnswer { number: 1, value: 0, state };
            }
            _ => {}
        }
        answer
    }

    fn grant(&self, state: Flat, n: u16, mut picture: Part, mut table: Part) -> FlatAnswer {
        match self.0 {
            _ if slants::tilted(&state).is_none() => {}
            Fault::StraightDots => return slants::straight_dots(state, n, picture, table),
            Fault::Straight | Fault::RowsSlanted | Fault::SlantedBack | Fault::KeptSlant => {
                return slants::leaning(self.0, state, n, picture, table);
            }
            _ => {}
        }
        let (lent_picture, lent_table) = (again(&mut picture), again(&mut table));
        let mut answer = Model.grant(state, n, lent_picture, lent_table);
        if answer.number == 0 && answer.value > 0 {
            match self.0 {
                Fault::Value => answer.value = n,
                Fault::Behind => picture.whole[picture.start + picture.length] ^= 0x10,
                Fault::Table => table.bytes()[479] ^= 1,
                _ => {}
            }
        }
        answer
    }

    fn set_vb(&self, state: Flat, level: u8, mut picture: Part) -> FlatAnswer {
        let ends = level != 0 && state.modes & (CLEAR_IS_OPEN | FIRST_FRAME_OVER) == CLEAR_IS_OPEN;
        match self.0 {
            Fault::OneFrame if ends && two_frames(&state) => {
                let later = Flat { modes: state.modes | FIRST_FRAME_OVER, ..state };
                return Model.set_vb(later, level, picture);
            }
            Fault::TwoFrames if ends && one_frame(&state) => {
                let waiting = Flat { modes: state.modes & !CLEAR_IS_OPEN, ..state };
                let answer = Model.set_vb(waiting, level, picture);
                return with_modes(answer, FIRST_FRAME_OVER);
            }
            Fault::HalfCleared if ends && two_frames(&state) => {
                let answer = Model.set_vb(state, level, again(&mut picture));
                let half = if answer.number == 0 { picture.length / 2 } else { 0 };
                picture.bytes()[..half].fill(0);
                return answer;
            }
            _ => {}
        }
        let last = picture.bytes().last().copied();
        let lent = again(&mut picture);
        let answer = Model.set_vb(state, level, lent);
        let ended = answer.state.modes != state.modes && answer.state.signals & VB != 0;
        if let (Fault::Picture, true, Some(last)) = (self.0, ended, last) {
            let length = picture.length;
            picture.bytes()[length - 1] = last;
        }
        answer
    }

    fn lpck(&self, state: Flat, h: u16, v: u16) -> FlatAnswer {
        match self.0 {
            Fault::Mended if state.modes & FORMAT > 2 => {
                Model.lpck(Flat { modes: state.modes & !FORMAT | 2, ..state }, h, v)
            }
            Fault::Keeping => {
                let answer = Model.lpck(state, h, v);
                FlatAnswer { state: Flat { code: state.code, ..answer.state }, ..answer }
            }
            Fault::Lenient => Model.lpck(Flat { x: state.x & 0x0FFF, ..state }, h, v),
            Fault::KeptMark if one_frame(&state) => {
                with_modes(Model.lpck(state, h, v), state.modes & FIRST_FRAME_OVER)
            }
            _ => Model.lpck(state, h, v),
        }
    }

    fn address(&self, state: Flat) -> FlatAddress {
        let mut lines = Model.address(state);
        match self.0 {
            Fault::Lines if lines.number == 0 && state.modes & FORMAT == 2 => lines.msl ^= 0x0F,
            Fault::Strict if state.signals & SIGNALS_BIT_0 != 0 => {
                return FlatAddress { number: 1, low: 0, high: 0, msl: 0 };
            }
            Fault::LenientFrame if two_frames(&state) && state.modes & FIRST_FRAME_OVER != 0 => {
                return Model.address(Flat { modes: state.modes & !CLEAR_IS_OPEN, ..state });
            }
            _ => {}
        }
        lines
    }

    fn write_pbm(&self, format: u8, mut picture: Part, mut buffer: Part) -> FlatPbm {
        let format = if self.0 == Fault::AnyFormat { format.min(2) } else { format };
        let answer = Model.write_pbm(format, again(&mut picture), again(&mut buffer));
        let written = answer.value as usize;
        match (self.0, answer.number) {
            (Fault::Upturned, 0) if format < 2 => upturned(&mut buffer.bytes()[..written]),
            (Fault::Overrun, 0) => buffer.whole[buffer.start + written] ^= 1,
            _ => {}
        }
        answer
    }

    fn read_pbm(&self, format: u8, mut file: Part, mut picture: Part) -> FlatPbm {
        if self.0 == Fault::Wrapped {
            let mut bytes = wrapped(file.bytes());
            let length = bytes.len();
            return Model.read_pbm(format, Part { whole: &mut bytes, start: 0, length }, picture);
        }
        let answer = Model.read_pbm(format, file, again(&mut picture));
        match (self.0, answer.number) {
            (Fault::HalfRead, 12) => picture.bytes().iter_mut().for_each(|byte| *byte = !*byte),
            // The right end of the bottom line.
            (Fault::LastDot, 0) => picture.bytes()[if format == 2 { 31 } else { 63 }] &= 0x7F,
            _ => {}
        }
        answer
    }
}

/// A clear runs that has so many frames.
fn clears_in(state: &Flat, frames: u8) -> bool {
    let format = format_of(state.modes & FORMAT);
    state.modes & WORK == CLEAR && format.is_some_and(|format| count::frames(format) == frames)
}

fn one_frame(state: &Flat) -> bool {
    clears_in(state, 1)
}

fn two_frames(state: &Flat) -> bool {
    clears_in(state, 2)
}

/// The same answer with bits of `modes` where it is accepted.
fn with_modes(answer: FlatAnswer, bits: u8) -> FlatAnswer {
    let bits = if answer.number == 0 { bits } else { 0 };
    FlatAnswer { state: Flat { modes: answer.state.modes | bits, ..answer.state }, ..answer }
}

/// Lines of the screen in the other order, in the file of a format 512 wide.
fn upturned(file: &mut [u8]) {
    let dots = file[11..].to_vec();
    let lines = dots.chunks(8 * 65).rev();
    file[11..].chunks_mut(8 * 65).zip(lines).for_each(|(to, from)| to.copy_from_slice(from));
}

/// What a reader in 32 bits makes of a width of 512 and 2 to the 32.
fn wrapped(file: &[u8]) -> Vec<u8> {
    match file.strip_prefix(b"P1\n4294967808") {
        Some(rest) => [b"P1\n512", rest].concat(),
        None => file.to_vec(),
    }
}

fn again<'a>(part: &'a mut Part) -> Part<'a> {
    Part { whole: part.whole, start: part.start, length: part.length }
}

const SEED: u64 = 5;

/// Found within a whole run; shown by the calls told, and not by one fewer; and shown by the one call told, which the
/// right card answers as it should.
fn noticed(fault: Fault) -> Difference {
    let found = |calls| compare(&Wrong(fault), &Model, SEED, calls).err();
    let told = found(WHOLE_RUN).expect("the fault is noticed");
    assert_eq!(found(told.calls), Some(told.clone()));
    assert_eq!(found(told.calls - 1), None);
    assert!(told.to_string().contains(&format!("differ {SEED} {}\n", told.calls)));
    let case = repeated(&told);
    let outcome = case.play(&Wrong(fault), &Model);
    assert_eq!(outcome, told.outcome);
    assert!(!case.is_settled(&outcome));
    assert!(case.is_settled(&case.play(&Model, &Model)));
    *told
}

/// The case that the words of the told command give.
fn repeated(told: &Difference) -> Case {
    let text = told.to_string();
    let command = text.lines().find_map(|line| line.trim().strip_prefix("differ call ")).expect("a command");
    let words: Vec<String> = command.split(' ').map(str::to_string).collect();
    Case::of(&words).unwrap_or_else(|sentence| panic!("{command}: {sentence}"))
}

/// The command is the smallest there is for the fault, worked out by hand.
fn told_as(told: &Difference, command: &str) {
    assert!(told.to_string().contains(&format!("\n    differ call {command}\n")), "{told}");
}

#[test]
fn a_wrong_number() {
    let told = noticed(Fault::Number);
    let text = told.to_string();
    assert!(
        text.contains("library: number 7, value 0") && text.contains("model:   number 6, value 0"),
        "{text}"
    );
    assert!(matches!(told.case.call, Call::Write { address: 0, value: 0x20 }), "{text}");
    assert_eq!(told.case.state.ctrl2, 4, "{text}");
}

#[test]
fn a_wrong_value() {
    // A vector of one dot, granted two cycles; nothing in either memory matters.
    let told = noticed(Fault::Value);
    assert!(matches!(told.case.call, Call::Grant { n: 2, table: 480, .. }), "{told}");
    assert!(told.case.lent.picture.iter().chain(&told.case.lent.table).all(|byte| *byte == 0), "{told}");
}

#[test]
fn a_wrong_state() {
    // XLP's lowest bit alone is needed.
    told_as(&noticed(Fault::State), "read 00000000000000001100000100000000 0D");
}

#[test]
fn a_wrong_picture() {
    let told = noticed(Fault::Picture);
    let fault = told.outcome.picture.expect("the picture differs");
    assert!([8_191, 16_383, 32_767].contains(&fault.place));
    // One bit of the last byte is enough to show it.
    let picture = &told.case.lent.picture;
    let lit: Vec<usize> = (0..picture.len()).filter(|place| picture[*place] != 0).collect();
    assert_eq!(lit, [fault.place as usize], "{told}");
}

#[test]
fn a_byte_behind_the_picture() {
    let told = noticed(Fault::Behind);
    let fault = told.outcome.picture.expect("a guard byte differs");
    assert!([8_192, 16_384, 32_768].contains(&fault.place));
    assert!(told.to_string().contains("outside the lent part"));
}

#[test]
fn a_changed_table() {
    assert_eq!(noticed(Fault::Table).outcome.table.map(|fault| fault.place), Some(479));
}

#[test]
fn wrong_address_outputs() {
    // A fresh card in FMAT low.
    told_as(&noticed(Fault::Lines), "address 00000000000000001100000000000200");
}

#[test]
fn wrong_address_outputs_among_all_positions() {
    // Told as it was met: all of the two formats before are right.
    let case = positions::compare(&Wrong(Fault::Lines), &Model).expect_err("the fault is noticed");
    assert_eq!(case.to_string(), "address 00000000000000001100000000000200 good");
    assert!(!case.is_settled(&case.play(&Wrong(Fault::Lines), &Model)));
}

#[test]
fn a_number_that_names_nothing_taken_as_one_that_does() {
    told_as(&noticed(Fault::Mended), "lpck 00000000000000001100000000000300 0 0");
}

#[test]
fn a_left_over_refused() {
    told_as(&noticed(Fault::Strict), "address 00000000000000001100000000000001");
}

#[test]
fn a_left_over_looked_at() {
    // VB high, and the bit of an open frame where nothing runs.
    told_as(&noticed(Fault::Looking), "read 00000000000000001100000000004002 00");
}

#[test]
fn a_left_over_that_stays() {
    told_as(&noticed(Fault::Keeping), "lpck 00000000000000001100000000010000 0 0");
}

#[test]
fn a_left_over_that_a_refusal_takes_away() {
    told_as(&noticed(Fault::Tidying), "read 00000000010000001100000000000000 04");
}

#[test]
fn a_wrong_fresh_state() {
    told_as(&noticed(Fault::Fresh), "fresh 00");
}

#[test]
fn an_impossible_state_taken_as_good() {
    told_as(&noticed(Fault::Lenient), "lpck 00100000000000001100000000000000 0 0");
}

#[test]
fn a_clear_that_ends_too_early() {
    told_as(&noticed(Fault::OneFrame), "vb 00000000000000001100000000005100 01 32768");
}

#[test]
fn a_clear_that_ends_too_late() {
    told_as(&noticed(Fault::TwoFrames), "vb 00000000000000001100000000005000 01 16384");
}

#[test]
fn a_picture_changed_between_the_frames() {
    let told = noticed(Fault::HalfCleared);
    let fault = told.outcome.picture.expect("the picture differs");
    assert!((0..16_384).contains(&fault.place), "{told}");
    assert_eq!(told.case.lent.picture.iter().filter(|byte| **byte != 0).count(), 1, "{told}");
    assert_eq!((told.case.state.modes, told.case.state.signals), (0x51, 0), "{told}");
}

#[test]
fn a_clear_that_begins_with_a_first_frame_left_over() {
    told_as(&noticed(Fault::HeadStart), "write 00000000000000001100000000008100 00 04");
}

#[test]
fn a_first_frame_that_stays_where_there_is_one() {
    told_as(&noticed(Fault::KeptMark), "lpck 00000000000000001100000000009000 0 0");
}

#[test]
fn a_first_frame_refused_where_there_is_one() {
    told_as(&noticed(Fault::StrictMark), "read 00000000000000001100000000009000 00");
}

#[test]
fn a_high_level_in_the_second_frame_taken_as_good() {
    told_as(&noticed(Fault::LenientFrame), "address 0000000000000000110000000000D102");
}

#[test]
fn a_picture_written_from_the_bottom() {
    // One byte of the picture is lit, and the buffer just as long as it must be.
    let told = noticed(Fault::Upturned);
    let (picture, buffer) = (&told.case.lent.picture, &told.case.lent.file);
    assert!([(16_384, 133_131), (32_768, 266_251)].contains(&(picture.len(), buffer.len())), "{told}");
    assert_eq!(picture.iter().filter(|byte| **byte != 0).count(), 1, "{told}");
    assert!(told.outcome.file.is_some() && told.to_string().contains("file: first at byte "), "{told}");
}

#[test]
fn a_buffer_written_past_the_file() {
    let told = noticed(Fault::Overrun);
    told_as(&told, "write-pbm 00 16384 133131");
    assert!(told.to_string().contains("file: first at byte 133131, outside the lent part"), "{told}");
}

#[test]
fn a_picture_changed_though_refused() {
    // A head and no dot.
    let told = noticed(Fault::HalfRead);
    let heads = ["00 10:0=50310A35313220323536 16384", "01 10:0=50310A35313220353132 32768"];
    let heads = heads.into_iter().chain(["02 10:0=50310A32353620323536 8192"]);
    let mut commands = heads.map(|words| format!("differ call read-pbm {words}\n"));
    assert!(commands.any(|command| told.to_string().contains(&command)), "{told}");
}

#[test]
fn a_last_dot_that_is_not_read() {
    // All dots are needed, and those before the last are told in a word.
    let told = noticed(Fault::LastDot);
    let command = told.case.to_string();
    let dots = ["11=30*131071,131082=31 16384", "11=30*262143,262154=31 32768", "11=30*65535,65546=31 8192"];
    assert!(dots.iter().any(|dots| command.ends_with(dots)), "{told}");
}

#[test]
fn a_number_that_wraps() {
    // It is no longer the size that is refused, but that there are no dots.
    let told = noticed(Fault::Wrapped);
    let command = told.case.to_string();
    assert!(command.contains(" 17:0=50310A343239343936373830382"), "{told}");
}

#[test]
fn a_format_that_is_none() {
    told_as(&noticed(Fault::AnyFormat), "write-pbm 03 8192 0");
}

/// Where both cards share the fault, what was planted in the state still tells.
fn noticed_of_both(fault: Fault, words: &str) {
    let told = compare(&Wrong(fault), &Wrong(fault), SEED, WHOLE_RUN).err().expect("the fault is noticed");
    assert!(told.to_string().contains(words), "{told}");
    let case = repeated(&told);
    assert!(!case.is_settled(&case.play(&Wrong(fault), &Wrong(fault))));
    assert!(case.is_settled(&case.play(&Model, &Model)));
}

#[test]
fn a_fault_of_both_cards() {
    noticed_of_both(Fault::Lenient, "Both agree, but a cause of refusal 1 was planted");
    noticed_of_both(Fault::Mended, "Both agree, but a cause of refusal 1 was planted");
    noticed_of_both(Fault::Strict, "Both agree, but the state was drawn good");
    noticed_of_both(Fault::Looking, "Both agree, but the state was drawn good");
    noticed_of_both(Fault::LenientFrame, "Both agree, but a cause of refusal 1 was planted");
    noticed_of_both(Fault::StrictMark, "Both agree, but the state was drawn good");
}

#[test]
fn a_whole_run_that_met_nothing_says_so() {
    let mut tally = Tally::default();
    assert!(tally.gaps().is_empty());
    tally.calls = WHOLE_RUN;
    let calls = ["command FF accepted", "address F read", "a table of no length"];
    let refusals =
        ["refusal 1 for 0E running", "refusal 1 for format number 7", "refusal 1 for pen number 3"];
    let left_overs = ["idle with a code: accepted", "a clear with a progress: refused"];
    let finer = ["LPCK accepted beside a left-over, steps with an open frame", "number 8 beside left-overs"];
    let pbm = [
        "wanted: PBM written.",
        "wanted: number 9.",
        "wanted: number 12.",
        "PBM written, a buffer of one byte short",
        "PBM read, number 10 on the FMAT low",
        "PBM read, number 0 on the EF9366",
        "PBM read, a picture of no length",
        "PBM read, a bad last dot",
    ];
    let slants = [
        "0B slanted upwards, cut by an edge of the window",
        "a character 20 to 7F slanted, stepping around 4,096",
        "0A upwards, erased",
        "a vector 80 to FF with tilt, line type 3",
    ];
    let frames = [
        "refusal 1 for VB high in the second frame of two of a clear",
        "a clear on FMAT low with a first frame over: refused",
        "VB set low when a clear waiting for the second of two frames, the pen waiting, VB high",
        "VB set high when a clear in the first of two frames, no pen sequence, VB low",
        "a clear given on the FMAT high, a first frame said to be over",
        "grant while a clear waits for the second of two frames",
        "a fall that begins the one frame on the EF9366, a first one said to be over: 0C with the eraser",
        "a rise that ends the second of two frames: 0C with the pen",
        "07 given on the FMAT high with VB low, and carried to its end",
    ];
    let rows = calls.iter().chain(&refusals).chain(&left_overs).chain(&finer);
    for row in rows.chain(&pbm).chain(&slants).chain(&frames) {
        assert!(tally.gaps().iter().any(|gap| gap.contains(row)), "{row}");
    }
    for never in [
        "register write accepted beside a left-over, steps with 0C set",
        "a clear on FMAT high with a first frame over",
        "VB set low when a clear in the second of two frames, no pen sequence, VB high",
        "wanted: number 7.",
        "number 7 beside left-overs",
    ] {
        assert!(tally.gaps().iter().all(|gap| !gap.contains(never)), "{never}");
    }
}

#[test]
fn words_that_are_no_call() {
    let given = ["", "write", "write 00 0 0", "read 00000000000000001100000000000000 100", "fresh GG"];
    let grants = ["65536 16384 480", "1 40001 480", "1 16384:16384=01 480", "1 16384:5 480"];
    let grants = grants.map(|rest| format!("grant 00000000000000001100000000000000 {rest}"));
    let pbm = ["write-pbm 0 16384", "read-pbm 00 300001 16384", "read-pbm 00 9:8=3132 16384"];
    let more = ["read-pbm 00 9:0=313 16384", "read-pbm 00 9:0=31*10 16384", "read-pbm 00 9:0=*9 16384"];
    let pbm = pbm.into_iter().chain(more);
    for text in given.into_iter().chain(grants.iter().map(String::as_str)).chain(pbm) {
        let words: Vec<String> = text.split(' ').map(str::to_string).collect();
        assert!(Case::of(&words).is_err(), "{text}");
    }
}
