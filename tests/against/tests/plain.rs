//! The plain card answers and draws as the model does, so that its times mean something.

use against::bench::plain::{LightPen, Plain, Running};
use against::call::Call;
use against::draw::states::FORMATS;
use against::draw::{count, run};
use against::model::outputs;
use against::random::Random;
use against::scene::{LONGEST_PICTURE, LONGEST_TABLE};
use second::{ClearKind, Pen, State, Work};

/// The two cards and the memory of each.
struct Both {
    plain: Plain,
    model: State,
    pictures: [Vec<u8>; 2],
    table: Vec<u8>,
}

impl Both {
    fn play(&mut self, call: &Call) {
        let [of_plain, of_model] = &mut self.pictures;
        let (told, answer) = match *call {
            Call::Write { address, value } => {
                ((self.plain.write(address, value), 0), second::write(&self.model, address, value))
            }
            Call::Read { address } => {
                (parted(self.plain.read(address).map(u16::from)), second::read(&self.model, address))
            }
            Call::Grant { n, picture, table } => (
                parted(self.plain.grant(n, &mut of_plain[..picture], &self.table[..table])),
                second::cycles(&self.model, n, &mut of_model[..picture], &self.table[..table]),
            ),
            Call::SetVb { level, picture } => (
                (self.plain.set_vb(level != 0, &mut of_plain[..picture]), 0),
                second::set_vb(&self.model, level != 0, &mut of_model[..picture]),
            ),
            Call::Lpck { h, v } => ((self.plain.lpck(h, v), 0), second::lpck(&self.model, h, v)),
            Call::Address => {
                return assert_eq!(self.plain.address(), outputs(&self.model), "{:?}", self.model)
            }
            Call::Fresh { .. } | Call::WritePbm { .. } | Call::ReadPbm { .. } => return,
        };
        assert_eq!(told, (answer.number, answer.value), "{call} on {:?}", self.model);
        self.model = answer.state;
        assert_alike(&self.plain, &self.model, call);
        let lends_none = call.lends().picture.is_none();
        assert!(lends_none || self.pictures[0] == self.pictures[1], "the picture after {call}");
    }
}

fn parted(result: Result<u16, u8>) -> (u8, u16) {
    match result {
        Ok(value) => (0, value),
        Err(number) => (number, 0),
    }
}

/// The whole state, field by field.
fn assert_alike(plain: &Plain, model: &State, call: &Call) {
    let bit = |high: bool, place: u8| u8::from(high) << place;
    let flags = bit(model.flags.pen_end, 4) | bit(model.flags.vb_rise, 5) | bit(model.flags.ready, 6);
    assert_eq!((plain.place.x, plain.place.y), (model.x, model.y), "X and Y after {call}");
    assert_eq!((plain.ctrl1, plain.ctrl2), (model.ctrl1, model.ctrl2), "CTRL1 and CTRL2 after {call}");
    let sizes = (plain.csize, plain.deltax, plain.deltay);
    assert_eq!(sizes, (model.csize, model.deltax, model.deltay), "CSIZE, DELTAX and DELTAY after {call}");
    assert_eq!((plain.xlp, plain.ylp), (model.xlp, model.ylp), "XLP and YLP after {call}");
    assert_eq!((plain.vb, plain.flags), (model.vb, flags), "VB and flags after {call}");
    assert_eq!(light_pen(plain), model.pen, "the light pen after {call}");
    assert_eq!(running(plain), running_by(model), "what runs after {call}");
}

fn light_pen(plain: &Plain) -> Pen {
    match plain.light_pen {
        LightPen::Off => Pen::Off,
        LightPen::Waiting => Pen::Waiting,
        LightPen::Open => Pen::Open,
    }
}

/// The kind of what runs, its progress, and for a clear whether it is 0C and open, and the frames that are left.
type Kind = (&'static str, u16, Option<(bool, bool, u8)>);

fn running(plain: &Plain) -> Kind {
    match &plain.running {
        Running::Idle => ("idle", 0, None),
        Running::OneCycle => ("one cycle", 0, None),
        Running::Vector(vector) => ("vector", vector.done(), None),
        Running::Character(character) => ("character", character.done(), None),
        Running::Clear { fill, open, frames_left } => ("clear", 0, Some((*fill, *open, *frames_left))),
    }
}

fn running_by(model: &State) -> Kind {
    match model.work {
        Work::Idle => ("idle", 0, None),
        Work::Steps { code: 0x0F, done } => ("one cycle", done, None),
        Work::Steps { code: 0x10..=0x1F | 0x80.., done } => ("vector", done, None),
        Work::Steps { done, .. } => ("character", done, None),
        Work::Clear { kind, open, frames_done } => {
            let frames_left = count::frames(model.format) - frames_done;
            ("clear", 0, Some((kind == ClearKind::Fill, open, frames_left)))
        }
    }
}

#[test]
fn the_plain_card_answers_and_draws_as_the_model_does() {
    let mut random = Random::new(78);
    let mut clears_ended = [0; 3];
    for round in 0..300 {
        let format = FORMATS[round % 3];
        let mut both = Both {
            plain: Plain::new(format),
            model: second::fresh(format),
            pictures: [vec![0; LONGEST_PICTURE], vec![0; LONGEST_PICTURE]],
            table: vec![0; LONGEST_TABLE],
        };
        random.fill(&mut both.table);
        for _ in 0..300 {
            let call = run::next(&mut random, &both.model);
            let cleared = matches!(both.model.work, Work::Clear { .. });
            both.play(&call);
            clears_ended[round % 3] += usize::from(cleared && both.model.work == Work::Idle);
        }
    }
    // On FMAT high each of them went through both its frames.
    assert!(clears_ended.iter().all(|clears| *clears > 200), "{clears_ended:?}");
}
