//! The card tuned by hand draws what the model draws, so that its times mean something.

use against::bench::tuned::Tuned;
use against::call::Call;
use against::draw::codes::{class_of, Class};
use against::draw::run;
use against::draw::states::FORMATS;
use against::model::outputs;
use against::random::Random;
use second::State;

/// Clears, VB and the pen are left out: the tuned card has none.
fn is_known(call: &Call) -> bool {
    match call {
        Call::Write { address: 0, value } => !matches!(class_of(*value), Class::Clear | Class::Pen),
        Call::Write { .. } | Call::Grant { .. } | Call::Address => true,
        Call::Read { address } => !matches!(address, 12 | 13),
        _ => false,
    }
}

/// Number and value from both.
fn both(call: &Call, tuned: &mut Tuned, model: &mut State, pictures: &mut [Vec<u8>; 2], table: &[u8]) {
    let (told, answer) = match *call {
        Call::Write { address, value } => {
            ((tuned.write(address, value), 0), second::write(model, address, value))
        }
        Call::Read { address } => (parted(tuned.read(address).map(u16::from)), second::read(model, address)),
        Call::Grant { n, .. } => (
            parted(tuned.grant(n, &mut pictures[0], table)),
            second::cycles(model, n, &mut pictures[1], table),
        ),
        Call::Address => return assert_eq!(tuned.address(), outputs(model), "{model:?}"),
        _ => unreachable!("other calls are left out"),
    };
    assert_eq!(told, (answer.number, answer.value), "{call} on {model:?}");
    *model = answer.state;
}

fn parted(result: Result<u16, u8>) -> (u8, u16) {
    match result {
        Ok(value) => (0, value),
        Err(number) => (number, 0),
    }
}

#[test]
fn the_tuned_card_draws_as_the_model_does() {
    let mut random = Random::new(77);
    for round in 0..300 {
        let format = FORMATS[round % 3];
        let (mut tuned, mut model) = (Tuned::new(format), second::fresh(format));
        let mut pictures = [vec![0; format.bytes()], vec![0; format.bytes()]];
        let mut table = [0; 480];
        random.fill(&mut table);
        for _ in 0..300 {
            let call = run::next(&mut random, &model);
            if is_known(&call) {
                both(&call, &mut tuned, &mut model, &mut pictures, &table);
                assert_eq!((tuned.x, tuned.y), (model.x, model.y), "after {call}");
            }
        }
        assert!(pictures[0] == pictures[1], "round {round}");
    }
}
