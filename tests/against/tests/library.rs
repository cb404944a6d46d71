//! The library and the model, given the same 500,000 calls.

use against::differ::compare;
use against::library::Library;
use against::model::Model;
use against::tally::WHOLE_RUN;

#[test]
fn the_library_answers_as_the_model_does() {
    let tally = compare(&Library::reach(), &Model, 9366, WHOLE_RUN).unwrap_or_else(|told| panic!("{told}"));
    assert_eq!(tally.calls, WHOLE_RUN);
    assert_eq!(tally.gaps(), Vec::<String>::new());
}
