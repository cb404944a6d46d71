//! What is drawn at random: states, the causes of refusal 1, left-overs, PBM files, and calls.

pub mod arguments;
pub mod codes;
pub mod count;
pub mod damage;
pub mod impossible;
pub mod left_over;
pub mod letter;
pub mod no_state;
pub mod pbm;
pub mod run;
pub mod single;
pub mod states;
