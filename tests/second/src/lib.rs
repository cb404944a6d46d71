//! A second, independent model of the EF9365 / EF9366 graphic display processor.
//! Written from document 01, requests a, b and c of document 02 and their readings alone, so that another
//! implementation can be held against it.
//! Nothing is proved here: every call is plain code that takes one write cycle at a time.

mod address;
mod answer;
mod blanking;
mod character;
mod command;
mod cycles;
mod format;
mod light_pen;
mod panel;
mod pbm_in;
mod pbm_order;
mod pbm_out;
mod picture;
mod position;
mod refusal;
mod register;
mod state;
mod status;
mod stepping;
mod vector;

pub use address::address;
pub use answer::{AddressAnswer, Answer, PbmAnswer};
pub use blanking::set_vb;
pub use cycles::cycles;
pub use format::Format;
pub use light_pen::lpck;
pub use panel::panel;
pub use pbm_in::pbm_read;
pub use pbm_out::pbm_write;
pub use register::{read, write};
pub use state::{fresh, ClearKind, Flags, Pen, State, Work};
