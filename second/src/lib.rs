//! The terminal's end of RDP Remote Programs (RAIL), written from the documents
//! as a second program, so that another one can be compared with it.
//!
//! [`pdu`] reads and writes control messages. [`order`] judges window orders,
//! [`table`] is what they change, [`book`] keeps a list of them with a mark,
//! [`update`] delivers many at once, [`record`] is the session record of those after the mark,
//! [`figure`] counts what of the windows is visible, and [`report`] tells it at each mark.
//! The other modules drive these: [`script`] runs call scripts, [`generate`] makes
//! them, [`coverage`] tells what they reach, [`compare`] runs another program on
//! them, [`fault`] has it meet faults in its memory, [`hex`] turns hand-written text
//! into them, and [`support`] makes them of a raw update and tells answers in words.

#![forbid(unsafe_code)]
#![warn(missing_docs)]

pub mod book;
pub mod compare;
pub mod coverage;
pub mod fault;
pub mod figure;
pub mod generate;
pub mod hex;
pub mod ids;
pub mod memory;
pub mod number;
pub mod order;
pub mod pairs;
pub mod pdu;
mod program;
pub mod record;
pub mod report;
pub mod script;
pub mod support;
pub mod table;
pub mod update;
pub mod why;
