//! The server end of one MRCPv2 control channel, a synthesizer's or a recognizer's,
//! written from documents 01 and 02 alone.
//!
//! One module for each section of the paper. Nothing here knows of the other
//! implementation; the two are compared by the lines that they write.

pub mod bench;
pub mod calls;
pub mod channel;
pub mod fields;
pub mod framing;
pub mod gen;
pub mod judgement;
pub mod kept;
pub mod ledger;
pub mod level;
pub mod message;
pub mod octets;
pub mod params;
pub mod play;
pub mod refusal;
pub mod script;
pub mod settings;
pub mod start_line;
pub mod states;
pub mod tell;
pub mod whose;
pub mod writing;

pub use calls::Outcome;
pub use channel::Channel;
pub use framing::frame;
pub use kept::Kept;
pub use message::read;
pub use refusal::Refusal;
pub use whose::whose;
