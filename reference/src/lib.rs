//! The register of capabilities, a second time and independently.
//!
//! Numbers with § are paragraphs of docs/SPECIFICATION.md: the comment at each
//! definition names those that it carries out. A [`register::Capability`] is
//! called a pass in lines.

pub mod calls;
pub mod entry;
pub mod generate;
pub mod image;
pub mod journal;
pub mod lines;
pub mod random;
pub mod refusal;
pub mod register;
pub mod request;
pub mod rules;

pub use calls::{apply, apply_trusted};
pub use image::{encode, load, load_into, save};
pub use lines::{parse, print};
pub use refusal::Answer;
pub use register::{Capability, Context, Origin, Register, Role, Session};
pub use request::{Creation, Inquiry, Named, Opening, Request};
pub use rules::well_formed;
