// Cases as text: reading a line, answering it, and whole inputs, from the
// description of the notation and the models of the services.

mod answers;
mod bytes;
mod input;
mod question;
mod reader;

#[cfg(test)]
mod documented;
#[cfg(test)]
mod unreadable;

pub use answers::{Answerer, LENT};
pub use bytes::{part, written, MOST_BYTES};
pub use input::{lines, Line, MOST_INPUT};
pub use question::{question, Question};
pub use reader::{Reader, Unreadable};
