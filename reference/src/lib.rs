//! A second implementation of the rules in docs/PROTOCOL.md, to be compared with.
//! It comes to the same output by another way than the page has it: a change knows the length of the text
//! before and after it, a client's own text is computed where it is shown, and in place of a concurrent list
//! the server follows what is pending at the client. Being easy to check comes before being fast.

pub mod change;
pub mod client;
pub mod pending;
pub mod player;
pub mod refusal;
pub mod room;
pub mod script;
pub mod server;
pub mod text;
