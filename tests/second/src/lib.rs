//! A second implementation of Maltziru's script program: plain and slow, one module for each part of the paper.

pub mod answering;
pub mod checks;
pub mod forms;
pub mod lent;
pub mod limits;
pub mod making;
pub mod meaning;
pub mod printing;
pub mod random;
pub mod rewriting;
pub mod routes;
pub mod script;
pub mod state;
pub mod text;
pub mod views;
