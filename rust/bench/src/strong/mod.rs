//! The twin of the strong search: charged conflicts (R1), forcing from what is left (R2), loose
//! items (R3), one dive (R4), the value first and then the answer (R5).

mod board;
mod chain;
mod charge;
mod passes;
mod pick;
mod settle;

pub use passes::best;
