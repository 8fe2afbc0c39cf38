//! What the programs and the tests share.

pub use traced::branch_table;
