//! A second, independent reading of the paper, to be compared with the first by running both.

pub mod agreement;
pub mod bits;
pub mod calls;
pub mod case;
pub mod changes;
pub mod check;
pub mod compare;
pub mod counts;
pub mod files;
pub mod filter;
pub mod float;
pub mod float_counts;
pub mod layout;
pub mod node;
pub mod old_counts;
pub mod pairs;
pub mod patterns;
pub mod plans;
pub mod player;
pub mod random;
pub mod scripts;
pub mod whole_counts;
pub mod wrong;
