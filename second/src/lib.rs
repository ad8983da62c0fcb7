//! A second implementation of document 01, in the plainest way.
//!
//! The history of decided changes is kept; vectors and lines are worked out
//! from it by the definitions. Nothing is carried along from call to call that
//! the definitions do not name.

pub mod answer;
pub mod cabinet;
pub mod call;
pub mod cards;
pub mod carried;
pub mod check;
pub mod compare;
pub mod data;
pub mod grounds;
pub mod history;
pub mod journal;
pub mod limits;
pub mod lists;
pub mod random;
pub mod readouts;
pub mod refusal;
pub mod replay;
pub mod restart;
pub mod sheet;
pub mod takes;
