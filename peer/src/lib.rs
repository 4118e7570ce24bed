//! Case sheets in plain Rust: reading a question and a site, the numbered
//! STRIPS problem they stand for, checking plans, reading the picks of a plan,
//! building a plan from picks, and saying yes or no to picks.
//!
//! Everything here was written from the paper that fixes the sheets and shares
//! no line with the proved program, so that the two can be held against each
//! other. Safe code only, save the one module that calls the other library.

#![cfg_attr(not(feature = "ours"), forbid(unsafe_code))]
#![cfg_attr(feature = "ours", deny(unsafe_code))]

pub mod cases;
pub mod desk;
pub mod digest;
pub mod edges;
pub mod finding;
pub mod formula;
pub mod ground;
pub mod judging;
pub mod labels;
pub mod large;
pub mod layers;
pub mod limits;
pub mod measures;
pub mod naming;
#[cfg(feature = "ours")]
pub mod ours;
pub mod paper;
pub mod pddl;
pub mod plans;
pub mod records;
pub mod sample;
pub mod script;
pub mod searches;
pub mod sheets;
pub mod strips;
pub mod text;
pub mod texts;
pub mod tree;
pub mod trial;
pub mod tries;
pub mod types;
pub mod typing;

pub use cases::{
    action, action_number, build, build_text, check, check_text, picks, picks_text, rule_part,
    sizes, Sizes,
};
pub use desk::desk;
pub use finding::{find, monotone};
pub use ground::{Action, Prove, Set};
pub use judging::{judge, judge_text};
pub use layers::{build_layers, build_layers_text, check_layers, window, Window};
pub use measures::{allowances, tally, Tally};
pub use paper::{page, page_text};
pub use pddl::{pddl_domain, pddl_instance, pddl_plan, pddl_plan_text, pddl_read};
pub use text::{Refusal, Reply};
pub use tries::{tries, Try};
