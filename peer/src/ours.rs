//! The proved program, called through its C interface. Every foreign
//! declaration and every unsafe line of the package is in this file.
//!
//! A slice goes over as a pointer and a length; the refusal's number and place
//! come back through two references, number 0 with the step count being success.

#![allow(unsafe_code)]

use crate::cases::Sizes;
use crate::layers::Window;
use crate::text::{Refusal, Reply};
use crate::trial::{Calls, Lent};
use crate::tries::Try;

#[rustfmt::skip]
mod foreign {
    use crate::tries::Try;

    extern "C" {
        pub fn nendokwe_sizes(
            question: *const u8, question_len: usize, site: *const u8, site_len: usize,
            number: &mut u32, place: &mut u64,
            n: &mut u64, atoms: &mut u64, actions: &mut u64, bound: &mut u64,
        );
        pub fn nendokwe_rule(
            question: *const u8, question_len: usize, start: &mut u64, length: &mut u64,
        );
        pub fn nendokwe_action(
            question: *const u8, question_len: usize, site: *const u8, site_len: usize,
            k: u64, number: &mut u32, place: &mut u64,
            kind: &mut u32, subject: &mut u64, row: &mut u64, choice: &mut u64,
        );
        pub fn nendokwe_check_text(
            question: *const u8, question_len: usize, site: *const u8, site_len: usize,
            steps: *const u8, steps_len: usize, state: *mut u64, state_len: usize,
            number: &mut u32, place: &mut u64,
        );
        pub fn nendokwe_check(
            question: *const u8, question_len: usize, site: *const u8, site_len: usize,
            steps: *const u32, steps_len: usize, state: *mut u64, state_len: usize,
            number: &mut u32, place: &mut u64,
        );
        pub fn nendokwe_picks_text(
            question: *const u8, question_len: usize, site: *const u8, site_len: usize,
            steps: *const u8, steps_len: usize, picks: *mut u64, picks_len: usize,
            state: *mut u64, state_len: usize, number: &mut u32, place: &mut u64,
        );
        pub fn nendokwe_picks(
            question: *const u8, question_len: usize, site: *const u8, site_len: usize,
            steps: *const u32, steps_len: usize, picks: *mut u64, picks_len: usize,
            state: *mut u64, state_len: usize, number: &mut u32, place: &mut u64,
        );
        pub fn nendokwe_build_text(
            question: *const u8, question_len: usize, site: *const u8, site_len: usize,
            picks: *const u8, picks_len: usize, state: *mut u64, state_len: usize,
            steps: *mut u32, steps_len: usize, number: &mut u32, place: &mut u64,
        );
        pub fn nendokwe_build(
            question: *const u8, question_len: usize, site: *const u8, site_len: usize,
            picks: *const u64, picks_len: usize, state: *mut u64, state_len: usize,
            steps: *mut u32, steps_len: usize, number: &mut u32, place: &mut u64,
        );
        pub fn nendokwe_judge_text(
            question: *const u8, question_len: usize, site: *const u8, site_len: usize,
            picks: *const u8, picks_len: usize, number: &mut u32, place: &mut u64,
        );
        pub fn nendokwe_judge(
            question: *const u8, question_len: usize, site: *const u8, site_len: usize,
            picks: *const u64, picks_len: usize, number: &mut u32, place: &mut u64,
        );
        pub fn nendokwe_allowances(
            question: *const u8, question_len: usize, site: *const u8, site_len: usize,
            allowances: *mut u64, allowances_len: usize, number: &mut u32, place: &mut u64,
        );
        pub fn nendokwe_find(
            question: *const u8, question_len: usize, site: *const u8, site_len: usize,
            picks: *mut u64, picks_len: usize, number: &mut u32, place: &mut u64,
        );
        pub fn nendokwe_monotone(
            question: *const u8, question_len: usize, site: *const u8, site_len: usize,
            number: &mut u32, place: &mut u64,
        );
        pub fn nendokwe_tries(
            question: *const u8, question_len: usize, site: *const u8, site_len: usize,
            steps: *const u32, steps_len: usize, tries: *mut Try, tries_len: usize,
            state: *mut u64, state_len: usize, number: &mut u32, place: &mut u64,
        );
        pub fn nendokwe_page_text(
            question: *const u8, question_len: usize, site: *const u8, site_len: usize,
            steps: *const u8, steps_len: usize, page: u64, state: *mut u64, state_len: usize,
            out: *mut u8, out_len: usize, number: &mut u32, place: &mut u64,
        );
        pub fn nendokwe_page(
            question: *const u8, question_len: usize, site: *const u8, site_len: usize,
            steps: *const u32, steps_len: usize, page: u64, state: *mut u64, state_len: usize,
            out: *mut u8, out_len: usize, number: &mut u32, place: &mut u64,
        );
        pub fn nendokwe_window(
            question: *const u8, question_len: usize, site: *const u8, site_len: usize,
            number: &mut u32, place: &mut u64, lower: &mut u64, upper: &mut u64,
        );
        pub fn nendokwe_check_layers(
            question: *const u8, question_len: usize, site: *const u8, site_len: usize,
            steps: *const u32, steps_len: usize, ends: *const u32, ends_len: usize,
            state: *mut u64, state_len: usize, number: &mut u32, place: &mut u64,
        );
        pub fn nendokwe_build_layers_text(
            question: *const u8, question_len: usize, site: *const u8, site_len: usize,
            picks: *const u8, picks_len: usize, state: *mut u64, state_len: usize,
            steps: *mut u32, steps_len: usize, ends: *mut u32, ends_len: usize,
            number: &mut u32, place: &mut u64,
        );
        pub fn nendokwe_build_layers(
            question: *const u8, question_len: usize, site: *const u8, site_len: usize,
            picks: *const u64, picks_len: usize, state: *mut u64, state_len: usize,
            steps: *mut u32, steps_len: usize, ends: *mut u32, ends_len: usize,
            number: &mut u32, place: &mut u64,
        );
        pub fn nendokwe_pddl_domain(
            question: *const u8, question_len: usize, site: *const u8, site_len: usize,
            out: *mut u8, out_len: usize, number: &mut u32, place: &mut u64,
        );
        pub fn nendokwe_pddl_instance(
            question: *const u8, question_len: usize, site: *const u8, site_len: usize,
            out: *mut u8, out_len: usize, number: &mut u32, place: &mut u64,
        );
        pub fn nendokwe_pddl_plan_text(
            question: *const u8, question_len: usize, site: *const u8, site_len: usize,
            steps: *const u8, steps_len: usize, out: *mut u8, out_len: usize,
            number: &mut u32, place: &mut u64,
        );
        pub fn nendokwe_pddl_plan(
            question: *const u8, question_len: usize, site: *const u8, site_len: usize,
            steps: *const u32, steps_len: usize, out: *mut u8, out_len: usize,
            number: &mut u32, place: &mut u64,
        );
        pub fn nendokwe_pddl_read(
            question: *const u8, question_len: usize, site: *const u8, site_len: usize,
            plan: *const u8, plan_len: usize, steps: *mut u32, steps_len: usize,
            number: &mut u32, place: &mut u64,
        );
        pub fn nendokwe_desk(input: *const u8, input_len: usize, out: *mut u8) -> usize;
    }
}

/// As much as the desk call asks for: more than the longest text it prints.
const PRINT_ROOM: usize = 573_952;

/// A place no call gives, so that an answer that was never written shows.
const UNSET: u64 = u64::MAX;

fn reply(number: u32, place: u64) -> Reply {
    match number {
        0 => Reply::Accepted(place),
        number => Reply::Refused(Refusal { number, place }),
    }
}

/// The proved program.
pub struct Ours;

#[rustfmt::skip]
impl Calls for Ours {
    fn sizes(&self, question: &[u8], site: &[u8]) -> Result<Sizes, Refusal> {
        let (mut number, mut place) = (u32::MAX, UNSET);
        let mut sizes = Sizes { n: UNSET, atoms: UNSET, actions: UNSET, bound: UNSET };
        // Safety: each pointer comes from a live slice and goes with its length.
        unsafe {
            foreign::nendokwe_sizes(
                question.as_ptr(), question.len(), site.as_ptr(), site.len(),
                &mut number, &mut place,
                &mut sizes.n, &mut sizes.atoms, &mut sizes.actions, &mut sizes.bound,
            );
        }
        match number {
            0 => Ok(sizes),
            number => Err(Refusal { number, place }),
        }
    }

    fn rule(&self, question: &[u8]) -> [u64; 2] {
        let (mut start, mut length) = (UNSET, UNSET);
        // Safety: as for `sizes`.
        unsafe {
            foreign::nendokwe_rule(question.as_ptr(), question.len(), &mut start, &mut length);
        }
        [start, length]
    }

    fn action(&self, case: [&[u8]; 2], k: u64) -> Result<[u64; 4], Refusal> {
        let (mut number, mut place) = (u32::MAX, UNSET);
        let (mut kind, mut subject, mut row, mut choice) = (u32::MAX, UNSET, UNSET, UNSET);
        // Safety: as for `sizes`.
        unsafe {
            foreign::nendokwe_action(
                case[0].as_ptr(), case[0].len(), case[1].as_ptr(), case[1].len(),
                k, &mut number, &mut place, &mut kind, &mut subject, &mut row, &mut choice,
            );
        }
        match number {
            0 => Ok([u64::from(kind), subject, row, choice]),
            number => Err(Refusal { number, place }),
        }
    }

    fn check_text(&self, case: [&[u8]; 2], steps: &[u8], state: &mut [u64]) -> Reply {
        let (mut number, mut place) = (u32::MAX, UNSET);
        // Safety: as for `sizes`; the state is ours alone while the call runs.
        unsafe {
            foreign::nendokwe_check_text(
                case[0].as_ptr(), case[0].len(), case[1].as_ptr(), case[1].len(),
                steps.as_ptr(), steps.len(), state.as_mut_ptr(), state.len(),
                &mut number, &mut place,
            );
        }
        reply(number, place)
    }

    fn check(&self, case: [&[u8]; 2], steps: &[u32], state: &mut [u64]) -> Reply {
        let (mut number, mut place) = (u32::MAX, UNSET);
        // Safety: as for `check_text`.
        unsafe {
            foreign::nendokwe_check(
                case[0].as_ptr(), case[0].len(), case[1].as_ptr(), case[1].len(),
                steps.as_ptr(), steps.len(), state.as_mut_ptr(), state.len(),
                &mut number, &mut place,
            );
        }
        reply(number, place)
    }

    fn picks_text(
        &self,
        case: [&[u8]; 2],
        steps: &[u8],
        picks: &mut [u64],
        state: &mut [u64],
    ) -> Reply {
        let (mut number, mut place) = (u32::MAX, UNSET);
        // Safety: as for `check_text`; the two buffers do not overlap.
        unsafe {
            foreign::nendokwe_picks_text(
                case[0].as_ptr(), case[0].len(), case[1].as_ptr(), case[1].len(),
                steps.as_ptr(), steps.len(), picks.as_mut_ptr(), picks.len(),
                state.as_mut_ptr(), state.len(), &mut number, &mut place,
            );
        }
        reply(number, place)
    }

    fn picks(
        &self,
        case: [&[u8]; 2],
        steps: &[u32],
        picks: &mut [u64],
        state: &mut [u64],
    ) -> Reply {
        let (mut number, mut place) = (u32::MAX, UNSET);
        // Safety: as for `picks_text`.
        unsafe {
            foreign::nendokwe_picks(
                case[0].as_ptr(), case[0].len(), case[1].as_ptr(), case[1].len(),
                steps.as_ptr(), steps.len(), picks.as_mut_ptr(), picks.len(),
                state.as_mut_ptr(), state.len(), &mut number, &mut place,
            );
        }
        reply(number, place)
    }

    fn build_text(
        &self,
        case: [&[u8]; 2],
        picks: &[u8],
        state: &mut [u64],
        steps: &mut [u32],
    ) -> Reply {
        let (mut number, mut place) = (u32::MAX, UNSET);
        // Safety: as for `picks_text`.
        unsafe {
            foreign::nendokwe_build_text(
                case[0].as_ptr(), case[0].len(), case[1].as_ptr(), case[1].len(),
                picks.as_ptr(), picks.len(), state.as_mut_ptr(), state.len(),
                steps.as_mut_ptr(), steps.len(), &mut number, &mut place,
            );
        }
        reply(number, place)
    }

    fn build(
        &self,
        case: [&[u8]; 2],
        picks: &[u64],
        state: &mut [u64],
        steps: &mut [u32],
    ) -> Reply {
        let (mut number, mut place) = (u32::MAX, UNSET);
        // Safety: as for `picks_text`.
        unsafe {
            foreign::nendokwe_build(
                case[0].as_ptr(), case[0].len(), case[1].as_ptr(), case[1].len(),
                picks.as_ptr(), picks.len(), state.as_mut_ptr(), state.len(),
                steps.as_mut_ptr(), steps.len(), &mut number, &mut place,
            );
        }
        reply(number, place)
    }

    fn tries(
        &self, case: [&[u8]; 2], steps: &[u32], tries: &mut [Try], state: &mut [u64],
    ) -> Reply {
        let (mut number, mut place) = (u32::MAX, UNSET);
        // Safety: as for `check_text`; the records too are ours alone while the call runs.
        unsafe {
            foreign::nendokwe_tries(
                case[0].as_ptr(), case[0].len(), case[1].as_ptr(), case[1].len(),
                steps.as_ptr(), steps.len(), tries.as_mut_ptr(), tries.len(),
                state.as_mut_ptr(), state.len(), &mut number, &mut place,
            );
        }
        reply(number, place)
    }

    fn judge_text(&self, case: [&[u8]; 2], picks: &[u8]) -> Reply {
        let (mut number, mut place) = (u32::MAX, UNSET);
        // Safety: as for `sizes`.
        unsafe {
            foreign::nendokwe_judge_text(
                case[0].as_ptr(), case[0].len(), case[1].as_ptr(), case[1].len(),
                picks.as_ptr(), picks.len(), &mut number, &mut place,
            );
        }
        reply(number, place)
    }

    fn judge(&self, case: [&[u8]; 2], picks: &[u64]) -> Reply {
        let (mut number, mut place) = (u32::MAX, UNSET);
        // Safety: as for `sizes`.
        unsafe {
            foreign::nendokwe_judge(
                case[0].as_ptr(), case[0].len(), case[1].as_ptr(), case[1].len(),
                picks.as_ptr(), picks.len(), &mut number, &mut place,
            );
        }
        reply(number, place)
    }

    fn allowances(&self, case: [&[u8]; 2], out: &mut [u64]) -> Reply {
        let (mut number, mut place) = (u32::MAX, UNSET);
        // Safety: as for `check_text`.
        unsafe {
            foreign::nendokwe_allowances(
                case[0].as_ptr(), case[0].len(), case[1].as_ptr(), case[1].len(),
                out.as_mut_ptr(), out.len(), &mut number, &mut place,
            );
        }
        reply(number, place)
    }

    fn page_text(
        &self, case: [&[u8]; 2], steps: &[u8], page: u64, state: &mut [u64], out: &mut [u8],
    ) -> Reply {
        let (mut number, mut place) = (u32::MAX, UNSET);
        // Safety: as for `picks_text`.
        unsafe {
            foreign::nendokwe_page_text(
                case[0].as_ptr(), case[0].len(), case[1].as_ptr(), case[1].len(),
                steps.as_ptr(), steps.len(), page, state.as_mut_ptr(), state.len(),
                out.as_mut_ptr(), out.len(), &mut number, &mut place,
            );
        }
        reply(number, place)
    }

    fn page(
        &self, case: [&[u8]; 2], steps: &[u32], page: u64, state: &mut [u64], out: &mut [u8],
    ) -> Reply {
        let (mut number, mut place) = (u32::MAX, UNSET);
        // Safety: as for `picks_text`.
        unsafe {
            foreign::nendokwe_page(
                case[0].as_ptr(), case[0].len(), case[1].as_ptr(), case[1].len(),
                steps.as_ptr(), steps.len(), page, state.as_mut_ptr(), state.len(),
                out.as_mut_ptr(), out.len(), &mut number, &mut place,
            );
        }
        reply(number, place)
    }

    fn find(&self, case: [&[u8]; 2], picks: &mut [u64]) -> Reply {
        let (mut number, mut place) = (u32::MAX, UNSET);
        // Safety: as for `check_text`.
        unsafe {
            foreign::nendokwe_find(
                case[0].as_ptr(), case[0].len(), case[1].as_ptr(), case[1].len(),
                picks.as_mut_ptr(), picks.len(), &mut number, &mut place,
            );
        }
        reply(number, place)
    }

    fn monotone(&self, case: [&[u8]; 2]) -> Reply {
        let (mut number, mut place) = (u32::MAX, UNSET);
        // Safety: as for `sizes`.
        unsafe {
            foreign::nendokwe_monotone(
                case[0].as_ptr(), case[0].len(), case[1].as_ptr(), case[1].len(),
                &mut number, &mut place,
            );
        }
        reply(number, place)
    }

    fn window(&self, case: [&[u8]; 2]) -> Result<Window, Refusal> {
        let (mut number, mut place) = (u32::MAX, UNSET);
        let mut window = Window { lower: UNSET, upper: UNSET };
        // Safety: as for `sizes`.
        unsafe {
            foreign::nendokwe_window(
                case[0].as_ptr(), case[0].len(), case[1].as_ptr(), case[1].len(),
                &mut number, &mut place, &mut window.lower, &mut window.upper,
            );
        }
        match number {
            0 => Ok(window),
            number => Err(Refusal { number, place }),
        }
    }

    fn check_layers(
        &self, case: [&[u8]; 2], steps: &[u32], ends: &[u32], state: &mut [u64],
    ) -> Reply {
        let (mut number, mut place) = (u32::MAX, UNSET);
        // Safety: as for `check_text`.
        unsafe {
            foreign::nendokwe_check_layers(
                case[0].as_ptr(), case[0].len(), case[1].as_ptr(), case[1].len(),
                steps.as_ptr(), steps.len(), ends.as_ptr(), ends.len(),
                state.as_mut_ptr(), state.len(),
                &mut number, &mut place,
            );
        }
        reply(number, place)
    }

    fn build_layers_text(&self, case: [&[u8]; 2], picks: &[u8], lent: &mut Lent) -> Reply {
        let (mut number, mut place) = (u32::MAX, UNSET);
        // Safety: as for `picks_text`.
        unsafe {
            foreign::nendokwe_build_layers_text(
                case[0].as_ptr(), case[0].len(), case[1].as_ptr(), case[1].len(),
                picks.as_ptr(), picks.len(),
                lent.state.as_mut_ptr(), lent.state.len(),
                lent.steps.as_mut_ptr(), lent.steps.len(),
                lent.ends.as_mut_ptr(), lent.ends.len(),
                &mut number, &mut place,
            );
        }
        reply(number, place)
    }

    fn build_layers(&self, case: [&[u8]; 2], picks: &[u64], lent: &mut Lent) -> Reply {
        let (mut number, mut place) = (u32::MAX, UNSET);
        // Safety: as for `picks_text`.
        unsafe {
            foreign::nendokwe_build_layers(
                case[0].as_ptr(), case[0].len(), case[1].as_ptr(), case[1].len(),
                picks.as_ptr(), picks.len(),
                lent.state.as_mut_ptr(), lent.state.len(),
                lent.steps.as_mut_ptr(), lent.steps.len(),
                lent.ends.as_mut_ptr(), lent.ends.len(),
                &mut number, &mut place,
            );
        }
        reply(number, place)
    }

    fn pddl_domain(&self, case: [&[u8]; 2], out: &mut [u8]) -> Reply {
        let (mut number, mut place) = (u32::MAX, UNSET);
        // Safety: as for `check_text`.
        unsafe {
            foreign::nendokwe_pddl_domain(
                case[0].as_ptr(), case[0].len(), case[1].as_ptr(), case[1].len(),
                out.as_mut_ptr(), out.len(),
                &mut number, &mut place,
            );
        }
        reply(number, place)
    }

    fn pddl_instance(&self, case: [&[u8]; 2], out: &mut [u8]) -> Reply {
        let (mut number, mut place) = (u32::MAX, UNSET);
        // Safety: as for `check_text`.
        unsafe {
            foreign::nendokwe_pddl_instance(
                case[0].as_ptr(), case[0].len(), case[1].as_ptr(), case[1].len(),
                out.as_mut_ptr(), out.len(),
                &mut number, &mut place,
            );
        }
        reply(number, place)
    }

    fn pddl_plan_text(&self, case: [&[u8]; 2], steps: &[u8], out: &mut [u8]) -> Reply {
        let (mut number, mut place) = (u32::MAX, UNSET);
        // Safety: as for `check_text`.
        unsafe {
            foreign::nendokwe_pddl_plan_text(
                case[0].as_ptr(), case[0].len(), case[1].as_ptr(), case[1].len(),
                steps.as_ptr(), steps.len(), out.as_mut_ptr(), out.len(),
                &mut number, &mut place,
            );
        }
        reply(number, place)
    }

    fn pddl_plan(&self, case: [&[u8]; 2], steps: &[u32], out: &mut [u8]) -> Reply {
        let (mut number, mut place) = (u32::MAX, UNSET);
        // Safety: as for `check_text`.
        unsafe {
            foreign::nendokwe_pddl_plan(
                case[0].as_ptr(), case[0].len(), case[1].as_ptr(), case[1].len(),
                steps.as_ptr(), steps.len(), out.as_mut_ptr(), out.len(),
                &mut number, &mut place,
            );
        }
        reply(number, place)
    }

    fn pddl_read(&self, case: [&[u8]; 2], plan: &[u8], steps: &mut [u32]) -> Reply {
        let (mut number, mut place) = (u32::MAX, UNSET);
        // Safety: as for `check_text`.
        unsafe {
            foreign::nendokwe_pddl_read(
                case[0].as_ptr(), case[0].len(), case[1].as_ptr(), case[1].len(),
                plan.as_ptr(), plan.len(), steps.as_mut_ptr(), steps.len(),
                &mut number, &mut place,
            );
        }
        reply(number, place)
    }

    fn desk(&self, input: &[u8]) -> Vec<u8> {
        let mut printed = vec![0; PRINT_ROOM];
        // Safety: as for `sizes`; the output buffer is ours alone, and as long as the call asks.
        let written =
            unsafe { foreign::nendokwe_desk(input.as_ptr(), input.len(), printed.as_mut_ptr()) };
        printed.truncate(written);
        printed
    }
}
