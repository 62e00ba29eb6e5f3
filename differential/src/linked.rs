//! The proved library, by the functions of `crates/boundary`. The only module with unsafe code: it declares the functions, and
//! passes each slice as a pointer and a length.
#![allow(unsafe_code)]

use crate::answers::Told;
use crate::survey::Making;

/// An entry of a level table: whether it holds a level, and the number that stands for it.
#[repr(C)]
#[derive(Clone, Copy, Debug, PartialEq, Eq)]
pub struct Stored {
    present: bool,
    level: u64,
}

impl From<Option<u64>> for Stored {
    fn from(level: Option<u64>) -> Stored {
        Stored {
            present: level.is_some(),
            level: level.unwrap_or(0),
        }
    }
}

impl From<Stored> for Option<u64> {
    fn from(stored: Stored) -> Option<u64> {
        stored.present.then_some(stored.level)
    }
}

/// A call of a list: which it is, its atom and its level, and how long the round table and the questions are that it is lent.
#[repr(C)]
#[derive(Clone, Copy, Debug)]
pub struct CallCode {
    pub word: u16,
    pub atom: u16,
    pub level: u64,
    pub rounds: usize,
    pub inside: usize,
}

/// A question for a trial, and its answer.
#[repr(C)]
#[derive(Clone, Copy, Debug)]
pub struct AskCode {
    pub refute: bool,
    pub told: Told,
}

/// What a list of calls is lent: the codes, the round tables one after the other, the questions likewise, and room for the answers.
pub struct List<'a> {
    pub codes: &'a [CallCode],
    pub rounds: &'a mut [u16],
    pub asks: &'a mut [AskCode],
    pub answers: &'a mut [Told],
}

unsafe extern "C" {
    fn boundary_line(
        program: *const u8,
        program_len: usize,
        certificate: *const u8,
        certificate_len: usize,
        out: *mut u8,
        out_len: usize,
    ) -> usize;

    fn boundary_judge(
        program: *const u8,
        program_len: usize,
        routes: bool,
        marks: *const u8,
        marks_len: usize,
        stored: *const Stored,
        stored_len: usize,
    ) -> Told;

    fn boundary_refute(
        program: *const u8,
        program_len: usize,
        marks: *const u8,
        marks_len: usize,
    ) -> Told;

    fn boundary_settle(
        program: *const u8,
        program_len: usize,
        routes: bool,
        marks: *mut u8,
        marks_len: usize,
        stored: *mut Stored,
        stored_len: usize,
        rounds: *mut u16,
        rounds_len: usize,
    ) -> Told;

    fn boundary_list(
        program: *const u8,
        program_len: usize,
        routes: bool,
        making: u8,
        certificate: *const u8,
        certificate_len: usize,
        marks: *mut u8,
        marks_len: usize,
        stored: *mut Stored,
        stored_len: usize,
        codes: *const CallCode,
        codes_len: usize,
        rounds: *mut u16,
        rounds_len: usize,
        asks: *mut AskCode,
        asks_len: usize,
        answers: *mut Told,
        answers_len: usize,
    ) -> Told;

    fn boundary_copy(
        program: *const u8,
        program_len: usize,
        atoms: *const u16,
        atoms_len: usize,
        out: *mut u8,
        out_len: usize,
    ) -> Told;
}

/// The line is put to the front of the output; its length is answered.
pub fn line(program: &[u8], certificate: &[u8], out: &mut [u8]) -> usize {
    // SAFETY: each pointer and length are those of one slice, borrowed for the call, as the declaration's Rattle function takes it.
    unsafe {
        boundary_line(
            program.as_ptr(),
            program.len(),
            certificate.as_ptr(),
            certificate.len(),
            out.as_mut_ptr(),
            out.len(),
        )
    }
}

/// What judge answers.
pub fn judge(program: &[u8], routes: bool, marks: &[u8], stored: &[Stored]) -> Told {
    // SAFETY: as for `line`.
    unsafe {
        boundary_judge(
            program.as_ptr(),
            program.len(),
            routes,
            marks.as_ptr(),
            marks.len(),
            stored.as_ptr(),
            stored.len(),
        )
    }
}

/// What refute answers.
pub fn refute(program: &[u8], marks: &[u8]) -> Told {
    // SAFETY: as for `line`.
    unsafe { boundary_refute(program.as_ptr(), program.len(), marks.as_ptr(), marks.len()) }
}

/// What settle answers; the tables are as it leaves them.
pub fn settle(
    program: &[u8],
    routes: bool,
    marks: &mut [u8],
    stored: &mut [Stored],
    rounds: &mut [u16],
) -> Told {
    // SAFETY: as for `line`.
    unsafe {
        boundary_settle(
            program.as_ptr(),
            program.len(),
            routes,
            marks.as_mut_ptr(),
            marks.len(),
            stored.as_mut_ptr(),
            stored.len(),
            rounds.as_mut_ptr(),
            rounds.len(),
        )
    }
}

/// Performs a list of calls, on the tables that the making leaves.
pub fn list(
    program: &[u8],
    routes: bool,
    making: &Making,
    marks: &mut [u8],
    stored: &mut [Stored],
    list: &mut List,
) -> Told {
    let (making, certificate): (u8, &[u8]) = match making {
        Making::AsTheyAre => (0, &[]),
        Making::NothingMarked => (1, &[]),
        Making::From(certificate) => (2, certificate),
    };
    // SAFETY: as for `line`.
    unsafe {
        boundary_list(
            program.as_ptr(),
            program.len(),
            routes,
            making,
            certificate.as_ptr(),
            certificate.len(),
            marks.as_mut_ptr(),
            marks.len(),
            stored.as_mut_ptr(),
            stored.len(),
            list.codes.as_ptr(),
            list.codes.len(),
            list.rounds.as_mut_ptr(),
            list.rounds.len(),
            list.asks.as_mut_ptr(),
            list.asks.len(),
            list.answers.as_mut_ptr(),
            list.answers.len(),
        )
    }
}

/// Writes a program file again, with the atoms as inputs over it.
pub fn copy(program: &[u8], atoms: &[u16], out: &mut [u8]) -> Told {
    // SAFETY: as for `line`.
    unsafe {
        boundary_copy(
            program.as_ptr(),
            program.len(),
            atoms.as_ptr(),
            atoms.len(),
            out.as_mut_ptr(),
            out.len(),
        )
    }
}
