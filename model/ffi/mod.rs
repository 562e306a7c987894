//! The proved library's C functions, behind safe ones. Nothing but this file
//! is unsafe, and only the bench and the comparison take it in.

#![allow(unsafe_code)]

use model::calls::Calls;
use model::quiet::Asked;
use model::step_call::Steps;
use model::{Ask, Numbers};

#[link(name = "quorum", kind = "static")]
extern "C" {
    fn qc_play_list(
        list: *const u8,
        list_len: usize,
        store: *mut u8,
        store_len: usize,
        world: *mut u8,
        world_len: usize,
        result: *mut u8,
        result_len: usize,
    ) -> u32;

    fn qc_play_command(
        world: *mut u8,
        world_len: usize,
        store: *mut u8,
        store_len: usize,
        list: *const u8,
        list_len: usize,
        at: usize,
        result: *mut u8,
        result_len: usize,
    ) -> u32;

    fn qc_report(
        world: *const u8,
        world_len: usize,
        events: usize,
        number: u32,
        place: usize,
        buffer: *mut u8,
        buffer_len: usize,
        result: *mut u8,
        result_len: usize,
    ) -> u32;

    fn qc_write_lines(
        list: *const u8,
        list_len: usize,
        buffer: *mut u8,
        buffer_len: usize,
        result: *mut u8,
        result_len: usize,
    ) -> u32;

    fn qc_read_lines(
        text: *const u8,
        text_len: usize,
        buffer: *mut u8,
        buffer_len: usize,
        result: *mut u8,
        result_len: usize,
    ) -> u32;

    fn qc_write_quiet(
        n: usize,
        commit: usize,
        abort: usize,
        buffer: *mut u8,
        buffer_len: usize,
        result: *mut u8,
        result_len: usize,
    ) -> u32;

    fn qc_convert(
        list: *const u8,
        list_len: usize,
        buffer: *mut u8,
        buffer_len: usize,
        result: *mut u8,
        result_len: usize,
    ) -> u32;
}

#[link(name = "quorum_step", kind = "static")]
extern "C" {
    fn qc_step(
        terms: *const u8,
        terms_len: usize,
        site: *mut u8,
        site_len: usize,
        command: *const u8,
        command_len: usize,
        row: *mut u8,
        row_len: usize,
        result: *mut u8,
        result_len: usize,
    ) -> u32;
}

/// The proved library. Its functions ask nothing of their arguments.
pub struct Library;

impl Calls for Library {
    fn play_list(&self, list: &[u8], store: &mut [u8], world: &mut [u8], result: &mut [u8]) -> u32 {
        // SAFETY: each pointer goes with its slice's length, and the borrows
        // keep the slices alive and apart for the call.
        unsafe {
            qc_play_list(
                list.as_ptr(),
                list.len(),
                store.as_mut_ptr(),
                store.len(),
                world.as_mut_ptr(),
                world.len(),
                result.as_mut_ptr(),
                result.len(),
            )
        }
    }

    fn play_command(&self, world: &mut [u8], store: &mut [u8], ask: Ask, result: &mut [u8]) -> u32 {
        // SAFETY: as above.
        unsafe {
            qc_play_command(
                world.as_mut_ptr(),
                world.len(),
                store.as_mut_ptr(),
                store.len(),
                ask.list.as_ptr(),
                ask.list.len(),
                ask.at,
                result.as_mut_ptr(),
                result.len(),
            )
        }
    }

    fn report(&self, world: &[u8], numbers: Numbers, buffer: &mut [u8], result: &mut [u8]) -> u32 {
        // SAFETY: as above.
        unsafe {
            qc_report(
                world.as_ptr(),
                world.len(),
                numbers.events,
                numbers.stop,
                numbers.place,
                buffer.as_mut_ptr(),
                buffer.len(),
                result.as_mut_ptr(),
                result.len(),
            )
        }
    }

    fn write_lines(&self, list: &[u8], buffer: &mut [u8], result: &mut [u8]) -> u32 {
        // SAFETY: as above.
        unsafe {
            qc_write_lines(
                list.as_ptr(),
                list.len(),
                buffer.as_mut_ptr(),
                buffer.len(),
                result.as_mut_ptr(),
                result.len(),
            )
        }
    }

    fn read_lines(&self, text: &[u8], buffer: &mut [u8], result: &mut [u8]) -> u32 {
        // SAFETY: as above.
        unsafe {
            qc_read_lines(
                text.as_ptr(),
                text.len(),
                buffer.as_mut_ptr(),
                buffer.len(),
                result.as_mut_ptr(),
                result.len(),
            )
        }
    }

    fn write_quiet(&self, asked: Asked, buffer: &mut [u8], result: &mut [u8]) -> u32 {
        let [n, commit, abort] = asked;
        // SAFETY: as above.
        unsafe {
            qc_write_quiet(
                n,
                commit,
                abort,
                buffer.as_mut_ptr(),
                buffer.len(),
                result.as_mut_ptr(),
                result.len(),
            )
        }
    }

    fn convert(&self, list: &[u8], buffer: &mut [u8], result: &mut [u8]) -> u32 {
        // SAFETY: as above.
        unsafe {
            qc_convert(
                list.as_ptr(),
                list.len(),
                buffer.as_mut_ptr(),
                buffer.len(),
                result.as_mut_ptr(),
                result.len(),
            )
        }
    }
}

impl Steps for Library {
    fn step(
        &self,
        terms: &[u8],
        site: &mut [u8],
        command: &[u8],
        row: &mut [u8],
        result: &mut [u8],
    ) -> u32 {
        // SAFETY: as above.
        unsafe {
            qc_step(
                terms.as_ptr(),
                terms.len(),
                site.as_mut_ptr(),
                site.len(),
                command.as_ptr(),
                command.len(),
                row.as_mut_ptr(),
                row.len(),
                result.as_mut_ptr(),
                result.len(),
            )
        }
    }
}
