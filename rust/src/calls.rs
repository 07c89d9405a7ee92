//! What `ginelm.h` declares.

use std::os::raw::c_void;

/// A handle: null where it holds nothing.
#[repr(C)]
pub struct Handle {
    pub at: *mut c_void,
}

/// A handle on a snapshot: null where it holds nothing.
#[repr(C)]
pub struct SnapshotHandle {
    pub at: *mut c_void,
}

/// A synchronisation; three times 0 for none.
#[repr(C)]
#[derive(Default)]
pub struct Named {
    pub asker: u64,
    pub answerer: u64,
    pub number: u64,
}

extern "C" {
    pub fn ginelm_new(here: *mut Handle, name: u64) -> u32;
    pub fn ginelm_free(here: *mut Handle);
    pub fn ginelm_name(here: *mut Handle, name: *mut u64) -> u32;
    pub fn ginelm_save(here: *mut Handle) -> u32;
    pub fn ginelm_resume(here: *mut Handle, bytes: *const u8, length: usize) -> u32;
    pub fn ginelm_new_from(here: *mut Handle, name: u64, bytes: *const u8, length: usize) -> u32;
    pub fn ginelm_put(
        here: *mut Handle,
        key: *const u8,
        key_length: usize,
        value: *const u8,
        value_length: usize,
        number: *mut u64,
    ) -> u32;
    pub fn ginelm_put_field(
        here: *mut Handle,
        key: *const u8,
        key_length: usize,
        field: *const u8,
        field_length: usize,
        value: *const u8,
        value_length: usize,
        number: *mut u64,
    ) -> u32;
    pub fn ginelm_remove(
        here: *mut Handle,
        key: *const u8,
        key_length: usize,
        observed: *mut u64,
    ) -> u32;
    pub fn ginelm_remove_field(
        here: *mut Handle,
        key: *const u8,
        key_length: usize,
        field: *const u8,
        field_length: usize,
        observed: *mut u64,
    ) -> u32;
    pub fn ginelm_clear(here: *mut Handle, observed: *mut u64) -> u32;
    pub fn ginelm_flush(here: *mut Handle) -> u32;
    pub fn ginelm_flush_at_most(here: *mut Handle, most: u64) -> u32;
    pub fn ginelm_has_unsent(here: *mut Handle, unsent: *mut bool) -> u32;
    pub fn ginelm_take(
        here: *mut Handle,
        bytes: *const u8,
        length: usize,
        outcome: *mut u32,
        session: *mut Named,
    ) -> u32;
    pub fn ginelm_take_unguarded(
        here: *mut Handle,
        bytes: *const u8,
        length: usize,
        outcome: *mut u32,
        session: *mut Named,
    ) -> u32;
    pub fn ginelm_has_lost(
        here: *mut Handle,
        bytes: *const u8,
        length: usize,
        lost: *mut bool,
    ) -> u32;
    pub fn ginelm_joined_by(here: *mut Handle, bytes: *const u8, length: usize) -> u32;
    pub fn ginelm_ask(here: *mut Handle, peer: u64, number: *mut u64) -> u32;
    pub fn ginelm_retry(here: *mut Handle, number: u64, outcome: *mut u32) -> u32;
    pub fn ginelm_abandon(here: *mut Handle, number: u64, was_open: *mut bool) -> u32;
    pub fn ginelm_open(here: *mut Handle, open: *mut usize) -> u32;
    pub fn ginelm_session(here: *mut Handle, at: usize, session: *mut Named) -> u32;
    pub fn ginelm_get(here: *mut Handle, key: *const u8, key_length: usize) -> u32;
    pub fn ginelm_get_field(
        here: *mut Handle,
        key: *const u8,
        key_length: usize,
        field: *const u8,
        field_length: usize,
    ) -> u32;
    pub fn ginelm_values_of_key(here: *mut Handle, key: *const u8, key_length: usize) -> u32;
    pub fn ginelm_fields(here: *mut Handle, key: *const u8, key_length: usize) -> u32;
    pub fn ginelm_keys(here: *mut Handle) -> u32;
    pub fn ginelm_changes(here: *mut Handle) -> u32;
    pub fn ginelm_contains(
        here: *mut Handle,
        key: *const u8,
        key_length: usize,
        is_there: *mut bool,
    ) -> u32;
    pub fn ginelm_size(here: *mut Handle, size: *mut u64) -> u32;
    pub fn ginelm_digest(here: *mut Handle, out: *mut u8, room: usize, needed: *mut usize) -> u32;
    pub fn ginelm_knows(here: *mut Handle, name: u64, number: u64, is_known: *mut bool) -> u32;
    pub fn ginelm_count(here: *mut Handle, count: *mut usize) -> u32;
    pub fn ginelm_text(
        here: *mut Handle,
        at: usize,
        to: *mut u64,
        out: *mut u8,
        room: usize,
        needed: *mut usize,
    ) -> u32;
    pub fn ginelm_snapshot_take(here: *mut SnapshotHandle, replica: *mut Handle) -> u32;
    pub fn ginelm_snapshot_free(here: *mut SnapshotHandle);
    pub fn ginelm_snapshot_get(here: *mut SnapshotHandle, key: *const u8, key_length: usize)
        -> u32;
    pub fn ginelm_snapshot_get_field(
        here: *mut SnapshotHandle,
        key: *const u8,
        key_length: usize,
        field: *const u8,
        field_length: usize,
    ) -> u32;
    pub fn ginelm_snapshot_values_of_key(
        here: *mut SnapshotHandle,
        key: *const u8,
        key_length: usize,
    ) -> u32;
    pub fn ginelm_snapshot_fields(
        here: *mut SnapshotHandle,
        key: *const u8,
        key_length: usize,
    ) -> u32;
    pub fn ginelm_snapshot_keys(here: *mut SnapshotHandle) -> u32;
    pub fn ginelm_snapshot_contains(
        here: *mut SnapshotHandle,
        key: *const u8,
        key_length: usize,
        is_there: *mut bool,
    ) -> u32;
    pub fn ginelm_snapshot_size(here: *mut SnapshotHandle, size: *mut u64) -> u32;
    pub fn ginelm_snapshot_digest(
        here: *mut SnapshotHandle,
        out: *mut u8,
        room: usize,
        needed: *mut usize,
    ) -> u32;
    pub fn ginelm_snapshot_changes(older: *mut SnapshotHandle, newer: *mut SnapshotHandle) -> u32;
    pub fn ginelm_snapshot_count(here: *mut SnapshotHandle, count: *mut usize) -> u32;
    pub fn ginelm_snapshot_text(
        here: *mut SnapshotHandle,
        at: usize,
        out: *mut u8,
        room: usize,
        needed: *mut usize,
    ) -> u32;
}
