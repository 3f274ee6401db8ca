//! The exports of `bindings/nova.h`, each as a safe function. No other module has `unsafe` code.
//!
//! Each call keeps what the header leaves to its caller, in the same way:
//!
//! - The fields of a [`World`] are private, it is no `Clone`, and each call takes `&mut World`. So none but the exports
//!   reads or writes them, and no call is made beside another.
//! - Its raw pointer makes it neither `Send` nor `Sync`. So it stays on the thread that made it.
//! - References and slices are aligned, never null, and as long as they say. What is `&mut` overlaps nothing else.
#![allow(unsafe_code)]

use crate::fault::Fault;
use crate::values::{Geometry, Handle, Space, ROOT};
use std::ffi::c_void;
use std::ptr;

/// A `nova` of the header.
#[repr(C)]
pub(crate) struct World {
    held: *mut c_void,
    made: bool,
}

/// A `nova_node` of the header.
#[derive(Default)]
#[repr(C)]
pub(crate) struct Node {
    pub(crate) kind: u32,
    pub(crate) mode: u32,
    pub(crate) size: u64,
    pub(crate) commit: u64,
}

/// A `nova_cleaned` of the header.
#[derive(Default)]
#[repr(C)]
pub(crate) struct CleanedLog {
    pub(crate) thorough: u64,
    pub(crate) entries: u64,
    pub(crate) pages: u64,
}

/// Bytes that were told: so many, or a place that needs so many.
pub(crate) enum Told {
    Whole(usize),
    Short(usize),
}

#[link(name = "nova", kind = "static")]
extern "C" {
    fn nova_new(geometry: &Geometry, made: &mut World) -> u32;
    fn nova_end(files: &mut World);
    fn nova_create(files: &mut World, dir: Handle, name: *const u8, len: usize, mode: u32, made: &mut Handle) -> u32;
    fn nova_mkdir(files: &mut World, dir: Handle, name: *const u8, len: usize, mode: u32, made: &mut Handle) -> u32;
    fn nova_lookup(files: &mut World, dir: Handle, name: *const u8, len: usize, found: &mut Handle) -> u32;
    fn nova_write(files: &mut World, file: Handle, offset: u64, text: *const u8, len: usize) -> u32;
    fn nova_read(files: &mut World, file: Handle, offset: u64, into: *mut u8, len: usize, count: &mut usize) -> u32;
    fn nova_size(files: &mut World, file: Handle, size: u64) -> u32;
    fn nova_mode(files: &mut World, node: Handle, mode: u32) -> u32;
    fn nova_stat(files: &mut World, node: Handle, told: &mut Node) -> u32;
    fn nova_list(files: &mut World, dir: Handle, count: &mut usize) -> u32;
    fn nova_listed(files: &mut World, place: usize, into: *mut u8, len: usize, name_len: &mut usize) -> u32;
    fn nova_unlink(files: &mut World, dir: Handle, name: *const u8, len: usize) -> u32;
    fn nova_rmdir(files: &mut World, dir: Handle, name: *const u8, len: usize) -> u32;
    fn nova_rename(
        files: &mut World,
        from: Handle,
        name: *const u8,
        len: usize,
        to: Handle,
        new_name: *const u8,
        new_len: usize,
    ) -> u32;
    fn nova_snap(files: &mut World, snapshot: &mut u64) -> u32;
    fn nova_drop_snap(files: &mut World, snapshot: u64) -> u32;
    fn nova_show(files: &mut World, snapshot: u64, count: &mut usize) -> u32;
    fn nova_tree(files: &mut World, count: &mut usize) -> u32;
    fn nova_shown_path(files: &mut World, place: usize, into: *mut u8, len: usize, path_len: &mut usize) -> u32;
    fn nova_shown_node(files: &mut World, place: usize, told: &mut Node) -> u32;
    fn nova_shown_bytes(
        files: &mut World,
        place: usize,
        offset: u64,
        into: *mut u8,
        len: usize,
        count: &mut usize,
    ) -> u32;
    fn nova_drain(files: &mut World, most: u64, count: &mut u64) -> u32;
    fn nova_clean_fast(files: &mut World, ino: u64, done: &mut CleanedLog) -> u32;
    fn nova_clean_thorough(files: &mut World, ino: u64, done: &mut CleanedLog) -> u32;
    fn nova_clean_auto(files: &mut World, ino: u64, done: &mut CleanedLog) -> u32;
    fn nova_space(files: &mut World, told: &mut Space) -> u32;
    fn nova_audit(files: &mut World) -> u32;
}

/// Whether a call was done.
fn done(status: u32) -> Result<(), Fault> {
    match status {
        0 => Ok(()),
        refused => Err(Fault::of(refused)),
    }
}

/// The value that a call has written where it was done.
fn told<T: Default>(call: impl FnOnce(&mut T) -> u32) -> Result<T, Fault> {
    let mut place = T::default();
    let status = call(&mut place);
    done(status).map(|()| place)
}

/// The handle that a call has written where it was done.
fn told_handle(call: impl FnOnce(&mut Handle) -> u32) -> Result<Handle, Fault> {
    let mut place = ROOT;
    done(call(&mut place)).map(|()| place)
}

/// The length that a call has told, of what it has written or of what would need more room.
fn told_bytes(call: impl FnOnce(&mut usize) -> u32) -> Result<Told, Fault> {
    let mut len = 0;
    match done(call(&mut len)) {
        Ok(()) => Ok(Told::Whole(len)),
        Err(Fault::Short) => Ok(Told::Short(len)),
        Err(fault) => Err(fault),
    }
}

// SAFETY, of each block below: see the top of this module.
impl World {
    pub(crate) fn new(geometry: &Geometry) -> Result<World, Fault> {
        let mut made = World {
            held: ptr::null_mut(),
            made: false,
        };
        done(unsafe { nova_new(geometry, &mut made) })?;
        Ok(made)
    }

    pub(crate) fn create(&mut self, dir: Handle, name: &[u8], mode: u32) -> Result<Handle, Fault> {
        told_handle(|made| unsafe { nova_create(self, dir, name.as_ptr(), name.len(), mode, made) })
    }

    pub(crate) fn mkdir(&mut self, dir: Handle, name: &[u8], mode: u32) -> Result<Handle, Fault> {
        told_handle(|made| unsafe { nova_mkdir(self, dir, name.as_ptr(), name.len(), mode, made) })
    }

    pub(crate) fn lookup(&mut self, dir: Handle, name: &[u8]) -> Result<Handle, Fault> {
        told_handle(|found| unsafe { nova_lookup(self, dir, name.as_ptr(), name.len(), found) })
    }

    pub(crate) fn write(&mut self, file: Handle, offset: u64, text: &[u8]) -> Result<(), Fault> {
        done(unsafe { nova_write(self, file, offset, text.as_ptr(), text.len()) })
    }

    pub(crate) fn read(&mut self, file: Handle, offset: u64, into: &mut [u8]) -> Result<usize, Fault> {
        told(|count| unsafe { nova_read(self, file, offset, into.as_mut_ptr(), into.len(), count) })
    }

    pub(crate) fn size(&mut self, file: Handle, size: u64) -> Result<(), Fault> {
        done(unsafe { nova_size(self, file, size) })
    }

    pub(crate) fn mode(&mut self, node: Handle, mode: u32) -> Result<(), Fault> {
        done(unsafe { nova_mode(self, node, mode) })
    }

    pub(crate) fn stat(&mut self, node: Handle) -> Result<Node, Fault> {
        told(|told| unsafe { nova_stat(self, node, told) })
    }

    pub(crate) fn list(&mut self, dir: Handle) -> Result<usize, Fault> {
        told(|count| unsafe { nova_list(self, dir, count) })
    }

    pub(crate) fn listed(&mut self, place: usize, into: &mut [u8]) -> Result<Told, Fault> {
        told_bytes(|len| unsafe { nova_listed(self, place, into.as_mut_ptr(), into.len(), len) })
    }

    pub(crate) fn unlink(&mut self, dir: Handle, name: &[u8]) -> Result<(), Fault> {
        done(unsafe { nova_unlink(self, dir, name.as_ptr(), name.len()) })
    }

    pub(crate) fn rmdir(&mut self, dir: Handle, name: &[u8]) -> Result<(), Fault> {
        done(unsafe { nova_rmdir(self, dir, name.as_ptr(), name.len()) })
    }

    pub(crate) fn rename(&mut self, from: Handle, name: &[u8], to: Handle, new_name: &[u8]) -> Result<(), Fault> {
        let (old, len, new, new_len) = (name.as_ptr(), name.len(), new_name.as_ptr(), new_name.len());
        done(unsafe { nova_rename(self, from, old, len, to, new, new_len) })
    }

    pub(crate) fn snap(&mut self) -> Result<u64, Fault> {
        told(|snapshot| unsafe { nova_snap(self, snapshot) })
    }

    pub(crate) fn drop_snap(&mut self, snapshot: u64) -> Result<(), Fault> {
        done(unsafe { nova_drop_snap(self, snapshot) })
    }

    pub(crate) fn show(&mut self, snapshot: u64) -> Result<usize, Fault> {
        told(|count| unsafe { nova_show(self, snapshot, count) })
    }

    pub(crate) fn tree(&mut self) -> Result<usize, Fault> {
        told(|count| unsafe { nova_tree(self, count) })
    }

    pub(crate) fn shown_path(&mut self, place: usize, into: &mut [u8]) -> Result<Told, Fault> {
        told_bytes(|len| unsafe { nova_shown_path(self, place, into.as_mut_ptr(), into.len(), len) })
    }

    pub(crate) fn shown_node(&mut self, place: usize) -> Result<Node, Fault> {
        told(|told| unsafe { nova_shown_node(self, place, told) })
    }

    pub(crate) fn shown_bytes(&mut self, place: usize, offset: u64, into: &mut [u8]) -> Result<usize, Fault> {
        told(|count| unsafe { nova_shown_bytes(self, place, offset, into.as_mut_ptr(), into.len(), count) })
    }

    pub(crate) fn drain(&mut self, most: u64) -> Result<u64, Fault> {
        told(|count| unsafe { nova_drain(self, most, count) })
    }

    pub(crate) fn clean_fast(&mut self, ino: u64) -> Result<CleanedLog, Fault> {
        told(|done| unsafe { nova_clean_fast(self, ino, done) })
    }

    pub(crate) fn clean_thorough(&mut self, ino: u64) -> Result<CleanedLog, Fault> {
        told(|done| unsafe { nova_clean_thorough(self, ino, done) })
    }

    pub(crate) fn clean_auto(&mut self, ino: u64) -> Result<CleanedLog, Fault> {
        told(|done| unsafe { nova_clean_auto(self, ino, done) })
    }

    pub(crate) fn space(&mut self) -> Result<Space, Fault> {
        told(|told| unsafe { nova_space(self, told) })
    }

    pub(crate) fn audit(&mut self) -> Result<(), Fault> {
        done(unsafe { nova_audit(self) })
    }
}

impl Drop for World {
    fn drop(&mut self) {
        unsafe { nova_end(self) }
    }
}
