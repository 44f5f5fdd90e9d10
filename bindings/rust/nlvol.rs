//! nlvol for Rust: a file system with continuous snapshots, in memory, opened from and saved as bytes.
//!
//! A handle on the library for C (`bin/library` builds it). It closes itself, it can be sent to another thread, and
//! `&mut self` keeps it to one call at a time. To share one, put it in a `Mutex`. A path is bytes that begin with
//! `/`, a moment is in whole seconds, and the number of a tree is 0 for the current one, or that of a checkpoint.

use std::error::Error;
use std::ffi::c_void;
use std::fmt;
use std::marker::PhantomData;
use std::ptr::null_mut;

// ---- the library

#[repr(C)]
struct Handle {
    at: *mut c_void,
    is_open: u8,
}

/// The size of a file in bytes, or how many names a directory has.
#[repr(C)]
#[derive(Clone, Copy, Debug, Default, PartialEq, Eq)]
pub struct Object {
    pub kind: u64,
    pub size: u64,
}

/// A kept checkpoint.
#[repr(C)]
#[derive(Clone, Copy, Debug, Default, PartialEq, Eq)]
pub struct Checkpoint {
    pub number: u64,
    pub moment: u64,
    pub inodes: u64,
    pub flags: u64,
}

/// A volume in numbers. A segment has `blocks` blocks of 1,024 bytes.
#[repr(C)]
#[derive(Clone, Copy, Debug, Default, PartialEq, Eq)]
pub struct Info {
    pub segments: u64,
    pub blocks: u64,
    pub clean: u64,
    pub checkpoints: u64,
    pub snapshots: u64,
    pub latest: u64,
    pub dirty: u64,
}

/// The state is 0 clean, 1 dirty, 2 active, 3 in error.
#[repr(C)]
#[derive(Clone, Copy, Debug, Default, PartialEq, Eq)]
pub struct Segment {
    pub state: u64,
    pub moment: u64,
    pub used: u64,
    pub needed: u64,
}

/// What became of a range of checkpoints: snapshots and the latest one stay.
#[repr(C)]
#[derive(Clone, Copy, Debug, Default, PartialEq, Eq)]
pub struct Range {
    pub removed: u64,
    pub stayed: u64,
}

/// How many blocks were moved, and how many needed ones are left.
#[repr(C)]
#[derive(Clone, Copy, Debug, Default, PartialEq, Eq)]
pub struct Move {
    pub moved: u64,
    pub left: u64,
}

/// How many blocks a checkpoint writes, and how many it has room for.
#[repr(C)]
#[derive(Clone, Copy, Debug, Default, PartialEq, Eq)]
pub struct Room {
    pub blocks: u64,
    pub free: u64,
}

/// So many segments or blocks; or where `is_percent` is 1, so many hundredths of them.
#[repr(C)]
#[derive(Clone, Copy, Debug, Default, PartialEq, Eq)]
pub struct Amount {
    pub number: u64,
    pub is_percent: u64,
}

/// A configuration of cleaning, under the names of nilfs_cleanerd.conf(5). The period is in seconds.
#[repr(C)]
#[derive(Clone, Copy, Debug, Default, PartialEq, Eq)]
pub struct Config {
    pub protection_period: u64,
    pub min_clean_segments: Amount,
    pub max_clean_segments: Amount,
    pub nsegments_per_clean: u64,
    pub mc_nsegments_per_clean: u64,
    pub min_reclaimable_blocks: Amount,
    pub mc_min_reclaimable_blocks: Amount,
}

#[rustfmt::skip]
unsafe extern "C" {
    fn nlvol_version() -> u32;
    fn nlvol_format(v: *mut Handle, segments: u32, blocks: u32, moment: u64) -> u32;
    fn nlvol_open(v: *mut Handle, image: *const u8, length: usize) -> u32;
    fn nlvol_close(v: *mut Handle);
    fn nlvol_image(v: *mut Handle, size: *mut u64) -> u32;
    fn nlvol_image_read(v: *mut Handle, offset: u64, into: *mut u8, room: usize, count: *mut u64) -> u32;
    fn nlvol_release(v: *mut Handle);
    fn nlvol_create(v: *mut Handle, path: *const u8, length: usize) -> u32;
    fn nlvol_mkdir(v: *mut Handle, path: *const u8, length: usize) -> u32;
    fn nlvol_unlink(v: *mut Handle, path: *const u8, length: usize) -> u32;
    fn nlvol_rmdir(v: *mut Handle, path: *const u8, length: usize) -> u32;
    fn nlvol_rename(v: *mut Handle, from: *const u8, length: usize, to: *const u8, to_length: usize) -> u32;
    fn nlvol_truncate(v: *mut Handle, path: *const u8, length: usize, size: u64) -> u32;
    fn nlvol_write(v: *mut Handle, path: *const u8, length: usize, offset: u64, bytes: *const u8, count: usize) -> u32;
    fn nlvol_read(v: *mut Handle, at: u64, path: *const u8, length: usize, offset: u64, into: *mut u8, room: usize,
        count: *mut u64) -> u32;
    fn nlvol_stat(v: *mut Handle, at: u64, path: *const u8, length: usize, object: *mut Object) -> u32;
    fn nlvol_list(v: *mut Handle, at: u64, path: *const u8, length: usize, count: *mut u64) -> u32;
    fn nlvol_name(v: *mut Handle, index: u64, into: *mut u8, room: usize, object: *mut Object) -> u32;
    fn nlvol_mkcp(v: *mut Handle, flags: u32, moment: u64, number: *mut u64) -> u32;
    fn nlvol_sync(v: *mut Handle, moment: u64, number: *mut u64) -> u32;
    fn nlvol_chcp(v: *mut Handle, number: u64, flags: u32) -> u32;
    fn nlvol_rmcp(v: *mut Handle, number: u64) -> u32;
    fn nlvol_rmcp_range(v: *mut Handle, first: u64, last: u64, range: *mut Range) -> u32;
    fn nlvol_expire(v: *mut Handle, moment: u64, period: u64, count: *mut u64) -> u32;
    fn nlvol_lscp(v: *mut Handle, flags: u32, from: u64, rows: *mut Checkpoint, room: usize, count: *mut u64) -> u32;
    fn nlvol_info(v: *mut Handle, info: *mut Info) -> u32;
    fn nlvol_segment(v: *mut Handle, segment: u32, told: *mut Segment) -> u32;
    fn nlvol_resize(v: *mut Handle, segments: u32) -> u32;
    fn nlvol_move(v: *mut Handle, segment: u32, limit: u32, moment: u64, told: *mut Move) -> u32;
    fn nlvol_retire(v: *mut Handle, segment: u32) -> u32;
    fn nlvol_room(v: *mut Handle, room: *mut Room) -> u32;
    fn nlvol_room_bound(v: *mut Handle, room: *mut Room) -> u32;
    fn nlvol_config(text: *const u8, length: usize, config: *mut Config, line: *mut u64) -> u32;
}

// ---- refusals

/// A call that was refused: all is as it was before it.
#[derive(Clone, Copy, Debug, PartialEq, Eq)]
pub struct Refused {
    /// The number of the refusal, as the header for C has it.
    pub number: u32,
    /// Of bytes that are no image, the condition that they fail first.
    pub condition: u32,
}

impl Refused {
    pub const NOT_FOUND: u32 = 1;
    pub const EXISTS: u32 = 4;
    pub const NO_SPACE: u32 = 16;
    pub const NO_MEMORY: u32 = 18;
    pub const BAD_IMAGE: u32 = 24;
    pub const BAD_CONFIG: u32 = 27;
    pub const UNSETTLED: u32 = 66;
}

impl fmt::Display for Refused {
    fn fmt(&self, out: &mut fmt::Formatter<'_>) -> fmt::Result {
        match self.condition {
            0 => write!(out, "refused by {}", self.number),
            condition => write!(out, "refused by {}, condition {condition}", self.number),
        }
    }
}

impl Error for Refused {}

fn done(status: u32) -> Result<(), Refused> {
    match status {
        0 => Ok(()),
        _ => Err(Refused { number: status & 255, condition: status >> 8 }),
    }
}

// ---- volumes

/// The library's version: 65,536 times the first number, 256 times the second, and the third.
pub fn version() -> u32 {
    // SAFETY: it takes nothing.
    unsafe { nlvol_version() }
}

/// Reads a configuration of cleaning, in the language of nilfs_cleanerd.conf(5). Where it is refused, the number
/// of the first line that can't be read, from 1, is told too, or 0 for want of memory.
pub fn config(text: &[u8]) -> Result<Config, (Refused, u64)> {
    let (mut config, mut line) = (Config::default(), 0);
    // SAFETY: the pointers stand with their lengths.
    let status = unsafe { nlvol_config(text.as_ptr(), text.len(), &mut config, &mut line) };
    done(status).map(|()| config).map_err(|refused| (refused, line))
}

/// A volume in memory. It is closed at its end.
pub struct Volume {
    handle: Handle,
    // A reference to it may not go to another thread: no call takes one.
    not_sync: PhantomData<*mut c_void>,
}

// SAFETY: what the handle leads to is reached through it alone, and by one call at a time.
unsafe impl Send for Volume {}

impl Drop for Volume {
    fn drop(&mut self) {
        // SAFETY: as of all calls here, the handle is this volume's own, and pointers stand with their lengths.
        unsafe { nlvol_close(&mut self.handle) }
    }
}

/// A call on the handle with numbers and places for what it tells.
macro_rules! call {
    ($volume:ident, $name:ident $(, $argument:expr)*) => {
        // SAFETY: as in `drop`.
        done(unsafe { $name(&mut $volume.handle $(, $argument)*) })
    };
}

impl Volume {
    fn closed() -> Volume {
        Volume { handle: Handle { at: null_mut(), is_open: 0 }, not_sync: PhantomData }
    }

    /// A new volume of so many segments with so many blocks each, and checkpoint 1 of the root alone.
    pub fn format(segments: u32, blocks: u32, moment: u64) -> Result<Volume, Refused> {
        let mut volume = Volume::closed();
        call!(volume, nlvol_format, segments, blocks, moment)?;
        Ok(volume)
    }

    /// The volume of an image.
    pub fn open(image: &[u8]) -> Result<Volume, Refused> {
        let mut volume = Volume::closed();
        call!(volume, nlvol_open, image.as_ptr(), image.len())?;
        Ok(volume)
    }

    /// The image. Refused by `UNSETTLED` where the current tree may differ from the latest checkpoint.
    pub fn image(&mut self) -> Result<Vec<u8>, Refused> {
        let (mut size, mut count) = (0, 0);
        call!(self, nlvol_image, &mut size)?;
        let mut image = vec![0; size as usize];
        let read = call!(self, nlvol_image_read, 0, image.as_mut_ptr(), image.len(), &mut count);
        self.release();
        read.map(|()| image)
    }

    fn release(&mut self) {
        // SAFETY: as in `drop`.
        unsafe { nlvol_release(&mut self.handle) }
    }

    // ---- the current tree

    pub fn create(&mut self, path: &[u8]) -> Result<(), Refused> {
        call!(self, nlvol_create, path.as_ptr(), path.len())
    }

    pub fn mkdir(&mut self, path: &[u8]) -> Result<(), Refused> {
        call!(self, nlvol_mkdir, path.as_ptr(), path.len())
    }

    pub fn unlink(&mut self, path: &[u8]) -> Result<(), Refused> {
        call!(self, nlvol_unlink, path.as_ptr(), path.len())
    }

    pub fn rmdir(&mut self, path: &[u8]) -> Result<(), Refused> {
        call!(self, nlvol_rmdir, path.as_ptr(), path.len())
    }

    pub fn rename(&mut self, from: &[u8], to: &[u8]) -> Result<(), Refused> {
        call!(self, nlvol_rename, from.as_ptr(), from.len(), to.as_ptr(), to.len())
    }

    pub fn truncate(&mut self, path: &[u8], size: u64) -> Result<(), Refused> {
        call!(self, nlvol_truncate, path.as_ptr(), path.len(), size)
    }

    /// Writes all bytes, or none.
    pub fn write(&mut self, path: &[u8], offset: u64, bytes: &[u8]) -> Result<(), Refused> {
        call!(self, nlvol_write, path.as_ptr(), path.len(), offset, bytes.as_ptr(), bytes.len())
    }

    // ---- any tree

    /// Reads as many bytes as there are and as there is room for.
    pub fn read(
        &mut self,
        at: u64,
        path: &[u8],
        offset: u64,
        into: &mut [u8],
    ) -> Result<usize, Refused> {
        let mut count = 0;
        let (place, room) = (into.as_mut_ptr(), into.len());
        call!(self, nlvol_read, at, path.as_ptr(), path.len(), offset, place, room, &mut count)?;
        Ok(count as usize)
    }

    /// All bytes of a file.
    pub fn read_all(&mut self, at: u64, path: &[u8]) -> Result<Vec<u8>, Refused> {
        let object = self.stat(at, path)?;
        let mut bytes = vec![0; if object.kind == 0 { object.size as usize } else { 0 }];
        self.read(at, path, 0, &mut bytes)?;
        Ok(bytes)
    }

    pub fn stat(&mut self, at: u64, path: &[u8]) -> Result<Object, Refused> {
        let mut object = Object::default();
        call!(self, nlvol_stat, at, path.as_ptr(), path.len(), &mut object)?;
        Ok(object)
    }

    /// The names of a directory, ascending, each with whether it is a directory.
    pub fn list(&mut self, at: u64, path: &[u8]) -> Result<Vec<(Vec<u8>, bool)>, Refused> {
        let (mut count, mut names, mut name, mut object) = (0, Vec::new(), [0; 255], Object::default());
        call!(self, nlvol_list, at, path.as_ptr(), path.len(), &mut count)?;
        for index in 0..count {
            call!(self, nlvol_name, index, name.as_mut_ptr(), name.len(), &mut object)?;
            names.push((name[..object.size as usize].to_vec(), object.kind == 1));
        }
        self.release();
        Ok(names)
    }

    // ---- checkpoints

    /// Makes a checkpoint, be something changed or not.
    pub fn mkcp(&mut self, is_snapshot: bool, moment: u64) -> Result<u64, Refused> {
        let mut number = 0;
        call!(self, nlvol_mkcp, u32::from(is_snapshot), moment, &mut number)?;
        Ok(number)
    }

    /// Makes one where something may have changed, and tells the latest one's number.
    pub fn sync(&mut self, moment: u64) -> Result<u64, Refused> {
        let mut number = 0;
        call!(self, nlvol_sync, moment, &mut number)?;
        Ok(number)
    }

    pub fn chcp(&mut self, number: u64, is_snapshot: bool) -> Result<(), Refused> {
        call!(self, nlvol_chcp, number, u32::from(is_snapshot))
    }

    pub fn rmcp(&mut self, number: u64) -> Result<(), Refused> {
        call!(self, nlvol_rmcp, number)
    }

    pub fn rmcp_range(&mut self, first: u64, last: u64) -> Result<Range, Refused> {
        let mut range = Range::default();
        call!(self, nlvol_rmcp_range, first, last, &mut range)?;
        Ok(range)
    }

    /// Lets the plain checkpoints go that a period before the moment no longer protects.
    pub fn expire(&mut self, moment: u64, period: u64) -> Result<u64, Refused> {
        let mut count = 0;
        call!(self, nlvol_expire, moment, period, &mut count)?;
        Ok(count)
    }

    /// All kept checkpoints, ascending, but for those that the volume made by itself.
    pub fn checkpoints(&mut self) -> Result<Vec<Checkpoint>, Refused> {
        let (mut all, mut rows, mut count) = (Vec::new(), [Checkpoint::default(); 64], 64);
        while count == 64 {
            let from = all.last().map_or(0, |row: &Checkpoint| row.number + 1);
            call!(self, nlvol_lscp, 0, from, rows.as_mut_ptr(), rows.len(), &mut count)?;
            all.extend_from_slice(&rows[..count as usize]);
        }
        Ok(all)
    }

    // ---- segments

    pub fn info(&mut self) -> Result<Info, Refused> {
        let mut info = Info::default();
        call!(self, nlvol_info, &mut info)?;
        Ok(info)
    }

    pub fn segment(&mut self, segment: u32) -> Result<Segment, Refused> {
        let mut told = Segment::default();
        call!(self, nlvol_segment, segment, &mut told)?;
        Ok(told)
    }

    /// Makes the volume one of so many segments. It never shrinks.
    pub fn resize(&mut self, segments: u32) -> Result<(), Refused> {
        call!(self, nlvol_resize, segments)
    }

    pub fn move_blocks(&mut self, segment: u32, limit: u32, moment: u64) -> Result<Move, Refused> {
        let mut told = Move::default();
        call!(self, nlvol_move, segment, limit, moment, &mut told)?;
        Ok(told)
    }

    pub fn retire(&mut self, segment: u32) -> Result<(), Refused> {
        call!(self, nlvol_retire, segment)
    }

    // ---- room

    /// Tells how many blocks the next checkpoint writes, and how many it has room for: where these are fewer, and
    /// only there, it is refused by `NO_SPACE`. It takes as long as the checkpoint without its writes.
    pub fn room(&mut self) -> Result<Room, Refused> {
        let mut room = Room::default();
        call!(self, nlvol_room, &mut room)?;
        Ok(room)
    }

    /// Tells as many blocks as the next checkpoint writes, or more. It takes no memory and hardly any time.
    pub fn room_bound(&mut self) -> Result<Room, Refused> {
        let mut room = Room::default();
        call!(self, nlvol_room_bound, &mut room)?;
        Ok(room)
    }
}
