//! A world, by a method for each call.

use crate::exports::{CleanedLog, Node, Told, World};
use crate::fault::Fault;
use crate::values::{Cleaned, Geometry, Handle, Kind, Shown, Snapshot, Space, Stat};
use std::fmt;

/// The most bytes of a name.
const NAME_BYTES: usize = 255;

/// How a node's kind is told where it is a directory.
const DIRECTORY: u32 = 2;

/// A world in memory, which ends when this is dropped. Names and texts are bytes, and a mode is a number of at most
/// 4,095.
///
/// Each method may be refused [`OutOfMemory`](Fault::OutOfMemory) beside the faults that it names, except for `stat`,
/// `snap`, `drop_snap` and `space`. Where more than one fault applies, it is the first.
pub struct Nova {
    world: World,
}

/// Files and directories.
impl Nova {
    /// Makes a world with a root, which is an empty directory of mode 493 (octal 755). Refused: `BadGeometry`.
    pub fn new(geometry: Geometry) -> Result<Nova, Fault> {
        World::new(&geometry).map(|world| Nova { world })
    }

    /// Makes an empty file in a directory. Refused: `BadMode`, `Stale`, `NotDirectory`, `BadName`, `Exists`, `NoInode`,
    /// `NoSpace`, `CommitLimit`.
    pub fn create(&mut self, dir: Handle, name: &[u8], mode: u32) -> Result<Handle, Fault> {
        self.world.create(dir, name, mode)
    }

    /// Makes an empty directory in a directory. Refused as [`Nova::create`].
    pub fn mkdir(&mut self, dir: Handle, name: &[u8], mode: u32) -> Result<Handle, Fault> {
        self.world.mkdir(dir, name, mode)
    }

    /// Finds what a directory has under a name. Refused: `Stale`, `NotDirectory`, `BadName`, `Missing`.
    pub fn lookup(&mut self, dir: Handle, name: &[u8]) -> Result<Handle, Fault> {
        self.world.lookup(dir, name)
    }

    /// Writes bytes into a file from an offset in bytes on: all of them. What lies between the end and the offset
    /// becomes zeros. Refused: `Stale`, `NotFile`, `WriteTooBig`, `FileTooBig`, `NoSpace`, `CommitLimit`.
    pub fn write(&mut self, file: Handle, offset: u64, text: &[u8]) -> Result<(), Fault> {
        self.world.write(file, offset, text)
    }

    /// Reads the bytes that a file has from an offset in bytes on, as many as `into` has room for, and tells how many.
    /// The rest of `into` stays. Refused: `Stale`, `NotFile`.
    pub fn read(&mut self, file: Handle, offset: u64, into: &mut [u8]) -> Result<usize, Fault> {
        self.world.read(file, offset, into)
    }

    /// Cuts a file at a size in bytes, or adds zeros up to it. Refused: `Stale`, `NotFile`, `FileTooBig`, `NoSpace`,
    /// `CommitLimit`.
    pub fn size(&mut self, file: Handle, size: u64) -> Result<(), Fault> {
        self.world.size(file, size)
    }

    /// Sets the mode of a file or a directory. Refused: `BadMode`, `Stale`, `NoSpace`, `CommitLimit`.
    pub fn mode(&mut self, node: Handle, mode: u32) -> Result<(), Fault> {
        self.world.mode(node, mode)
    }

    /// Tells what a file or a directory is. Refused: `Stale`.
    pub fn stat(&mut self, node: Handle) -> Result<Stat, Fault> {
        let told = self.world.stat(node)?;
        Ok(Stat {
            kind: kind_of(&told),
            mode: told.mode,
            size: told.size,
            commit: told.commit,
        })
    }

    /// The names of a directory, in the order in which they were made. Refused: `Stale`, `NotDirectory`.
    pub fn list(&mut self, dir: Handle) -> Result<Vec<Vec<u8>>, Fault> {
        let count = self.world.list(dir)?;
        (0..count)
            .map(|place| whole(NAME_BYTES, |into| self.world.listed(place, into)))
            .collect()
    }

    /// Takes a file's name out of a directory; the file goes. Refused: `Stale`, `NotDirectory`, `BadName`, `Missing`,
    /// `NotFile`, `NoSpace`, `CommitLimit`.
    pub fn unlink(&mut self, dir: Handle, name: &[u8]) -> Result<(), Fault> {
        self.world.unlink(dir, name)
    }

    /// Takes the name of an empty directory out of a directory; the empty directory goes. Refused: `Stale`,
    /// `NotDirectory`, `BadName`, `Missing`, `NotEmpty`, `NoSpace`, `CommitLimit`.
    pub fn rmdir(&mut self, dir: Handle, name: &[u8]) -> Result<(), Fault> {
        self.world.rmdir(dir, name)
    }

    /// Gives a file or a directory another name. A file may get another parent, and takes the place of a file of that
    /// name. Refused: `Stale`, `NotDirectory`, `BadName`, `Missing`, `MoveDirectory`, `Exists`, `NoSpace`,
    /// `CommitLimit`.
    pub fn rename(&mut self, from: Handle, name: &[u8], to: Handle, new_name: &[u8]) -> Result<(), Fault> {
        self.world.rename(from, name, to, new_name)
    }
}

/// Snapshots and trees.
impl Nova {
    /// Makes a snapshot of all files and directories as they are. Refused: `EpochLimit`, `TooManySnapshots`.
    pub fn snap(&mut self) -> Result<Snapshot, Fault> {
        self.world.snap().map(Snapshot::new)
    }

    /// Drops a snapshot. What it alone held waits to be drained. Refused: `NoSnapshot`.
    pub fn drop_snap(&mut self, snapshot: Snapshot) -> Result<(), Fault> {
        self.world.drop_snap(snapshot.number())
    }

    /// All nodes as they were when a snapshot was made: a directory before what it has, and the root first. Refused:
    /// `NoSnapshot`.
    pub fn show(&mut self, snapshot: Snapshot) -> Result<Vec<Shown>, Fault> {
        let count = self.world.show(snapshot.number())?;
        (0..count).map(|place| self.shown(place)).collect()
    }

    /// All nodes as they are now, in the same order.
    pub fn tree(&mut self) -> Result<Vec<Shown>, Fault> {
        let count = self.world.tree()?;
        (0..count).map(|place| self.shown(place)).collect()
    }

    /// A node that was shown.
    fn shown(&mut self, place: usize) -> Result<Shown, Fault> {
        let path = whole(NAME_BYTES + 1, |into| self.world.shown_path(place, into))?;
        let told = self.world.shown_node(place)?;
        // A file lies in memory, so its size is one of memory.
        let mut bytes = vec![0; told.size as usize];
        let count = self.world.shown_bytes(place, 0, &mut bytes)?;
        bytes.truncate(count);
        Ok(Shown {
            path,
            kind: kind_of(&told),
            mode: told.mode,
            bytes,
        })
    }
}

/// Blocks and logs.
impl Nova {
    /// Releases the first records that no snapshot holds, at most so many, and tells how many. A number outside 1 to
    /// 1,048,576 counts as the nearest of these.
    pub fn drain(&mut self, most: u64) -> Result<u64, Fault> {
        self.world.drain(most)
    }

    /// Unlinks the pages of the log of an inode of which nothing is needed. Refused: `Stale`.
    pub fn clean_fast(&mut self, ino: u64) -> Result<Cleaned, Fault> {
        self.world.clean_fast(ino).map(cleaned)
    }

    /// Moves the entries of the log of an inode that are needed to as few pages as they fill, which it takes first.
    /// Refused: `Stale`, `NoSpace`.
    pub fn clean_thorough(&mut self, ino: u64) -> Result<Cleaned, Fault> {
        self.world.clean_thorough(ino).map(cleaned)
    }

    /// Cleans as [`Nova::clean_thorough`] where less than half of the entries are needed, and otherwise as
    /// [`Nova::clean_fast`]. Refused: `Stale`, `NoSpace`.
    pub fn clean_auto(&mut self, ino: u64) -> Result<Cleaned, Fault> {
        self.world.clean_auto(ino).map(cleaned)
    }

    /// Tells where the blocks are.
    pub fn space(&mut self) -> Result<Space, Fault> {
        self.world.space()
    }

    /// Compares all that the world keeps with one scan of its logs. No part differs, which is proved.
    pub fn audit(&mut self) -> Result<(), Fault> {
        self.world.audit()
    }
}

impl fmt::Debug for Nova {
    fn fmt(&self, f: &mut fmt::Formatter<'_>) -> fmt::Result {
        f.debug_struct("Nova").finish_non_exhaustive()
    }
}

/// The bytes of an answer, by a second call where a place of so many bytes is too short.
fn whole(room: usize, mut tell: impl FnMut(&mut [u8]) -> Result<Told, Fault>) -> Result<Vec<u8>, Fault> {
    let mut place = vec![0; room];
    let mut told = tell(&mut place)?;
    if let Told::Short(len) = told {
        place.resize(len, 0);
        told = tell(&mut place)?;
    }
    match told {
        Told::Whole(len) => {
            place.truncate(len);
            Ok(place)
        }
        Told::Short(_) => Err(Fault::Short),
    }
}

fn kind_of(node: &Node) -> Kind {
    match node.kind {
        DIRECTORY => Kind::Directory,
        _ => Kind::File,
    }
}

fn cleaned(log: CleanedLog) -> Cleaned {
    Cleaned {
        thorough: log.thorough != 0,
        entries: log.entries,
        pages: log.pages,
    }
}
