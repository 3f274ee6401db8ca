//! What calls take and tell.

/// The root of each world.
pub const ROOT: Handle = Handle { ino: 0, generation: 1 };

/// What names a file or a directory of a world. No two that a world makes have the same handle.
#[derive(Clone, Copy, Debug, PartialEq, Eq, PartialOrd, Ord, Hash)]
#[repr(C)]
pub struct Handle {
    ino: u64,
    generation: u64,
}

impl Handle {
    /// The handle of these numbers. A call is refused [`Stale`](crate::Fault::Stale) where it names no node.
    pub const fn new(ino: u64, generation: u64) -> Handle {
        Handle { ino, generation }
    }

    /// The inode number, by which cleaners name a log.
    pub const fn ino(self) -> u64 {
        self.ino
    }

    /// Tells apart the nodes that have had this inode number.
    pub const fn generation(self) -> u64 {
        self.generation
    }
}

/// What names a snapshot of a world. Numbers rise from 1 on.
#[derive(Clone, Copy, Debug, PartialEq, Eq, PartialOrd, Ord, Hash)]
pub struct Snapshot(u64);

impl Snapshot {
    /// The snapshot of this number. A call is refused [`NoSnapshot`](crate::Fault::NoSnapshot) where it does not live.
    pub const fn new(number: u64) -> Snapshot {
        Snapshot(number)
    }

    /// The number.
    pub const fn number(self) -> u64 {
        self.0
    }
}

/// The numbers that a world is made with.
#[derive(Clone, Copy, Debug, Default, PartialEq, Eq, Hash)]
#[repr(C)]
pub struct Geometry {
    /// Blocks of the device: 2 to 1,048,576.
    pub blocks: u64,
    /// Lists of free blocks: 1 to 64, and at most `blocks`.
    pub cpus: u64,
    /// Bytes of a block: 1 to 4,096.
    pub block: u64,
    /// Entries of a log page: 2 to 63.
    pub page: u64,
    /// Files and directories, with the root: 1 to 65,536.
    pub inodes: u64,
    /// Living snapshots: 1 to 1,024.
    pub snaps: u64,
}

/// The kind of a node.
#[derive(Clone, Copy, Debug, PartialEq, Eq, PartialOrd, Ord, Hash)]
pub enum Kind {
    /// It has bytes.
    File,
    /// It has names.
    Directory,
}

/// What a node is.
#[derive(Clone, Copy, Debug, PartialEq, Eq, Hash)]
pub struct Stat {
    /// Its kind.
    pub kind: Kind,
    /// 0 to 4,095, which is stored and not enforced.
    pub mode: u32,
    /// Bytes of a file, 0 of a directory.
    pub size: u64,
    /// The number of the change that it had last.
    pub commit: u64,
}

/// A node of a tree.
#[derive(Clone, Debug, PartialEq, Eq, Hash)]
pub struct Shown {
    /// Each name from the root on behind a `/`, and `/` alone for the root.
    pub path: Vec<u8>,
    /// Its kind.
    pub kind: Kind,
    /// 0 to 4,095.
    pub mode: u32,
    /// The bytes of a file, none of a directory.
    pub bytes: Vec<u8>,
}

/// Where the blocks of a device are. The five numbers add up to all of them.
#[derive(Clone, Copy, Debug, Default, PartialEq, Eq, Hash)]
#[repr(C)]
pub struct Space {
    /// In a list of free blocks.
    pub free: u64,
    /// Pages of logs.
    pub chain: u64,
    /// Read now, or by a living snapshot.
    pub data: u64,
    /// Wait to be drained.
    pub pending: u64,
    /// All others.
    pub hand: u64,
}

/// What a cleaner did to a log.
#[derive(Clone, Copy, Debug, PartialEq, Eq, Hash)]
pub struct Cleaned {
    /// Whether it moved entries.
    pub thorough: bool,
    /// How many entries the log has lost.
    pub entries: u64,
    /// How many pages the log has lost.
    pub pages: u64,
}
