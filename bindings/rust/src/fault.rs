//! Why a call was refused.

use std::error::Error;
use std::fmt;

/// Makes the faults of a table: each with its status, its name and what it says.
macro_rules! faults {
    ($($(#[$what:meta])* $name:ident = $status:literal $text:literal,)*) => {
        /// Why a call was refused. A refused call has changed nothing.
        #[derive(Clone, Copy, Debug, PartialEq, Eq, Hash)]
        #[non_exhaustive]
        pub enum Fault {
            $($(#[$what])* $name,)*
            /// A status that this crate does not know.
            Unknown(u32),
        }

        impl Fault {
            /// The fault of a status other than 0.
            pub(crate) fn of(status: u32) -> Fault {
                match status {
                    $($status => Fault::$name,)*
                    other => Fault::Unknown(other),
                }
            }

            /// The number by which the exports tell the fault.
            pub fn status(self) -> u32 {
                match self {
                    $(Fault::$name => $status,)*
                    Fault::Unknown(status) => status,
                }
            }
        }

        impl fmt::Display for Fault {
            /// The name, as `docs/script.md` has it.
            fn fmt(&self, f: &mut fmt::Formatter<'_>) -> fmt::Result {
                match self {
                    $(Fault::$name => f.write_str($text),)*
                    Fault::Unknown(status) => write!(f, "status {}", status),
                }
            }
        }
    };
}

faults! {
    /// A growth of memory was refused.
    OutOfMemory = 1 "E1 OutOfMemory",
    /// A number of a geometry is out of its limits.
    BadGeometry = 2 "E2 BadGeometry",
    /// The handle or the inode number names no node.
    Stale = 3 "E3 Stale",
    /// The call is for files, and this is a directory.
    NotFile = 4 "E4 NotFile",
    /// The call is for directories, and this is a file.
    NotDirectory = 5 "E5 NotDirectory",
    /// The bytes are no lawful name.
    BadName = 6 "E6 BadName",
    /// The directory has no such name.
    Missing = 7 "E7 Missing",
    /// The directory has the name already.
    Exists = 8 "E8 Exists",
    /// The directory still has names.
    NotEmpty = 9 "E9 NotEmpty",
    /// The file would have more than 65,536 blocks.
    FileTooBig = 10 "E10 FileTooBig",
    /// The write touches more than 1,024 blocks of the file.
    WriteTooBig = 11 "E11 WriteTooBig",
    /// No inode number is free.
    NoInode = 12 "E12 NoInode",
    /// Too few blocks are free.
    NoSpace = 13 "E13 NoSpace",
    /// The commit numbers are used up.
    CommitLimit = 14 "E14 CommitLimit",
    /// The epochs are used up.
    EpochLimit = 15 "E15 EpochLimit",
    /// As many snapshots live as the geometry allows.
    TooManySnapshots = 16 "E16 TooManySnapshots",
    /// No living snapshot has this number.
    NoSnapshot = 17 "E17 NoSnapshot",
    /// A directory can't move to another parent.
    MoveDirectory = 19 "E19 MoveDirectory",
    /// The mode is above 4,095.
    BadMode = 64 "BadMode",
    /// What was listed or shown last has no such place.
    NoPlace = 65 "NoPlace",
    /// The place for an answer is too short.
    Short = 66 "Short",
    /// There is no world.
    NoWorld = 67 "NoWorld",
}

impl Error for Fault {}
