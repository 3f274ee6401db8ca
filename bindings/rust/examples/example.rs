//! A caller in Rust, written to be copied. It does what `letters.rt` of `crates/nv_example` does: it writes a file, makes a snapshot,
//! writes the file anew, and shows all files as they are and as they were.

use novacore::{Fault, Geometry, Nova, Shown, ROOT};
use std::error::Error;
use std::str;

/// An empty file system in memory: 64 blocks of 16 bytes.
fn new_files() -> Result<Nova, Fault> {
    Nova::new(Geometry {
        blocks: 64,
        cpus: 1,
        block: 16,
        page: 8,
        inodes: 8,
        snaps: 4,
    })
}

/// Prints the path, the size and the text of each file and directory.
fn print_tree(title: &str, tree: &[Shown]) -> Result<(), str::Utf8Error> {
    println!("{}:", title);
    for node in tree {
        let (path, text) = (str::from_utf8(&node.path)?, str::from_utf8(&node.bytes)?);
        println!("  {:16} {:2} bytes {:?}", path, text.len(), text);
    }
    Ok(())
}

/// Prints how many blocks hold data, wait to be drained, and are free.
fn print_space(title: &str, files: &mut Nova) -> Result<(), Fault> {
    let space = files.space()?;
    println!(
        "{}: {} data, {} pending, {} free",
        title, space.data, space.pending, space.free
    );
    Ok(())
}

fn main() -> Result<(), Box<dyn Error>> {
    let mut files = new_files()?;
    let dir = files.mkdir(ROOT, b"letters", 0o755)?;
    let file = files.create(dir, b"first", 0o755)?;
    files.write(file, 0, b"Dear reader, this is a draft.")?;

    let draft = files.snap()?;
    files.write(file, 0, b"Dear reader, this is the letter.")?;
    print_tree("now", &files.tree()?)?;
    print_tree("in the snapshot", &files.show(draft)?)?;
    print_space("blocks with the snapshot", &mut files)?;

    files.drop_snap(draft)?;
    print_space("blocks after its drop", &mut files)?;
    files.drain(100)?;
    print_space("blocks after a drain", &mut files)?;
    files.audit()?;
    Ok(())
}
