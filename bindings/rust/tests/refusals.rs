//! Each call with wrong numbers is refused, and changes nothing.

use novacore::{Fault, Geometry, Handle, Kind, Nova, Snapshot, ROOT};

/// Numbers that no handle and no snapshot here has.
const WILD: [u64; 7] = [9, 65_536, 1 << 32, 1 << 62, 1 << 63, u64::MAX - 1, u64::MAX];

const GEOMETRY: Geometry = Geometry {
    blocks: 64,
    cpus: 2,
    block: 4,
    page: 4,
    inodes: 8,
    snaps: 2,
};

/// A world with a file of six bytes, a directory, and a snapshot.
struct Scene {
    files: Nova,
    file: Handle,
    dir: Handle,
    snapshot: Snapshot,
}

impl Scene {
    fn new() -> Result<Scene, Fault> {
        let mut files = Nova::new(GEOMETRY)?;
        let file = files.create(ROOT, b"file", 0o644)?;
        let dir = files.mkdir(ROOT, b"dir", 0o755)?;
        files.write(file, 0, b"letter")?;
        let snapshot = files.snap()?;
        Ok(Scene {
            files,
            file,
            dir,
            snapshot,
        })
    }

    /// The six bytes are there yet, no part differs, and no block is lost.
    fn end(mut self) -> Result<(), Fault> {
        let mut place = [0; 8];
        let count = self.files.read(self.file, 0, &mut place)?;
        assert_eq!(&place[..count], b"letter");
        self.files.audit()?;
        let space = self.files.space()?;
        let all = space.free + space.chain + space.data + space.pending + space.hand;
        assert_eq!(all, GEOMETRY.blocks);
        Ok(())
    }
}

#[test]
fn geometries_out_of_limits() {
    for number in [0, 1 << 21, u64::MAX] {
        let each = [
            Geometry {
                blocks: number,
                ..GEOMETRY
            },
            Geometry {
                cpus: number,
                ..GEOMETRY
            },
            Geometry {
                block: number,
                ..GEOMETRY
            },
            Geometry {
                page: number,
                ..GEOMETRY
            },
            Geometry {
                inodes: number,
                ..GEOMETRY
            },
            Geometry {
                snaps: number,
                ..GEOMETRY
            },
        ];
        for geometry in each {
            assert_eq!(Nova::new(geometry).err(), Some(Fault::BadGeometry));
        }
    }
}

#[test]
fn handles_that_name_no_node() -> Result<(), Fault> {
    let mut scene = Scene::new()?;
    let files = &mut scene.files;
    let wild = WILD
        .iter()
        .flat_map(|&number| [Handle::new(number, 1), Handle::new(0, number)]);
    for stale in wild.chain([Handle::new(0, 0), Handle::new(7, 1)]) {
        let fault = Some(Fault::Stale);
        assert_eq!(files.create(stale, b"new", 0).err(), fault);
        assert_eq!(files.mkdir(stale, b"new", 0).err(), fault);
        assert_eq!(files.lookup(stale, b"new").err(), fault);
        assert_eq!(files.write(stale, 0, b"new").err(), fault);
        assert_eq!(files.read(stale, 0, &mut [0; 4]).err(), fault);
        assert_eq!(files.size(stale, 0).err(), fault);
        assert_eq!(files.mode(stale, 0).err(), fault);
        assert_eq!(files.stat(stale).err(), fault);
        assert_eq!(files.list(stale).err(), fault);
        assert_eq!(files.unlink(stale, b"new").err(), fault);
        assert_eq!(files.rmdir(stale, b"new").err(), fault);
        assert_eq!(files.rename(stale, b"file", ROOT, b"new").err(), fault);
        assert_eq!(files.rename(ROOT, b"file", stale, b"new").err(), fault);
    }
    scene.end()
}

#[test]
fn bytes_that_are_no_names() -> Result<(), Fault> {
    let mut scene = Scene::new()?;
    let files = &mut scene.files;
    let long = [b'n'; 256];
    let names: [&[u8]; 6] = [b"", b"/", b"a/b", b".", b"..", b"a\0b"];
    for name in names.into_iter().chain([&long[..]]) {
        let fault = Some(Fault::BadName);
        assert_eq!(files.create(ROOT, name, 0).err(), fault);
        assert_eq!(files.mkdir(ROOT, name, 0).err(), fault);
        assert_eq!(files.lookup(ROOT, name).err(), fault);
        assert_eq!(files.unlink(ROOT, name).err(), fault);
        assert_eq!(files.rmdir(ROOT, name).err(), fault);
        assert_eq!(files.rename(ROOT, name, ROOT, b"new").err(), fault);
        assert_eq!(files.rename(ROOT, b"file", ROOT, name).err(), fault);
    }
    files.create(scene.dir, &long[..255], 0)?;
    assert_eq!(files.list(scene.dir)?, [&long[..255]]);
    assert_eq!(files.tree()?[3].path.len(), 260);
    scene.end()
}

#[test]
fn modes_above_twelve_bits() -> Result<(), Fault> {
    let mut scene = Scene::new()?;
    let files = &mut scene.files;
    for mode in [4096, 65_536 + 0o644, u32::MAX] {
        assert_eq!(files.create(ROOT, b"new", mode).err(), Some(Fault::BadMode));
        assert_eq!(files.mkdir(ROOT, b"new", mode).err(), Some(Fault::BadMode));
        assert_eq!(files.mode(scene.file, mode).err(), Some(Fault::BadMode));
    }
    files.mode(scene.file, 4095)?;
    let told = files.stat(scene.file)?;
    assert_eq!((told.kind, told.mode, told.size), (Kind::File, 4095, 6));
    scene.end()
}

#[test]
fn offsets_and_sizes_past_the_largest_file() -> Result<(), Fault> {
    let mut scene = Scene::new()?;
    let (files, file) = (&mut scene.files, scene.file);
    for number in &WILD[2..] {
        let mut place = [7; 4];
        assert_eq!(files.write(file, *number, b"x").err(), Some(Fault::FileTooBig));
        assert_eq!(files.size(file, *number).err(), Some(Fault::FileTooBig));
        assert_eq!(files.read(file, *number, &mut place)?, 0);
        assert_eq!(place, [7; 4]);
    }
    assert_eq!(files.write(file, 0, &[0; 4097]).err(), Some(Fault::WriteTooBig));
    assert_eq!(files.write(file, 0, &[0; 300]).err(), Some(Fault::NoSpace));
    files.write(file, 0, b"")?;
    assert_eq!(files.read(file, 0, &mut [])?, 0);
    scene.end()
}

#[test]
fn nodes_of_the_other_kind_and_names_that_stand() -> Result<(), Fault> {
    let mut scene = Scene::new()?;
    let (files, file, dir) = (&mut scene.files, scene.file, scene.dir);
    assert_eq!(files.write(dir, 0, b"x").err(), Some(Fault::NotFile));
    assert_eq!(files.read(dir, 0, &mut [0]).err(), Some(Fault::NotFile));
    assert_eq!(files.unlink(ROOT, b"dir").err(), Some(Fault::NotFile));
    assert_eq!(files.list(file).err(), Some(Fault::NotDirectory));
    assert_eq!(files.rmdir(ROOT, b"file").err(), Some(Fault::NotDirectory));
    assert_eq!(files.create(ROOT, b"file", 0).err(), Some(Fault::Exists));
    assert_eq!(files.lookup(dir, b"file").err(), Some(Fault::Missing));
    files.mkdir(dir, b"below", 0)?;
    assert_eq!(files.rmdir(ROOT, b"dir").err(), Some(Fault::NotEmpty));
    assert_eq!(
        files.rename(dir, b"below", ROOT, b"below").err(),
        Some(Fault::MoveDirectory)
    );
    files.rename(ROOT, b"file", ROOT, b"file")?;
    scene.end()
}

#[test]
fn snapshots_and_logs_that_are_not_there() -> Result<(), Fault> {
    let mut scene = Scene::new()?;
    let files = &mut scene.files;
    for number in WILD {
        assert_eq!(files.show(Snapshot::new(number)).err(), Some(Fault::NoSnapshot));
        assert_eq!(files.drop_snap(Snapshot::new(number)).err(), Some(Fault::NoSnapshot));
        assert_eq!(files.clean_fast(number).err(), Some(Fault::Stale));
        assert_eq!(files.clean_thorough(number).err(), Some(Fault::Stale));
        assert_eq!(files.clean_auto(number).err(), Some(Fault::Stale));
    }
    assert_eq!(files.snap()?.number(), 2);
    assert_eq!(files.snap().err(), Some(Fault::TooManySnapshots));
    files.drop_snap(scene.snapshot)?;
    assert_eq!(files.drop_snap(scene.snapshot).err(), Some(Fault::NoSnapshot));
    files.drain(u64::MAX)?;
    assert_eq!(files.drain(0)?, 0);
    scene.end()
}

#[test]
fn faults_tell_their_names() {
    assert_eq!(Fault::Stale.to_string(), "E3 Stale");
    assert_eq!((Fault::Stale.status(), Fault::BadMode.status()), (3, 64));
}
