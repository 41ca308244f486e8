//! What the build script says of an archive.

#[allow(dead_code)]
#[path = "../../build.rs"]
mod script;

use script::{folder, looked_at};
use std::env::{consts, var_os};
use std::fs;
use std::path::{Path, PathBuf};

const PACKAGE: &str = env!("CARGO_MANIFEST_DIR");

/// An archive of these members, in a folder of its own.
fn archive(name: &str, members: &[&[u8]]) -> PathBuf {
    let mut bytes = b"!<arch>\n".to_vec();
    for member in members {
        bytes.extend(format!("{:<48}{:<10}`\n", "anaqsiro.o/", member.len()).bytes());
        bytes.extend(*member);
        bytes.resize(bytes.len().next_multiple_of(2), b'\n');
    }
    written(name, &bytes)
}

fn written(name: &str, bytes: &[u8]) -> PathBuf {
    let path = Path::new(env!("CARGO_TARGET_TMPDIR")).join(name).join("libanaqsiro.a");
    fs::create_dir_all(path.parent().expect("a folder")).expect("a folder");
    fs::write(&path, bytes).expect("a file");
    path
}

/// The front of an ELF object for a processor.
fn object(machine: u16) -> Vec<u8> {
    let mut bytes = b"\x7fELF\x02\x01\x01".to_vec();
    bytes.resize(18, 0);
    bytes.extend(machine.to_le_bytes());
    bytes.resize(64, 0);
    bytes
}

#[test]
fn the_archive_that_is_linked_is_right() {
    let folder = folder(var_os("ANAQSIRO_LIB").map(Into::into), Path::new(PACKAGE), consts::ARCH).expect("a folder");
    assert_eq!(looked_at(&folder.join("libanaqsiro.a"), consts::ARCH, consts::OS), Ok(()));
}

#[test]
fn an_archive_is_known_by_its_object() {
    let table: &[u8] = &[0, 0, 0, 1, 7];
    for (machine, right, wrong) in [(62, "x86_64", "aarch64"), (183, "aarch64", "x86_64")] {
        let path = archive(right, &[table, &object(machine)]);
        assert_eq!(looked_at(&path, right, "linux"), Ok(()));
        let said = looked_at(&path, wrong, "linux").expect_err("another processor");
        let end = format!("libanaqsiro.a is for {right}, and {wrong} is compiled for: `tools/archive {wrong}`, in the repository, writes the one for {wrong}");
        assert!(said.starts_with(path.to_str().expect("a path")) && said.ends_with(&end), "{said}");
    }
    let said = looked_at(&archive("other", &[&object(243)]), "x86_64", "linux").expect_err("another processor");
    assert!(said.contains("is for another processor, and x86_64 is compiled for"), "{said}");
}

#[test]
fn what_is_no_archive_is_told() {
    let whole = fs::read(archive("whole", &[&object(62)])).expect("a file");
    let cut = [&b""[..], b"a text", &whole[..8], &whole[..70], &whole[..68 + 19]];
    for (n, bytes) in cut.into_iter().enumerate() {
        let said = looked_at(&written(&format!("cut-{n}"), bytes), "x86_64", "linux").expect_err("no archive");
        assert!(said.contains("is not an archive of ELF objects: `tools/archive x86_64`"), "{said}");
    }
}

#[test]
fn a_missing_archive_is_told() {
    let path = Path::new(env!("CARGO_TARGET_TMPDIR")).join("nothing/libanaqsiro.a");
    let said = looked_at(&path, "aarch64", "linux").expect_err("no file");
    let wanted = format!("there is no {}: `tools/archive aarch64`, in the repository, writes", path.display());
    assert!(said.starts_with(&wanted) && said.contains("ANAQSIRO_LIB"), "{said}");
    let said = looked_at(Path::new(env!("CARGO_TARGET_TMPDIR")), "aarch64", "linux").expect_err("a folder");
    assert!(said.contains("can not be read"), "{said}");
}

#[test]
fn only_two_processors_have_an_archive() {
    for (processor, system) in [("riscv64", "linux"), ("x86_64", "windows"), ("aarch64", "macos")] {
        let said = looked_at(Path::new("/"), processor, system).expect_err("no archive");
        assert_eq!(said, format!("there is no archive for {processor} on {system}, only for x86_64 and aarch64 on linux"));
    }
}

#[test]
fn the_folder_is_named_in_full() {
    let package = Path::new("/repository/rust/anaqsiro");
    assert_eq!(folder(None, package, "x86_64"), Ok("/repository/target/archive/x86_64".into()));
    assert_eq!(folder(Some("/elsewhere".into()), package, "x86_64"), Ok("/elsewhere".into()));
    assert_eq!(
        folder(Some("else/where".into()), package, "x86_64"),
        Err("ANAQSIRO_LIB is else/where, and is to be a full path".into())
    );
}
