//! Links the library's archive for the processor that is compiled for, which `tools/archive` writes. ANAQSIRO_LIB names another
//! folder that has it. Where there is no such archive, or it is for another processor, the build ends with a line that says so.

use std::env::{var, var_os};
use std::fs;
use std::io::ErrorKind;
use std::path::{Path, PathBuf};

/// The processors that there is an archive for, on Linux, by cargo's name and by the number in an ELF object.
const PROCESSORS: [(&str, u16); 2] = [("x86_64", 62), ("aarch64", 183)];

/// The members of an archive, if it is one.
fn members(archive: &[u8]) -> Option<Vec<&[u8]>> {
    const HEADER: usize = 60;
    let mut rest = archive.strip_prefix(b"!<arch>\n")?;
    let mut members = Vec::new();
    while rest.len() >= HEADER {
        let (header, after) = rest.split_at(HEADER);
        let size: usize = std::str::from_utf8(&header[48..58]).ok()?.trim_end().parse().ok()?;
        members.push(after.get(..size)?);
        rest = after.get(size.next_multiple_of(2)..).unwrap_or_default();
    }
    Some(members)
}

/// The number of the processor that an object is for, if it is an ELF object.
fn machine(object: &[u8]) -> Option<u16> {
    object.starts_with(b"\x7fELF").then_some(())?;
    Some(u16::from_le_bytes([*object.get(18)?, *object.get(19)?]))
}

/// Fails where the archive can not be linked for the processor, and says why.
pub fn looked_at(archive: &Path, processor: &str, system: &str) -> Result<(), String> {
    let Some((_, wanted)) = PROCESSORS.into_iter().find(|&(name, _)| name == processor && system == "linux") else {
        return Err(format!("there is no archive for {processor} on {system}, only for x86_64 and aarch64 on linux"));
    };
    let shown = archive.display();
    let write = format!("`tools/archive {processor}`, in the repository, writes the one for {processor}");
    let bytes = fs::read(archive).map_err(|why| match why.kind() {
        ErrorKind::NotFound => format!("there is no {shown}: {write}; ANAQSIRO_LIB names another folder that has it"),
        _ => format!("{shown} can not be read: {why}"),
    })?;
    let found = members(&bytes).and_then(|members| members.into_iter().find_map(machine));
    let Some(found) = found else { return Err(format!("{shown} is not an archive of ELF objects: {write}")) };
    if found == wanted {
        return Ok(());
    }
    let other = PROCESSORS.iter().find(|&&(_, number)| number == found).map_or("another processor", |&(name, _)| name);
    Err(format!("{shown} is for {other}, and {processor} is compiled for: {write}"))
}

/// The folder that has the archive: the one named, or the one that `tools/archive` writes to.
pub fn folder(named: Option<PathBuf>, package: &Path, processor: &str) -> Result<PathBuf, String> {
    match named {
        Some(folder) if folder.is_absolute() => Ok(folder),
        Some(folder) => Err(format!("ANAQSIRO_LIB is {}, and is to be a full path", folder.display())),
        None => {
            let repository = package.ancestors().nth(2).unwrap_or(package);
            Ok(repository.join("target/archive").join(processor))
        }
    }
}

/// Tells cargo what to link.
fn link() -> Result<(), String> {
    let set = |name: &str| var(name).map_err(|_| format!("cargo did not set {name}"));
    println!("cargo::rerun-if-env-changed=ANAQSIRO_LIB");
    let (processor, system) = (set("CARGO_CFG_TARGET_ARCH")?, set("CARGO_CFG_TARGET_OS")?);
    let folder = folder(var_os("ANAQSIRO_LIB").map(Into::into), Path::new(&set("CARGO_MANIFEST_DIR")?), &processor)?;
    let archive = folder.join("libanaqsiro.a");
    println!("cargo::rerun-if-changed={}", archive.display());
    println!("cargo::rustc-link-search=native={}", folder.display());
    looked_at(&archive, &processor, &system)
}

fn main() {
    if let Err(why) = link() {
        println!("cargo::error={why}");
    }
}
