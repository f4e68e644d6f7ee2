//! Links the program with the archives in the folder CSOBVARIT_LIB, and finds which entries they have.

use std::path::{Path, PathBuf};
use std::process::Command;
use std::{env, fs};

const ALL: &str = "libcsobvarit.a"; // the archive with all entries; where it is there, it alone is linked

const ENTRIES: [&str; 18] = [
    "cb_start",
    "cb_intake",
    "cb_write_blocks",
    "cb_write_text",
    "cb_read_text",
    "cb_content",
    "cb_read_schedule",
    "cb_description",
    "cb_read_plan",
    "cb_write_schedule",
    "cb_check_schedule",
    "cb_decide",
    "cb_enter",
    "cb_slots",
    "cb_read_header",
    "cb_start_collector",
    "cb_collect",
    "cb_check_slots",
];

fn main() {
    println!("cargo:rerun-if-changed=build.rs");
    println!("cargo:rerun-if-env-changed=CSOBVARIT_LIB");
    for entry in ENTRIES {
        println!("cargo:rustc-check-cfg=cfg({entry})");
    }
    let Some(folder) = env::var_os("CSOBVARIT_LIB") else {
        return;
    };
    let archives = archives(Path::new(&folder));
    if archives.is_empty() {
        println!("cargo:warning=there are no archives in {}", folder.to_string_lossy());
    }
    link(&archives);
}

/// The archive with all entries, or else all archives that the folder has, in the order of their names.
fn archives(folder: &Path) -> Vec<PathBuf> {
    let all = folder.join(ALL);
    if all.is_file() {
        println!("cargo:rerun-if-changed={}", all.display());
        return vec![absolute(&all)];
    }
    println!("cargo:rerun-if-changed={}", folder.display());
    let files = fs::read_dir(folder).into_iter().flatten().filter_map(|file| Some(file.ok()?.path()));
    let mut archives: Vec<PathBuf> =
        files.filter(|file| file.extension().is_some_and(|end| end == "a")).map(|file| absolute(&file)).collect();
    archives.sort();
    archives
}

fn absolute(archive: &Path) -> PathBuf {
    fs::canonicalize(archive).expect("the archive is there")
}

/// Links the archives that have entries. An entry in two of them would leave open which one is compared.
fn link(archives: &[PathBuf]) {
    let mut found: Vec<String> = Vec::new();
    for archive in archives {
        let entries: Vec<String> =
            symbols(archive).into_iter().filter(|symbol| ENTRIES.contains(&symbol.as_str())).collect();
        for entry in &entries {
            assert!(!found.contains(entry), "{entry} is in {} and in another archive", archive.display());
            println!("cargo:rustc-cfg={entry}");
        }
        if !entries.is_empty() {
            println!("cargo:rustc-link-arg-bins={}", archive.display());
        }
        found.extend(entries);
    }
}

/// The symbols that an archive defines for others: the third column of nm.
fn symbols(archive: &Path) -> Vec<String> {
    let output = Command::new("nm").args(["-g", "--defined-only"]).arg(archive).output().expect("nm runs");
    assert!(output.status.success(), "nm can't read {}", archive.display());
    let text = String::from_utf8_lossy(&output.stdout).into_owned();
    text.lines().filter_map(|line| line.split_whitespace().nth(2)).map(str::to_string).collect()
}
