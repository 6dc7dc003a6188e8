//! The build script: when it runs `rt`, and which archives it refuses. Both are tried on a copy of this package in a small
//! repository with an `rt` of its own, which counts its runs and puts a ready archive in place. Needs `cc` and `ar`.

use std::path::{Path, PathBuf};
use std::process::{Command, Output};
use std::{env, fs};

const PARTS: [&str; 5] = ["Cargo.toml", "Cargo.lock", "README.md", "build.rs", "src"];

/// Runs a command that has to succeed.
fn run(command: &mut Command) {
    let ran = command.output().unwrap();
    assert!(ran.status.success(), "{command:?}: {ran:?}");
}

fn write(path: &Path, text: &str) {
    fs::create_dir_all(path.parent().unwrap()).unwrap();
    fs::write(path, text).unwrap();
}

/// A folder with an archive made of this C text.
fn archive(folder: &Path, text: &str) {
    write(&folder.join("stub.c"), text);
    let inside = |program| {
        let mut command = Command::new(program);
        command.current_dir(folder);
        command
    };
    run(inside("cc").args(["-c", "stub.c", "-o", "stub.o"]));
    run(inside("ar").args(["rcs", "librosmarel.a", "stub.o"]));
}

/// A C function that answers with this number.
fn answers(number: u64) -> String {
    format!("unsigned long rosmarel_interface(void) {{ return {number}; }}\n")
}

struct Repository {
    root: PathBuf,
}

/// Nothing of it stays behind: `rt` refuses the repository around this package if sources stand in it that no crate lists.
impl Drop for Repository {
    fn drop(&mut self) {
        let _ = fs::remove_dir_all(&self.root);
    }
}

impl Repository {
    /// A repository whose `rt` makes an archive with this number.
    fn new(name: &str, number: u64) -> Repository {
        let root = Path::new(env!("CARGO_TARGET_TMPDIR")).join(name);
        let _ = fs::remove_dir_all(&root);
        let this = Repository { root };
        write(&this.path("crates.txt"), "one:\n");
        write(&this.path("crates/rosmarel/src/lib.rt"), "");
        for part in [
            "src/lib.rt",
            "src/more.rt",
            "specs/deep/Lib.antt",
            "proofs/Lib.antt",
            "must-fail/a.edit",
        ] {
            write(&this.path("crates/one").join(part), "");
        }
        archive(&this.path("ready"), &answers(number));
        write(
            &this.path("bin/rt"),
            "#!/bin/sh\n[ \"$*\" = 'lib --cpu x86-64' ] || exit 2\ncd ../.. && echo ran >>ran\n\
             mkdir -p crates/rosmarel/out && cat ready/librosmarel.a >crates/rosmarel/out/librosmarel.a\n",
        );
        run(Command::new("chmod").arg("+x").arg(this.path("bin/rt")));
        fs::create_dir_all(this.path("bindings/rust")).unwrap();
        for part in PARTS {
            let of = Path::new(env!("CARGO_MANIFEST_DIR")).join(part);
            run(Command::new("cp")
                .arg("-R")
                .arg(of)
                .arg(this.path("bindings/rust")));
        }
        this
    }

    fn path(&self, part: &str) -> PathBuf {
        self.root.join(part)
    }

    fn cargo_build(&self, lib_dir: Option<&Path>) -> Output {
        let path = env::var("PATH").unwrap();
        let mut command = Command::new(env!("CARGO"));
        command
            .args(["build", "--offline", "--target-dir"])
            .arg(self.path("target-of-cargo"))
            .current_dir(self.path("bindings/rust"))
            .env("PATH", format!("{}:{path}", self.path("bin").display()))
            .env_remove("ROSMAREL_LIB_DIR");
        if let Some(dir) = lib_dir {
            command.env("ROSMAREL_LIB_DIR", dir);
        }
        command.output().unwrap()
    }

    /// How often `rt` runs in a build, which has to succeed.
    fn runs_of_rt(&self) -> usize {
        let count = || fs::read_to_string(self.path("ran")).map_or(0, |text| text.lines().count());
        let before = count();
        let built = self.cargo_build(None);
        assert!(built.status.success(), "{built:?}");
        count() - before
    }
}

#[test]
fn rt_runs_only_where_something_is_newer_than_the_archive() {
    let repository = Repository::new("newer", rosmarel::INTERFACE);
    let one = repository.path("crates/one");
    assert_eq!(repository.runs_of_rt(), 1);
    for _ in 0..2 {
        assert_eq!(repository.runs_of_rt(), 0);
    }
    for part in [
        "src/lib.rt",
        "specs/deep/Lib.antt",
        "proofs/Lib.antt",
        "proofs/New.antt",
        "../../crates.txt",
    ] {
        write(&one.join(part), "one:\n");
        assert_eq!(repository.runs_of_rt(), 1, "{part}");
        assert_eq!(repository.runs_of_rt(), 0, "{part}");
    }
    fs::remove_file(one.join("src/more.rt")).unwrap();
    assert_eq!(repository.runs_of_rt(), 1);
    // not what the archive is made of
    write(&one.join("must-fail/a.edit"), "other");
    write(&repository.path("README.md"), "other");
    assert_eq!(repository.runs_of_rt(), 0);
}

#[test]
fn an_archive_that_is_gone_is_made_anew() {
    let repository = Repository::new("gone", rosmarel::INTERFACE);
    assert_eq!(repository.runs_of_rt(), 1);
    let out = repository.path("crates/rosmarel/out");
    for _ in 0..2 {
        fs::remove_dir_all(&out).unwrap();
        assert_eq!(repository.runs_of_rt(), 1);
        assert!(out.join("librosmarel.a").is_file());
    }
}

/// What a build says that has to fail.
fn refused(repository: &Repository, lib_dir: Option<&Path>) -> String {
    let built = repository.cargo_build(lib_dir);
    assert!(!built.status.success(), "{built:?}");
    String::from_utf8(built.stderr).unwrap()
}

#[test]
fn an_archive_with_another_interface_is_refused() {
    let (other, this) = (rosmarel::INTERFACE + 1, rosmarel::INTERFACE);
    let repository = Repository::new("other", other);
    let sentence = format!(
        "has interface {other}, and this crate is written for interface {this}: take crate and archive"
    );
    assert!(refused(&repository, None).contains(&sentence));

    let ready = repository.path("ready");
    assert!(refused(&repository, Some(&ready)).contains(&sentence));
    // the same folder with an archive that fits
    archive(&ready, &answers(this));
    let built = repository.cargo_build(Some(&ready));
    assert!(built.status.success(), "{built:?}");
}

#[test]
fn an_archive_that_says_no_interface_is_refused() {
    let repository = Repository::new("silent", rosmarel::INTERFACE);
    let ready = repository.path("ready");
    fs::remove_file(ready.join("librosmarel.a")).unwrap();
    archive(&ready, "unsigned long rosmarel_other(void) { return 1; }\n");
    let said = refused(&repository, Some(&ready));
    assert!(
        said.contains("doesn't say its interface") && said.contains("take crate and archive"),
        "{said}"
    );
}
