//! The stored examples, and the scripts that go to the limits, print what is stored.

use std::fs::{self, File};
use std::path::{Path, PathBuf};
use std::process::{Command, Output, Stdio};

fn root() -> PathBuf {
    Path::new(env!("CARGO_MANIFEST_DIR")).join("..")
}

/// That a script prints what is stored under the name, and ends with the status that stands there.
fn assert_prints(name: &str, script: Stdio) {
    let Output {
        status,
        stdout,
        mut stderr,
    } = Command::new(env!("CARGO_BIN_EXE_reference"))
        .stdin(script)
        .output()
        .unwrap();
    let status = status.code().unwrap();
    stderr.extend(format!("status {status}\n").into_bytes());
    for (ending, printed) in [("out", stdout), ("err", stderr)] {
        let stored = fs::read(root().join(format!("examples/{name}.{ending}"))).unwrap();
        assert!(printed == stored, "{name}.{ending}");
    }
}

#[test]
fn examples() {
    let mut count = 0;
    for file in fs::read_dir(root().join("examples")).unwrap() {
        let path = file.unwrap().path();
        if path.extension().is_some_and(|ending| ending == "script") {
            let name = path.file_stem().unwrap().to_str().unwrap();
            assert_prints(name, File::open(&path).unwrap().into());
            count += 1;
        }
    }
    assert_ne!(count, 0);
}

#[test]
fn limits() {
    for limit in ["256", "4096", "65536"] {
        let mut script = Command::new(root().join("tools/limits"))
            .arg(limit)
            .stdout(Stdio::piped())
            .spawn()
            .unwrap();
        let lines = script.stdout.take().unwrap();
        assert_prints(&format!("limits/{limit}"), lines.into());
        assert!(script.wait().unwrap().success());
    }
}
