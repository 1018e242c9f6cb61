//! Builds the program `wrong` of the tests; the package's own programs hold nothing of it.

use std::path::{Path, PathBuf};
use std::process::Command;
use std::sync::OnceLock;

/// The path of `wrong`. `cargo test` has built it already unless one test file alone was asked for, so this
/// makes sure of it.
pub fn program() -> &'static str {
    static PATH: OnceLock<String> = OnceLock::new();
    PATH.get_or_init(|| {
        let target = Path::new(env!("CARGO_TARGET_TMPDIR")).parent().unwrap();
        let (profile, folder) = if cfg!(debug_assertions) {
            ("dev", "debug")
        } else {
            ("release", "release")
        };
        let built = Command::new(env!("CARGO"))
            .args(["build", "--offline", "--quiet", "--example", "wrong"])
            .args(["--profile", profile, "--target-dir"])
            .arg(target)
            .current_dir(env!("CARGO_MANIFEST_DIR"))
            .status()
            .unwrap();
        assert!(built.success());
        let path: PathBuf = target.join(folder).join("examples").join("wrong");
        path.display().to_string()
    })
}
