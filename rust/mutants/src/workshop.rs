//! A copy of the workspace in which the reference is edited, built and compared. The work tree is only read.

use crate::table::Edit;
use std::fmt;
use std::fs;
use std::path::{Path, PathBuf};
use std::process::{Command, Output};

/// The copy, in the build folder of the workspace.
pub struct Workshop {
    copy: PathBuf,
    build: PathBuf,
    library: PathBuf,
    calls: u64,
    seed: u64,
}

/// What the readings and the comparison say of a mutant.
pub struct Verdict {
    /// Whether a reading failed.
    readings: bool,
    /// The first words of the difference that the comparison found, or of its panic.
    comparison: Option<String>,
}

impl Verdict {
    /// Whether one of the two noticed.
    pub fn is_noticed(&self) -> bool {
        self.readings || self.comparison.is_some()
    }

    /// The number of the call at which the comparison noticed.
    pub fn calls(&self) -> Option<u64> {
        let words = self.comparison.as_ref()?.strip_prefix("call ")?;
        words.split(',').next()?.parse().ok()
    }
}

impl fmt::Display for Verdict {
    fn fmt(&self, out: &mut fmt::Formatter) -> fmt::Result {
        let comparison = self.comparison.as_ref().map(|words| match words.split(", ").nth(1) {
            Some(part) if words.starts_with("call ") => format!("comparison ({part})"),
            _ => "comparison (panic)".to_string(),
        });
        match (self.readings, comparison) {
            (true, Some(comparison)) => out.pad(&format!("readings, {comparison}")),
            (true, None) => out.pad("readings"),
            (false, Some(comparison)) => out.pad(&comparison),
            (false, None) => out.pad("not noticed"),
        }
    }
}

impl Workshop {
    /// A fresh copy of the workspace. Comparisons make so many random calls with that seed.
    pub fn new(calls: u64, seed: u64) -> Result<Workshop, String> {
        let workspace = Path::new(env!("CARGO_MANIFEST_DIR")).join("..");
        let folder = workspace.join("target/mutants");
        let copy = folder.join("copy");
        if copy.exists() {
            fs::remove_dir_all(&copy).map_err(|error| format!("{}: {error}", copy.display()))?;
        }
        copy_folder(&workspace, &copy)?;
        // The header, from which the crate of the library reads the limits, stands beside the workspace.
        copy_folder(&workspace.join("../include"), &folder.join("include"))?;
        let library = match std::env::var_os("VARPOLICY_LIB_DIR") {
            Some(folder) => PathBuf::from(folder),
            None => workspace.join("../target/staticlib"),
        };
        let library = library.canonicalize().map_err(|error| format!("{}: {error}", library.display()))?;
        Ok(Workshop { copy, build: folder.join("build"), library, calls, seed })
    }

    /// What the readings and the comparison say of the reference with this edit.
    pub fn try_edit(&self, file: &str, edit: &Edit) -> Result<Verdict, String> {
        let path = self.copy.join("reference/src").join(file);
        let original = fs::read_to_string(&path).map_err(|error| format!("{}: {error}", path.display()))?;
        let edited = edit.applied_to(&original)?;
        let write = |text: &str| fs::write(&path, text).map_err(|error| format!("{}: {error}", path.display()));
        write(&edited)?;
        let verdict = self.verdict();
        write(&original)?;
        verdict.map_err(|what| format!("{}: {what}", edit.name))
    }

    /// What the readings and the comparison say of the copy as it stands.
    pub fn verdict(&self) -> Result<Verdict, String> {
        self.build()?;
        let readings = !self.program("readings", &[])?.status.success();
        let compared = self.program("compare", &[self.calls, self.seed])?;
        let words = String::from_utf8_lossy(&compared.stderr).lines().next().unwrap_or_default().to_string();
        // What was not hit is no difference.
        let differs = !compared.status.success() && !words.starts_with("not hit");
        Ok(Verdict { readings, comparison: differs.then_some(words) })
    }

    /// Builds both programs, quickly rather than well.
    fn build(&self) -> Result<(), String> {
        let cargo = std::env::var_os("CARGO").unwrap_or_else(|| "cargo".into());
        let mut command = Command::new(cargo);
        command.args(["build", "--release", "--offline", "--locked", "--quiet", "--bins", "--package", "compare"]);
        command.current_dir(&self.copy);
        command.env("CARGO_TARGET_DIR", &self.build);
        command.env("VARPOLICY_LIB_DIR", &self.library);
        command.env("RUSTFLAGS", "-A warnings");
        command.env("CARGO_PROFILE_RELEASE_OPT_LEVEL", "1");
        command.env("CARGO_PROFILE_RELEASE_DEBUG", "0");
        command.env("CARGO_PROFILE_RELEASE_INCREMENTAL", "true");
        let output = command.output().map_err(|error| format!("cargo: {error}"))?;
        if output.status.success() {
            return Ok(());
        }
        Err(format!("does not compile\n{}", String::from_utf8_lossy(&output.stderr)))
    }

    fn program(&self, name: &str, arguments: &[u64]) -> Result<Output, String> {
        let program = self.build.join("release").join(name);
        let arguments = arguments.iter().map(u64::to_string);
        Command::new(program).args(arguments).output().map_err(|error| format!("{name}: {error}"))
    }
}

/// Copies a folder with all below it but the folders called `target`.
fn copy_folder(from: &Path, to: &Path) -> Result<(), String> {
    let failed = |error| format!("{}: {error}", from.display());
    fs::create_dir_all(to).map_err(failed)?;
    for item in fs::read_dir(from).map_err(failed)? {
        let item = item.map_err(failed)?;
        let (path, copy) = (item.path(), to.join(item.file_name()));
        if !path.is_dir() {
            fs::copy(&path, &copy).map_err(failed)?;
        } else if item.file_name() != "target" {
            copy_folder(&path, &copy)?;
        }
    }
    Ok(())
}
