//! Can the comparison fail? For each fault of the lists, the reference with that line changed is compared as if it were the program.

use crate::patches::{self, Patch, Whose};
use crate::trials::{self, Trial};
use std::fs;
use std::io;
use std::path::{Path, PathBuf};
use std::process::Command;

const REFERENCE: &str = "tests/reference";
/// The copy that is changed, and where it is built: one folder for all faults, so that little is compiled for each.
const COPY: &str = "target/reference/faults/source";
const BUILD: &str = "target/reference/faults/build";
/// The profile in Cargo.toml, which is also the name of its folder.
const PROFILE: &str = "faults";

/// The inputs of a list's faults, and the programs that take them.
struct Ground {
    whose: Whose,
    trials: fn() -> Vec<Trial>,
    programs: &'static [&'static str],
}

const GROUNDS: [Ground; 6] = [
    Ground { whose: Whose::Receivers, trials: trials::quick, programs: &["drive", "replay"] },
    Ground { whose: Whose::Senders, trials: trials::senders, programs: &["drive_sender"] },
    Ground { whose: Whose::Menders, trials: trials::menders, programs: &["mend", "mend_script"] },
    Ground {
        whose: Whose::Windows,
        trials: trials::windows,
        programs: &["compare_windows", "windows_script"],
    },
    Ground { whose: Whose::Deltas, trials: trials::deltas, programs: &["delta_script", "patch"] },
    Ground { whose: Whose::Isolation, trials: trials::isolation, programs: &["drive"] },
];

/// Tries the faults whose names have the given words in them. Answers whether each was found.
pub fn run(words: &[&str]) -> Result<bool, String> {
    let patches = chosen(words)?;
    let mut found = 0;
    for ground in &GROUNDS {
        let of_ground = |patch: &&Patch| patch.of() == ground.whose;
        found += ground.found_of(&patches.iter().filter(of_ground).collect::<Vec<_>>())?;
    }
    println!("{found} of {} faults found", patches.len());
    Ok(found == patches.len())
}

impl Ground {
    /// How many of the faults the trials find.
    fn found_of(&self, patches: &[&Patch]) -> Result<usize, String> {
        if patches.is_empty() {
            return Ok(0);
        }
        let trials = (self.trials)();
        self.unchanged(&trials)?;
        Ok(patches.iter().filter(|patch| self.hunt(patch, &trials)).count())
    }

    /// The copy without a fault must agree everywhere: else what is found says nothing.
    fn unchanged(&self, trials: &[Trial]) -> Result<(), String> {
        let programs = build(self.programs, None)?;
        match trials.iter().find_map(|trial| trial.difference(&programs)) {
            Some(difference) => Err(format!("the reference unchanged: {difference}")),
            None => {
                let inputs: usize = trials.iter().map(Trial::inputs).sum();
                println!("the reference unchanged: {inputs} inputs agree");
                Ok(())
            }
        }
    }

    /// Looks for the first difference that a fault makes, says it, and answers whether there is one.
    fn hunt(&self, patch: &Patch, trials: &[Trial]) -> bool {
        let search = |programs: PathBuf| {
            let difference = trials.iter().find_map(|trial| trial.difference(&programs))?;
            if self.whose != Whose::Isolation {
                return Some(difference);
            }
            let leak = trials.iter().find_map(|trial| trial.leak(&programs))?;
            Some(format!("{difference}; as a pair: {leak}"))
        };
        let difference = build(self.programs, Some(patch)).map(search);
        match &difference {
            Ok(Some(difference)) => println!("found      {}: {difference}", patch.name),
            Ok(None) => println!("NOT FOUND  {}", patch.name),
            Err(error) => println!("ERROR      {error}"),
        }
        matches!(difference, Ok(Some(_)))
    }
}

/// The faults to try. Each is checked before the first is built.
fn chosen(words: &[&str]) -> Result<Vec<Patch>, String> {
    let mut patches = patches::read_all(Path::new(patches::LISTS))?;
    patches.retain(|patch| words.iter().all(|word| patch.name.contains(word)));
    patches.iter().try_for_each(|patch| patch.check(Path::new(REFERENCE)))?;
    if patches.is_empty() {
        return Err("no such fault".into());
    }
    Ok(patches)
}

/// Builds programs of the reference with a fault in it. Answers their folder. The copy is made anew each time: all its files are then
/// newer than the build before, so cargo builds what stands there.
fn build(programs: &[&str], patch: Option<&Patch>) -> Result<PathBuf, String> {
    copy_reference().map_err(|error| format!("cannot copy the reference: {error}"))?;
    patch.map_or(Ok(()), |patch| patch.apply(Path::new(COPY)))?;
    let mut cargo = Command::new("cargo");
    cargo.args(["build", "--quiet", "--offline", "--profile", PROFILE]);
    cargo.args(programs.iter().flat_map(|name| ["--bin", name]));
    cargo.args(["--manifest-path", &format!("{COPY}/Cargo.toml"), "--target-dir", BUILD]);
    let output = cargo.output().map_err(|error| format!("cargo: {error}"))?;
    if output.status.success() {
        return Ok(Path::new(BUILD).join(PROFILE));
    }
    let name = patch.map_or("the reference unchanged", |patch| &patch.name);
    Err(format!("{name}: does not build\n{}", String::from_utf8_lossy(&output.stderr)))
}

fn copy_reference() -> io::Result<()> {
    if Path::new(COPY).exists() {
        fs::remove_dir_all(COPY)?;
    }
    fs::create_dir_all(COPY)?;
    for file in ["Cargo.toml", "Cargo.lock"] {
        fs::copy(Path::new(REFERENCE).join(file), Path::new(COPY).join(file))?;
    }
    copy_folder(&Path::new(REFERENCE).join("src"), &Path::new(COPY).join("src"))
}

fn copy_folder(from: &Path, to: &Path) -> io::Result<()> {
    fs::create_dir_all(to)?;
    for entry in fs::read_dir(from)? {
        let entry = entry?;
        let target = to.join(entry.file_name());
        if entry.file_type()?.is_dir() {
            copy_folder(&entry.path(), &target)?;
        } else {
            fs::copy(entry.path(), target)?;
        }
    }
    Ok(())
}
