//! The list of faults: changes of one line of the reference, each of which the comparison must find.

use std::path::Path;
use std::{fs, io};

/// Where the lists stand, from the repository's root.
pub const LISTS: &str = "tests/reference/faults";

/// A fault: in `file` the text `old`, which stands there exactly once, becomes `new`.
#[derive(Debug, Default)]
pub struct Patch {
    pub name: String,
    file: String,
    old: Vec<String>,
    new: Vec<String>,
}

/// For whom inputs are made.
#[derive(Clone, Copy, Debug, PartialEq)]
pub enum Whose {
    Receivers,
    Senders,
    Menders,
    Windows,
    Deltas,
    Isolation,
}

/// Every fault of every list in the folder, in the order of the lists' names.
pub fn read_all(folder: &Path) -> Result<Vec<Patch>, String> {
    let entries = fs::read_dir(folder).and_then(|entries| entries.collect::<io::Result<Vec<_>>>());
    let entries = entries.map_err(|error| format!("{}: {error}", folder.display()))?;
    let mut paths: Vec<_> = entries.iter().map(fs::DirEntry::path).collect();
    paths.sort();
    let lists: Vec<Vec<Patch>> = paths.iter().map(|path| read(path)).collect::<Result<_, _>>()?;
    Ok(lists.into_iter().flatten().collect())
}

fn read(path: &Path) -> Result<Vec<Patch>, String> {
    let list = fs::read_to_string(path).map_err(|error| format!("{}: {error}", path.display()))?;
    let group = path.file_stem().unwrap_or_default().to_string_lossy();
    parse(&group, &list)
}

/// Blocks parted by empty lines; a block of comments alone is none.
fn parse(group: &str, list: &str) -> Result<Vec<Patch>, String> {
    let blocks =
        list.split("\n\n").map(|block| block.lines().filter(|line| !line.starts_with('#')));
    let blocks = blocks.map(|lines| lines.filter(|line| !line.is_empty()).collect::<Vec<&str>>());
    blocks.filter(|block| !block.is_empty()).map(|block| fault(group, &block)).collect()
}

/// A name, `@ file`, lines after `- `, lines after `+ `.
fn fault(group: &str, block: &[&str]) -> Result<Patch, String> {
    let mut patch = Patch::default();
    for line in block {
        match line.split_at_checked(2) {
            Some(("@ ", file)) => patch.file = file.into(),
            Some(("- ", text)) => patch.old.push(text.into()),
            Some(("+ ", text)) => patch.new.push(text.into()),
            _ if patch.name.is_empty() => patch.name = format!("{group}: {line}"),
            _ => return Err(format!("{group}: not a line of a fault: {line}")),
        }
    }
    let changed = patch.old.iter().zip(&patch.new).filter(|(old, new)| old != new).count();
    if patch.name.is_empty() || patch.old.len() != patch.new.len() || changed != 1 {
        return Err(format!("{group}: not a fault of one line: {block:?}"));
    }
    Ok(patch)
}

impl Patch {
    /// Whose inputs are to find it. The writer is the receiver's too, so the list decides, not the file.
    pub fn of(&self) -> Whose {
        match &self.name {
            name if name.starts_with("sender") => Whose::Senders,
            name if name.starts_with("mend") => Whose::Menders,
            name if name.starts_with("windows") => Whose::Windows,
            name if name.starts_with("delta") => Whose::Deltas,
            name if name.starts_with("isolation") => Whose::Isolation,
            _ => Whose::Receivers,
        }
    }

    /// The source with the fault in it. The old text must stand exactly once, so that no fault lands elsewhere unseen.
    fn changed(&self, source: &str) -> Result<String, String> {
        let (old, new) = (self.old.join("\n"), self.new.join("\n"));
        match source.matches(&old).count() {
            1 => Ok(source.replacen(&old, &new, 1)),
            count => {
                Err(format!("{}: the old text stands {count} times in {}", self.name, self.file))
            }
        }
    }

    /// Puts the fault into the copy of the reference under `root`.
    pub fn apply(&self, root: &Path) -> Result<(), String> {
        let path = root.join(&self.file);
        let told = |error| format!("{}: {}: {error}", self.name, path.display());
        let source = fs::read_to_string(&path).map_err(told)?;
        fs::write(&path, self.changed(&source)?).map_err(told)
    }

    /// Whether the fault could be put into the reference under `root`.
    pub fn check(&self, root: &Path) -> Result<(), String> {
        let path = root.join(&self.file);
        let source =
            fs::read_to_string(&path).map_err(|error| format!("{}: {error}", self.name))?;
        self.changed(&source).map(|_| ())
    }
}

#[cfg(test)]
mod tests {
    use super::*;

    const LIST: &str = "# A comment.\n\na name\n@ src/x.rs\n- one\n-   two\n+ one\n+   three\n\n";

    #[test]
    fn a_list_reads() {
        let patches = parse("group", LIST).unwrap();
        assert_eq!(patches.len(), 1);
        assert_eq!(patches[0].name, "group: a name");
        assert_eq!(patches[0].changed("one\n  two\nx"), Ok("one\n  three\nx".into()));
        assert!(patches[0].changed("one\n  two\none\n  two").is_err());
        assert!(patches[0].changed("").is_err());
    }

    #[test]
    fn what_is_no_fault_of_one_line_is_refused() {
        for list in
            ["name\n@ f\n- a\n+ a", "name\n@ f\n- a\n+ b\n+ c", "@ f\n- a\n+ b", "a\nb", "name"]
        {
            assert!(parse("group", list).is_err(), "{list}");
        }
    }

    #[test]
    fn every_fault_applies() {
        let root = Path::new(env!("CARGO_MANIFEST_DIR"));
        let patches = read_all(&root.join("faults")).unwrap();
        let failures: Vec<String> =
            patches.iter().filter_map(|patch| patch.check(root).err()).collect();
        assert_eq!(failures, Vec::<String>::new());
        assert!(patches.len() >= 40);
    }
}
