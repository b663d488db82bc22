//! The program: what it prints, and that it fails where the rule is broken.

use std::{
    env, fs,
    path::{Path, PathBuf},
    process::{self, Command, Output},
};

use arrays::sources::{Source, read};

fn root() -> PathBuf {
    Path::new(env!("CARGO_MANIFEST_DIR")).join("../..")
}

fn run(folder: Option<&Path>) -> Output {
    let mut command = Command::new(env!("CARGO_BIN_EXE_arrays"));
    command.args(folder);
    command.output().expect("the program runs")
}

fn printed(output: &Output) -> String {
    String::from_utf8_lossy(&output.stdout).into_owned()
}

/// A folder of its own with sources, outside of the repository, in which every source has to belong to a crate. It is
/// removed at the end.
struct Folder(PathBuf);

impl Folder {
    fn new(name: &str, sources: &[Source]) -> Self {
        let own = format!("stemhook-arrays-{}-{name}", process::id());
        let folder = Self(env::temp_dir().join(own));
        for source in sources {
            let path = folder.0.join(&source.file);
            let parent = path.parent().expect("a file lies in a folder");
            fs::create_dir_all(parent).expect("the folder is made");
            fs::write(&path, &source.text).expect("the source is written");
        }
        folder
    }
}

impl Drop for Folder {
    fn drop(&mut self) {
        let _ = fs::remove_dir_all(&self.0);
    }
}

#[test]
fn it_says_what_it_counted() {
    let output = run(None);
    let text = printed(&output);
    assert!(output.status.success(), "{text}");
    assert!(
        text.ends_with(" beside the family, 0 arrays in the choice\n"),
        "{text}"
    );
    assert!(!text.contains("finding"), "{text}");
    assert_eq!(printed(&run(None)), text);
}

#[test]
fn it_fails_where_the_rule_is_broken() {
    let mut sources = read(&root()).expect("the sources are there");
    let call = sources
        .iter_mut()
        .find(|s| s.file == "crates/query/src/call.rt");
    let text = &mut call.expect("the module is there").text;
    let at = "    let mut families = [loading::NOWHERE; 64];\n";
    assert_eq!(text.matches(at).count(), 1);
    *text = text.replace(at, &format!("{at}    let second = [0u32; 64];\n"));
    let output = run(Some(&Folder::new("second", &sources).0));
    let text = printed(&output);
    assert_eq!(output.status.code(), Some(1), "{text}");
    assert!(
        text.contains("finding: query::call::search_with: `second`: [u32; 64]"),
        "{text}"
    );
    assert!(text.ends_with("arrays: 1 finding\n"), "{text}");
}

#[test]
fn it_fails_without_sources() {
    let output = run(Some(&Folder::new("nothing", &[]).0));
    assert_eq!(output.status.code(), Some(1));
    let other = Source {
        file: "crates/font/src/notes.txt".into(),
        crate_name: "font".into(),
        module: "notes".into(),
        text: String::new(),
    };
    let output = run(Some(&Folder::new("other", &[other]).0));
    let said = String::from_utf8_lossy(&output.stderr).into_owned();
    assert_eq!(output.status.code(), Some(1));
    assert!(
        said.contains("crates/font/src/notes.txt is no source"),
        "{said}"
    );
}
