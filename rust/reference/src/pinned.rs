//! The original's files are those that were pinned, and others are refused.

use std::{
    env, fs,
    path::{Path, PathBuf},
    process,
};

use crate::checksums::{check, files};

/// A copy of the sources that were compiled, in a folder of its own.
fn copy(name: &str) -> PathBuf {
    let folder = env::temp_dir().join(format!("stemhook-{name}-{}", process::id()));
    let source = Path::new(include_str!(concat!(env!("OUT_DIR"), "/folder")));
    for file in files() {
        let to = folder.join(file);
        fs::create_dir_all(to.parent().expect("a folder")).unwrap();
        fs::copy(source.join(file), to).unwrap();
    }
    folder
}

#[test]
fn every_file_is_held_to_its_checksum() {
    let folder = copy("pinned");
    assert_eq!(check(&folder), Ok(()));
    assert_eq!(files().count(), 10);
    for file in files() {
        let path = folder.join(file);
        let before = fs::read(&path).unwrap();
        let mut permissions = fs::metadata(&path).unwrap().permissions();
        #[allow(clippy::permissions_set_readonly_false)]
        permissions.set_readonly(false);
        fs::set_permissions(&path, permissions).unwrap();
        // A byte more, a byte changed, and no file.
        let mut changed = before.clone();
        changed.push(b'\n');
        let mut other = before.clone();
        other[0] ^= 1;
        for bytes in [changed, other] {
            fs::write(&path, bytes).unwrap();
            let told = check(&folder).unwrap_err();
            assert!(told.ends_with(&format!(": {file}: FAILED")), "{told}");
        }
        fs::remove_file(&path).unwrap();
        let told = check(&folder).unwrap_err();
        assert!(told.contains(&format!("no {file} under ")), "{told}");
        fs::write(&path, before).unwrap();
    }
    assert_eq!(check(&folder), Ok(()));
    fs::remove_dir_all(folder).unwrap();
}
