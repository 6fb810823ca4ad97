//! Where `build.rs` looks for the library.

#[allow(dead_code)]
#[path = "../build.rs"]
mod build;

use std::path::Path;

fn directory(named: Option<&str>, caller: Option<&str>) -> Option<String> {
    let directory = build::directory(named.map(Into::into), caller.map(Into::into)).ok()?;
    assert!(directory.is_absolute(), "it is printed whole");
    Some(directory.display().to_string())
}

#[test]
fn the_caller_names_it_from_its_own_folder() {
    assert_eq!(directory(Some("lib"), Some("/caller")).as_deref(), Some("/caller/lib"));
    assert_eq!(directory(Some("/named/lib"), Some("/caller")).as_deref(), Some("/named/lib"));
    assert_eq!(directory(Some("/named/lib"), None).as_deref(), Some("/named/lib"));
    assert_eq!(directory(Some("lib"), None), None);
    let usual = Path::new(env!("CARGO_MANIFEST_DIR")).join("../target/staticlib");
    assert_eq!(directory(None, Some("/caller")), Some(usual.display().to_string()));
}
