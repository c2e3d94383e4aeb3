//! The crate and the library that it links are of one version.

#[test]
fn the_librarys_version_is_the_crates() {
    let parts: Vec<u32> = contacts::VERSION.split('.').map(|part| part.parse().unwrap()).collect();
    let [major, minor, patch] = parts[..] else { panic!("three numbers: {}", contacts::VERSION) };
    assert_eq!(contacts::library_version(), 10_000 * major + 100 * minor + patch);
}
