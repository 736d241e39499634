//! The header and the crate have one version.

const HEADER: &str = include_str!("../../include/adfulmise.h");

fn defined(name: &str) -> &'static str {
    let prefix = format!("#define {name} ");
    HEADER
        .lines()
        .find_map(|line| line.strip_prefix(&prefix))
        .expect(name)
}

fn part(digits: &str) -> usize {
    digits.parse().expect("a number")
}

#[test]
fn header_and_crate_agree() {
    let quoted = format!("\"{}\"", env!("CARGO_PKG_VERSION"));
    assert_eq!(defined("ADFULMISE_VERSION"), quoted);
}

#[test]
fn version_as_a_number() {
    let number = part(env!("CARGO_PKG_VERSION_MAJOR")) * 10_000
        + part(env!("CARGO_PKG_VERSION_MINOR")) * 100
        + part(env!("CARGO_PKG_VERSION_PATCH"));
    assert_eq!(part(defined("ADFULMISE_VERSION_NUMBER")), number);
}
