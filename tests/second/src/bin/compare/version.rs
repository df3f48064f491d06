//! The version: what the call answers is what the header's macros say.

use crate::one_input::same;
use crate::{test, Outcome, Test};
use second::ffi;
use second::rng::Rng;

pub const TESTS: &[Test] = &[test("version: the header's", 0, the_headers)];

const HEADER: &str = include_str!("../../../../../include/ltd_study.h");

fn defined(part: &str) -> Result<u32, String> {
    let start = format!("#define LTD_VERSION_{part} ");
    let number = HEADER.lines().find_map(|line| line.strip_prefix(&start)).and_then(|number| number.parse().ok());
    number.ok_or(format!("no number in a line '{start}..' of the header"))
}

fn the_headers(_: &mut Rng) -> Outcome {
    let wanted = 65_536 * defined("MAJOR")? + 256 * defined("MINOR")? + defined("PATCH")?;
    same(ffi::version(), wanted, || "ltd_version".into())?;
    Ok(1)
}
