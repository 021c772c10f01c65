//! Writes the Rust of the proved tests, and of the crates that they use, for `src/lib.rs`.
use std::fs;
use std::path::Path;

/// How the names of the crates of tests begin.
const OF_TESTS: &str = "tests_";
/// Tests whose allocations fail, which std doesn't report to the crate `bytes`.
const OF_ALLOCATIONS: &str = "tests_allocation";
/// Callers of crates that the layer hasn't: futures, tokio, tokio-util, http-body. `rust/tokio` has tests of these.
pub const LEFT_OUT: [&str; 3] = ["tests_callers/framed.rt", "iobufs_examples/polled.rt", "iobufs_examples/web.rt"];
/// Tests that have to fail: one returns an error, one asserts what is false.
const FAILING: &str = "
use std::alloc::AllocError;
use std::test::Fail;

#[test]
fn an_error_is_returned(_rt: HostRuntime) -> Result<(), Fail> {
    Err(AllocError)?
}

#[test]
fn a_false_assertion(rt: HostRuntime) {
    assert!(rt; 1 + 1 == 3, \"a false assertion\");
}
";

pub fn write(here: &Path, to: &Path) -> Result<(), String> {
    let top = here.join("../../..");
    let listed = fs::read_to_string(top.join("crates.txt")).map_err(|it| it.to_string())?;
    let names = listed.lines().filter_map(|line| line.split(':').next());
    let is_written = |name: &&str| *name != OF_ALLOCATIONS || here.ends_with("tests");
    let mut crates = strip::crates_of("iobuf", &top)?;
    for name in names.filter(|name| name.starts_with(OF_TESTS)).filter(is_written) {
        crates.extend(strip::crates_of(name, &top)?);
    }
    crates.sort();
    crates.dedup();
    crates.retain(|name| name != "iobufs_tokio_util");
    let also = strip::Also { left_out: &LEFT_OUT, is_tests: true, ..Default::default() };
    strip::write_crates(&crates, also, &top.join("crates"), to)?;
    let failing = strip::rust_of(FAILING, "failing", &[], true).map_err(|(_, why)| why)?;
    fs::write(to.join("failing.rs"), failing.replace("#[test]", "#[test] #[should_panic]")).map_err(|it| it.to_string())
}

fn main() -> Result<(), String> {
    let [here, to] = strip::folders();
    write(&here, &to)?;
    println!("cargo:rustc-env=ALLOCATION_TESTS={}", tests_below(&here.join("../../../crates").join(OF_ALLOCATIONS)));
    Ok(())
}

/// How many tests the sources of a folder have.
fn tests_below(folder: &Path) -> usize {
    let files = strip::files_below(folder).expect("the folder is read");
    files.iter().map(|file| fs::read_to_string(file).expect("the file is read").matches("#[test]\n").count()).sum()
}
