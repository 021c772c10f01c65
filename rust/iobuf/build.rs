//! Writes the Rust of the proved program, and of the crates that it uses, for `src/main.rs`.
use std::path::Path;

pub fn write(here: &Path, to: &Path) -> Result<(), String> {
    let top = here.join("../..");
    strip::write_crates(&strip::crates_of("iobuf", &top)?, strip::Also::default(), &top.join("crates"), to)
}

fn main() -> Result<(), String> {
    let [here, to] = strip::folders();
    write(&here, &to)
}
