//! The command-line tool `varnucht`: SAM Coupé disks in image files.
use std::process::ExitCode;

mod tool;

fn main() -> ExitCode {
    tool::run(std::env::args_os().skip(1).collect())
}
