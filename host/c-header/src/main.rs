//! Writes the generated part of include/ospf.h anew.

use std::fs;
use std::process::ExitCode;

fn main() -> ExitCode {
    let path = c_header::path();
    let header = fs::read_to_string(&path).expect("include/ospf.h");
    match c_header::renewed(&header) {
        Some(renewed) => {
            fs::write(&path, renewed).expect("include/ospf.h can be written");
            ExitCode::SUCCESS
        }
        None => {
            eprintln!("include/ospf.h lacks a line that begins or ends its generated part");
            ExitCode::FAILURE
        }
    }
}
