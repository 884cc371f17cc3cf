// SPDX-License-Identifier: BSD-2-Clause-Patent
//! An example for Rust programs: lists the volumes of a flash image with their files and bytes of
//! data, and reports whether all of the volumes are canonical.
//!   cargo run --offline --manifest-path rust/Cargo.toml --example volumes IMAGE

use fv::header::Header;
use fv::volume::{Node, NodeKind};
use std::error::Error;
use std::io::{stdout, Write};
use std::process::ExitCode;

/// Returns the text about the files in the line of a volume.
fn files(image: &[u8], header: &Header) -> Result<String, fv::Error> {
    let nodes = fv::volume::tree(&image[header.range()])?;
    let is_file = |it: &&Node| it.kind() == NodeKind::File && it.parent() == Some(0);
    let lengths: Vec<usize> = nodes.iter().filter(is_file).map(Node::length).collect();
    let data: usize = lengths.iter().sum();
    Ok(format!("{} files, {data} bytes of data", lengths.len()))
}

/// Returns the text of the last line, which reports whether all volumes of the image are canonical.
fn verdict(image: &[u8]) -> Result<String, fv::Error> {
    let is_canonical = fv::image::normalise(image)? == image;
    Ok(if is_canonical { "canonical" } else { "not canonical" }.to_owned())
}

/// Returns the text of a result: its value, or the meaning of the fault.
fn text(result: Result<String, fv::Error>) -> String {
    result.unwrap_or_else(|error| match error.fault() {
        Some(fault) => fault.kind().to_string(),
        None => error.to_string(),
    })
}

fn run() -> Result<(), Box<dyn Error>> {
    let mut words = std::env::args_os().skip(1);
    let path = match (words.next(), words.next()) {
        (Some(path), None) => path,
        _ => return Err("usage: volumes IMAGE".into()),
    };
    let image = std::fs::read(&path).map_err(|_| format!("volumes: cannot read {}", path.to_string_lossy()))?;
    let headers = fv::image::scan(&image).map_err(|error| format!("volumes: {error}"))?;
    let mut out = stdout().lock();
    for header in &headers {
        writeln!(out, "volume at {}: {}", header.offset(), text(files(&image, header)))?;
    }
    writeln!(out, "{}", text(verdict(&image)))?;
    Ok(())
}

fn main() -> ExitCode {
    match run() {
        Ok(()) => ExitCode::SUCCESS,
        Err(why) => {
            eprintln!("{why}");
            ExitCode::from(2)
        }
    }
}
