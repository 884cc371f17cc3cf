// SPDX-License-Identifier: BSD-2-Clause-Patent
//! An example for Rust programs: lists the drivers and other files of a flash image, also those in
//! compressed sections. Each line has the type of a file (07 is a driver, 06 a PEIM) and its name, or
//! its GUID if it has no name. Files that are marked as fixed, as in images for ARM, are read without
//! their marks.
//!   cargo run --offline --manifest-path rust/Cargo.toml --example drivers IMAGE

use fv::volume::{Node, NodeKind};
use fv::{section, section_type, sections, volume, Reading};
use std::error::Error;
use std::io::{stdout, Write};
use std::process::ExitCode;

const PACKED: [u8; 2] = [section_type::COMPRESSION, section_type::GUID_DEFINED];
const MOST_OPEN: usize = 4;
const MOST_CONTENTS: usize = 1 << 26;

/// The lines that were found, and the last file if its line was not.
#[derive(Default)]
struct Lines {
    found: Vec<String>,
    last: Option<Node>,
}

impl Lines {
    /// Adds the line of the last file, if it has no name. Then remembers a file, if there is one.
    fn begin(&mut self, file: Option<&Node>) {
        if let Some(guid) = self.last.and_then(|it| it.guid()) {
            self.add(&guid.to_string());
        }
        self.last = file.copied();
    }

    /// Adds the line of the last file, with its name.
    fn add(&mut self, name: &str) {
        if let Some(kind) = self.last.take().and_then(|it| it.efi_type()) {
            self.found.push(format!("{kind:02x} {name}"));
        }
    }

    /// Adds the line of the last file, with the name in a section, whose characters have two bytes each.
    fn add_text(&mut self, text: &[u8]) {
        let units = text.chunks_exact(2).map(|it| u16::from_le_bytes([it[0], it[1]]));
        let name = units.take_while(|unit| *unit != 0).map(|unit| match unit {
            0x20..=0x7e => unit as u8 as char,
            _ => '?',
        });
        self.add(&name.collect::<String>());
    }

    /// Adds the files among the rows of a volume, or of a stream of sections, in these bytes.
    fn list(&mut self, rows: &[Node], bytes: &[u8], most_open: usize) {
        for row in rows {
            match (row.kind(), row.efi_type()) {
                (NodeKind::File, _) => self.begin(Some(row)),
                (NodeKind::Section, Some(section_type::USER_INTERFACE)) => self.add_text(&bytes[row.range()]),
                (NodeKind::Section, Some(kind)) if PACKED.contains(&kind) && most_open > 0 => {
                    let section = &bytes[row.range().start - row.header_length()..row.range().end];
                    // A section that cannot be opened, or that holds no sections, has no files.
                    let _ = self.open(section, most_open - 1);
                }
                _ => {}
            }
        }
    }

    /// Adds the files in the contents of a packed section.
    fn open(&mut self, section: &[u8], most_open: usize) -> Result<(), fv::Error> {
        let contents = section::open(section, MOST_CONTENTS)?.into_contents();
        self.list(
            &sections::tree_with(&contents, Reading::WithoutMarks)?,
            &contents,
            most_open,
        );
        Ok(())
    }
}

fn run() -> Result<(), Box<dyn Error>> {
    let mut words = std::env::args_os().skip(1);
    let path = match (words.next(), words.next()) {
        (Some(path), None) => path,
        _ => return Err("usage: drivers IMAGE".into()),
    };
    let image = std::fs::read(path)?;
    let mut lines = Lines::default();
    for header in fv::image::scan(&image)? {
        let bytes = &image[header.range()];
        if let Ok(rows) = volume::tree_with(bytes, Reading::WithoutMarks) {
            lines.list(&rows, bytes, MOST_OPEN);
        }
    }
    lines.begin(None);
    let mut out = stdout().lock();
    for line in lines.found {
        writeln!(out, "{line}")?;
    }
    Ok(())
}

fn main() -> ExitCode {
    match run() {
        Ok(()) => ExitCode::SUCCESS,
        Err(error) => {
            eprintln!("{error}");
            ExitCode::from(2)
        }
    }
}
