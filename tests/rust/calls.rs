// SPDX-License-Identifier: BSD-2-Clause-Patent
//! Makes calls of the crate, so that `test_rust.py` can compare their results with the results of
//! the package for Python. Each line of standard input is the name of a call and its arguments: bytes
//! as digits, a number, or PEI. For each line this program writes the result in the form of `Debug`.

use fv::depex::{evaluate, Phase};
use fv::{header, hobs, image, section, sections, variables, volume, Error, Guid, Reading};
use std::fmt::Debug;
use std::io::{stdin, stdout, BufWriter, Write};

/// The reading that takes the marks of fixed files away.
const UNMARKED: Reading = Reading::WithoutMarks;

/// Returns the bytes that digits spell.
fn bytes(digits: &str) -> Vec<u8> {
    let byte = |at| u8::from_str_radix(&digits[at..at + 2], 16).expect("digits");
    (0..digits.len()).step_by(2).map(byte).collect()
}

/// Returns the GUIDs that digits spell.
fn guids(digits: &str) -> Vec<Guid> {
    let guid = |it: &[u8]| Guid::from_bytes_le(it.try_into().expect("16 bytes"));
    bytes(digits).chunks(16).map(guid).collect()
}

/// Returns the text of a result.
fn shown<T: Debug>(result: Result<T, Error>) -> String {
    format!("{result:?}")
}

/// Returns the number that digits spell.
fn number(digits: &str) -> usize {
    digits.parse().expect("a number")
}

/// Returns the text of the result of a call.
fn result_of(call: &str, words: &[&str]) -> String {
    let input = &bytes(words[0])[..];
    match (call, &words[1..]) {
        ("header_read", []) => shown(header::read(input)),
        ("image_scan", []) => shown(image::scan(input)),
        ("image_check", []) => shown(image::check(input)),
        ("image_normalise", []) => shown(image::normalise(input)),
        ("image_survey", []) => shown(image::survey(input)),
        ("volume_is_canonical", []) => shown(volume::is_canonical(input)),
        ("volume_normalise", []) => shown(volume::normalise(input)),
        ("volume_unfix", []) => shown(volume::unfix(input)),
        ("volume_digest", []) => shown(volume::digest(input)),
        ("volume_compare", [other]) => shown(volume::compare(input, &bytes(other))),
        ("volume_cells", []) => shown(volume::cells(input)),
        ("volume_tree", []) => shown(volume::tree(input)),
        ("volume_tree_digests", []) => shown(volume::tree_digests(input)),
        ("volume_extract", [row]) => shown(volume::extract(input, number(row))),
        ("volume_tree", ["unmarked"]) => shown(volume::tree_with(input, UNMARKED)),
        ("volume_tree_digests", ["unmarked"]) => shown(volume::tree_digests_with(input, UNMARKED)),
        ("volume_extract", [row, "unmarked"]) => {
            shown(volume::extract_with(input, number(row), UNMARKED))
        }
        ("section_way", []) => shown(section::way(input)),
        ("section_open", [limit]) => shown(section::open(input, number(limit))),
        ("image_same", [other, limit]) => shown(image::same(input, &bytes(other), number(limit))),
        ("image_open", [limit]) => shown(image::open(input, number(limit))),
        ("sections_survey", []) => shown(sections::survey(input)),
        ("sections_tree", []) => shown(sections::tree(input)),
        ("sections_tree_digests", []) => shown(sections::tree_digests(input)),
        ("sections_extract", [row]) => shown(sections::extract(input, number(row))),
        ("sections_tree", ["unmarked"]) => shown(sections::tree_with(input, UNMARKED)),
        ("sections_tree_digests", ["unmarked"]) => {
            shown(sections::tree_digests_with(input, UNMARKED))
        }
        ("sections_extract", [row, "unmarked"]) => {
            shown(sections::extract_with(input, number(row), UNMARKED))
        }
        ("depex_evaluate", ["PEI", names]) => shown(evaluate(input, Phase::Pei, &guids(names))),
        ("depex_evaluate", ["DXE", names]) => shown(evaluate(input, Phase::Dxe, &guids(names))),
        ("hobs_read", []) => shown(hobs::read(input)),
        ("signatures_read", []) => shown(variables::signatures(input)),
        ("variables_read", []) => shown(variables::read(input)),
        _ => panic!("{call}"),
    }
}

fn main() -> std::io::Result<()> {
    let mut out = BufWriter::new(stdout().lock());
    for line in stdin().lines() {
        let line = line?;
        let words: Vec<&str> = line.split(' ').collect();
        writeln!(out, "{}", result_of(words[0], &words[1..]))?;
    }
    out.flush()
}
