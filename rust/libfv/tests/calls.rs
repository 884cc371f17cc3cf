// SPDX-License-Identifier: BSD-2-Clause-Patent
//! The ranges of rows, the texts of errors and GUIDs, the version of the library, and calls from
//! several threads.

use fv::depex::{evaluate, Phase};
use fv::{hobs, image, volume, Error, FaultKind, Guid};

/// Returns a volume of a file with two sections, and an empty volume.
fn volumes() -> (Vec<u8>, Vec<u8>) {
    include!("sample/volumes.rs")
}

#[test]
fn rows_have_the_ranges_of_their_bytes() {
    let (volume, empty) = volumes();
    let flash = [vec![0xff; 64], volume.clone(), empty].concat();
    let headers = image::scan(&flash).unwrap();
    let ranges: Vec<_> = headers.iter().map(|it| it.range()).collect();
    assert_eq!(ranges, [64..192, 192..320]);
    let checks = image::check(&flash).unwrap();
    assert!(checks.iter().map(|it| it.range()).eq(ranges));
    let cells = volume::cells(&volume).unwrap();
    assert!(cells.iter().map(|it| it.range()).eq([72..110, 112..128]));
    let nodes = volume::tree(&volume).unwrap();
    let ranges = nodes.iter().map(|it| it.range());
    assert!(ranges.eq([0..128, 96..110, 100..101, 108..110]));
    assert_ne!(headers[0], fv::header::read(&volume).unwrap());
    assert_eq!(headers.clone(), headers);
}

#[test]
fn digests_are_bytes_and_text() {
    // The output of `sha256sum` for the empty volume, which is its own image.
    let wanted = "fa2372b57e3223fafe321ef347cb77d4373819ad5abdea2446fff51d258ed758";
    let found = volume::digest(&volumes().1).unwrap();
    assert_eq!(found.to_string(), wanted);
    assert_eq!(format!("{found:?}"), format!("Digest({wanted})"));
    assert_eq!(<[u8; 32]>::from(found)[..], *found.as_ref());
    assert_eq!(found.to_bytes(), <[u8; 32]>::from(found));
}

#[test]
fn errors_say_what_they_mean() {
    let (_, empty) = volumes();
    let text = "the bytes end before the volume does (fault 1) at offset 9";
    let error = volume::normalise(&empty[..9]).unwrap_err();
    assert_eq!(error.to_string(), text);
    let error = volume::compare(&empty, &empty[..9]).unwrap_err();
    assert_eq!(error.to_string(), format!("second volume: {text}"));
    let error = evaluate(&[9], Phase::Dxe, &[]).unwrap_err();
    assert_eq!(error.fault().unwrap().kind(), FaultKind::DepexNoEnd);
    let text = error.to_string();
    assert!(text.ends_with(" (fault 0x204) at offset 1"), "{text}");
    let error = hobs::read(&[9]).unwrap_err();
    assert_eq!(error.fault().unwrap().kind(), FaultKind::HobShort);
    let error = volume::extract(&empty, 1).unwrap_err();
    assert_eq!((error, error.fault()), (Error::NoSuchRow, None));
    let error: Box<dyn std::error::Error + Send + Sync> = Box::new(error);
    assert!(!error.to_string().is_empty() && error.source().is_none());
}

#[test]
fn guids_are_displayed_and_parsed() {
    let guid = Guid::from_bytes_le([0, 1, 2, 3, 4, 5, 6, 7, 8, 9, 10, 11, 12, 13, 14, 15]);
    let text = "03020100-0504-0706-0809-0a0b0c0d0e0f";
    assert_eq!(guid.to_string(), text);
    assert_eq!(format!("{guid:?}"), format!("Guid({text})"));
    for text in [text.to_owned(), text.to_uppercase()] {
        assert_eq!(text.parse(), Ok(guid));
        let mut wrong = vec![format!("{{{text}}}"), format!("{text}0"), format!("{text}\0")];
        for (at, character) in text.char_indices() {
            let (before, after) = (&text[..at], &text[at + 1..]);
            let other = if character == '-' { "0" } else { "-" };
            wrong.extend(["", "g", "é", "00", "+", " ", "\0", other].map(|it| [before, it, after].concat()));
            wrong.push(before.to_owned());
        }
        for it in wrong {
            assert!(it.parse::<Guid>().is_err(), "{it}");
        }
    }
}

#[test]
fn threads_call_at_once() {
    let (volume, _) = volumes();
    let image = volume::normalise(&volume).unwrap();
    let (tree, digests) = (volume::tree(&volume), volume::tree_digests(&volume));
    std::thread::scope(|scope| {
        for _ in 0..4 {
            scope.spawn(|| {
                for _ in 0..200 {
                    assert_eq!(volume::normalise(&volume).as_deref(), Ok(&image[..]));
                    assert_eq!(volume::tree(&volume), tree);
                    assert_eq!(volume::tree_digests(&volume), digests);
                    assert_eq!(volume::extract(&volume, 3).as_deref(), Ok(&[1, 2][..]));
                }
            });
        }
    });
}

#[test]
fn the_library_has_the_version_of_the_crate() {
    assert_eq!(fv::version(), env!("CARGO_PKG_VERSION"));
    let [_, major, minor, patch] = fv::version_number().to_be_bytes();
    let text = format!("{major}.{minor}.{patch}");
    assert!(fv::version().starts_with(&text));
}
