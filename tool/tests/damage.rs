//! A shelf file damaged anywhere: it is never searched.

mod common;

use common::{scratch, tool};
use std::fs;

#[test]
fn every_byte_flipped_and_every_cut() {
    let folder = scratch("damage");
    let shelf = tool(&folder, &["--json", "build", "lab"], "usb\t1\t5\nusb\t9\t4\nclock\t9\t3\n").shelf();
    let path = folder.join(format!("lab/{shelf}.shelf"));
    let whole = fs::read(&path).unwrap();
    let flipped = (0..whole.len()).map(|place| {
        let mut bytes = whole.clone();
        bytes[place] ^= 1 << (place % 8);
        bytes
    });
    let cut = (0..whole.len()).map(|length| whole[..length].to_vec());
    let longer = [1, 2, 3].map(|tag| [&whole[..], &[tag]].concat());
    for bytes in flipped.chain(cut).chain(longer) {
        fs::write(&path, &bytes).unwrap();
        let run = tool(&folder, &["search", "lab", "usb"], "");
        assert_eq!((run.code, run.out.as_str()), (Some(1), ""), "{bytes:?}");
        assert!(run.err.contains("damaged"), "{}", run.err);
    }
    fs::write(&path, &whole).unwrap();
    assert_eq!(tool(&folder, &["search", "lab", "usb"], "").code, Some(0));
}

#[test]
fn every_byte_of_current_and_words_flipped() {
    let folder = scratch("damage-names");
    tool(&folder, &["--json", "build", "lab"], "usb\t1\t5\nclock\t9\t3\n").shelf();
    for name in ["current", "words"] {
        let path = folder.join("lab").join(name);
        let whole = fs::read(&path).unwrap();
        for place in 0..whole.len() {
            let mut bytes = whole.clone();
            bytes[place] ^= 1;
            fs::write(&path, &bytes).unwrap();
            let run = tool(&folder, &["search", "lab", "usb"], "");
            assert!(matches!(run.code, Some(1 | 2)), "{name} {place}: {}{}", run.out, run.err);
            assert_eq!(run.out, "");
        }
        fs::write(&path, &whole).unwrap();
    }
    assert_eq!(tool(&folder, &["search", "lab", "usb"], "").code, Some(0));
}
