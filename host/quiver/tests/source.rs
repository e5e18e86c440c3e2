//! A file that isn't quiver's at 74f0456287 is noticed, and so is one whose threshold can't be changed in one line.
#[path = "../source.rs"]
mod source;

use source::{is_it, sha256, with_threshold, FILES, OF_GATES};

/// The two examples of FIPS 180-4, nothing, and lengths around a block's.
#[test]
fn the_hash_is_the_standards() {
    assert_eq!(sha256(b""), "e3b0c44298fc1c149afbf4c8996fb92427ae41e4649b934ca495991b7852b855");
    assert_eq!(sha256(b"abc"), "ba7816bf8f01cfea414140de5dae2223b00361a396177a9cb410ff61f20015ad");
    assert_eq!(
        sha256(b"abcdbcdecdefdefgefghfghighijhijkijkljklmklmnlmnomnopnopq"),
        "248d6a61d20638b8e5c026930c3e6039a33ce45964ff2167f6ecedd419db06c1"
    );
    assert_eq!(sha256(&[b'a'; 55]), "9f4390f8d30c2dd92ec9f095b65e2b9ae9b0a925a5258e241c9f1e910f734318");
    assert_eq!(sha256(&[b'a'; 63]), "7d3e74a05d7db15bce4ad9ec0658ea98e3f06eeecf16b4c6fff2da457ddc2f34");
    assert_eq!(sha256(&[b'a'; 64]), "ffe054fe7ae0cb6dc65c3af9b61d5209f439851db43d0ba5997337df154668eb");
}

/// Another text under each name: the build would stop at it.
#[test]
fn another_file_is_refused() {
    for (name, hash) in FILES {
        assert!(!is_it(name.as_bytes(), hash), "{name}");
    }
}

const LINE: &str = "pub const GATE_THRESHOLD_V: f64 = 2.5;\n";

/// Every byte but the number's is what it was, other lines with the name or the number too.
#[test]
fn one_line_has_another_threshold() {
    let before = "// GATE_THRESHOLD_V is 2.5\npub const GATE_HIGH_V: f64 = 5.0;\r\n\n";
    let after = "if v > GATE_THRESHOLD_V && 2.5 <= v {}\n// no line feed at the end";
    for (before, after) in [(before, after), ("", after), (before, ""), ("", "")] {
        let changed = with_threshold(&[before, LINE, after].concat(), "1.0").unwrap();
        assert_eq!(changed, [before, "pub const GATE_THRESHOLD_V: f64 = 1.0;\n", after].concat());
    }
    assert!(FILES.iter().any(|&(name, _)| name == OF_GATES));
}

/// Where the line stands nowhere, twice or as a part of another, there is no such text, and the build would stop.
#[test]
fn a_line_that_does_not_stand_there_once() {
    let (upper, spaced) = (LINE.to_uppercase(), LINE.replace(" = ", "  = "));
    let (noted, inner) = (format!("// {LINE}"), format!("    {LINE}"));
    let (longer, other) = (LINE.replace(';', "0;"), LINE.replace("2.5", "1.0"));
    for text in ["", "\n", "GATE_THRESHOLD_V 2.5\n", &upper, &spaced, &noted, &inner, &longer, &other] {
        assert_eq!(with_threshold(text, "1.0"), None, "{text}");
    }
    for twice in [LINE.repeat(2), format!("{LINE}\n{LINE}"), format!("{LINE}{noted}"), format!("{inner}{LINE}")] {
        assert_eq!(with_threshold(&twice, "1.0"), None, "{twice}");
    }
}
