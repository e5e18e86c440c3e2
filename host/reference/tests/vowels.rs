//! Finite vowels, two by turns, spoil a FormantOsc: the frames of the gallery's pictures. `compare` holds the same of the Rust (`moving_vowel`).

/// The first frame of 5 V, to which the sum is clamped, and the first that is notfinite. The first frame of all is 0.
const CLAMPED: usize = 166;
const SPOILED: usize = 19_627;

/// Each frame's lines.
fn frames_of(name: &str) -> Vec<String> {
    let text = frames::text(name).unwrap().unwrap();
    let (frames, _) = text.split_once("begun=").unwrap();
    frames.split_inclusive('\n').collect::<Vec<_>>().chunks(3).map(|lines| lines.concat()).collect()
}

#[test]
fn when_they_clip_and_when_they_are_spoiled() {
    let all = frames_of("vowels");
    assert_eq!(all.len(), 20_000);
    let clamped =
        |frame: &String| frame.ends_with("out=4014000000000000\n") || frame.ends_with("out=C014000000000000\n");
    assert_eq!(all.iter().position(clamped), Some(CLAMPED));
    for (n, frame) in all.iter().enumerate() {
        assert_eq!(frame.contains("mark=notfinite\n"), n >= SPOILED, "{frame}");
        assert!(n >= SPOILED || frame.contains("mark=clean\n"), "{frame}");
    }
    assert_eq!(frames_of("vowels_begin"), all[..480]);
}
