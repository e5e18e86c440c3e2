//! The score that the scope prints in full.

#[test]
fn the_worked_example() {
    let score = "osc=vco\nhz=48000\nframes=1\nvoct=0\nfm=0\npw=500000\nsync=0\nfm_lin=-5000000\n";
    let printed = "n=0\nmark=clean\nsin=0000000000000000\ntri=C014000000000000\nsaw=C014000000000000\n\
                   sqr=4014000000000000\nbegun=1\nfinished=1\ncleared=0\nnotfinite=0\nlost=0\nsteered=0\nclaimed=yes\n";
    assert_eq!(program::render(score.as_bytes()), printed.as_bytes());
    #[cfg(quiver)]
    assert_eq!(reference::render(score.as_bytes()), printed.as_bytes());
}

/// The longest render: every frame is there, and the numbers at the end are of so many digits.
#[test]
fn as_many_frames_as_a_score_may_have() {
    let score = "osc=lfo\nhz=192000\nframes=480000\nrate=500000\ndepth=10000000\nreset=0\n";
    let printed = program::render(score.as_bytes());
    let end = "begun=480000\nfinished=480000\ncleared=0\nnotfinite=0\nlost=0\nsteered=0\nclaimed=yes\n";
    assert!(printed.ends_with(end.as_bytes()), "the render ends otherwise");
    let lines = printed.iter().filter(|&&byte| byte == b'\n').count();
    assert_eq!(lines, 480_000 * 8 + 7);
    #[cfg(quiver)]
    assert!(printed == reference::render(score.as_bytes()), "the reference prints another text");
    println!("{} bytes of {lines} lines", printed.len());
}
