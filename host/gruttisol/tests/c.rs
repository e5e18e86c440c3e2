//! The header for C says what the archive has: the example is compiled with it, linked with nothing else, and run.
use std::path::Path;
use std::process::Command;

#[test]
fn the_example_shows_what_is_finished() {
    let c = Path::new(env!("CARGO_MANIFEST_DIR")).join("../c");
    let example = Path::new(env!("CARGO_TARGET_TMPDIR")).join("example");
    let built = Command::new("cc")
        .args(["-std=c99", "-Wall", "-Wextra", "-Werror", "-pedantic", "-I"])
        .arg(&c)
        .arg(c.join("example.c"))
        .arg(Path::new(env!("OUT_DIR")).join("libgruttisol.a"))
        .arg("-o")
        .arg(&example)
        .status()
        .unwrap();
    assert!(built.success());
    let ran = Command::new(&example).output().unwrap();
    assert!(ran.status.success());
    assert_eq!(
        String::from_utf8(ran.stdout).unwrap(),
        "begun=480 finished=480 cleared=0 notfinite=0 lost=0 steered=0 claimed=yes, clean up to sample 480\n\
         begun=480 finished=0 cleared=0 notfinite=480 lost=0 steered=0 claimed=no, clean up to sample 0\n\
         a string at 192000 Hz, of a line of 9612 cells, as bright as 0.5: clean\n\
         a string at 192000 Hz, of a line of 9612 cells, as bright as nan: steered\n\
         a string at inf Hz, of a line of 0 cells, as bright as 0.5: refused\n\
         noise of 480 samples and 2872 draws: refused=0 begun=480 finished=480\n\
         noise of 480 samples and 2871 draws: refused=5 begun=0 finished=0\n\
         an lfo of 480 samples, 10 V deep: 14 turns, the last ends with sample 466, finished=480\n\
         an lfo of 480 samples, 0 V deep: 14 turns, the last ends with sample 466, finished=480\n\
         a gate of 1.5 V over a threshold of 2.5 V: clean, and the turn goes on\n\
         a gate of 1.5 V over a threshold of 1 V: clean, and the turn starts anew\n\
         a threshold of 2 V: refused=2\n\
         a rate of 999.5 Hz: refused=1\n\
         a score: lfo, 48000 Hz, frames=480, gate=0, first input 0.5 V\n\
         a score: refused=21\n\
         another score, of 63 bytes:\n\
         osc=lfo\nhz=48000\nframes=480\nrate=500000\ndepth=-2500000\nreset=0\n\
         another score, of 65 bytes:\n\
         osc=lfo\nhz=48000\ngate=2\nframes=480\nrate=500000\ndepth=nan\nreset=0\n\
         another score: refused=23\n\
         another score: refused=23\n"
    );
}
