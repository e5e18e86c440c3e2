//! A render's waveforms as a picture, drawn from the text that the program `render` prints.
mod draw;
mod text;

/// The least and the most frames a second that a score can have.
const HZ: (u32, u32) = (1000, 192_000);

/// The picture, as SVG, of a render with `hz` frames a second, which its text doesn't say. The error says why there is none.
pub fn svg(text: &str, hz: u32) -> Result<String, String> {
    let (least, most) = HZ;
    if hz < least || hz > most {
        return Err(format!("{hz} Hz isn't the rate of a score, which is from {least} to {most}"));
    }
    Ok(draw::svg(&text::read(text)?, hz))
}
