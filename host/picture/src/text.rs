//! The text that `render` prints, read.

/// A render: one name and one wave for each output.
pub struct Render {
    pub outputs: Vec<(String, Vec<f64>)>,
    /// The mark of each frame.
    pub marks: Vec<String>,
    /// The lines at the end, as they stand: begun to claimed.
    pub end: Vec<String>,
}

const MARKS: [&str; 5] = ["clean", "cleared", "notfinite", "lost", "steered"];
/// The lines at the end, by their keys.
const END: [&str; 7] = ["begun", "finished", "cleared", "notfinite", "lost", "steered", "claimed"];

/// Reads the whole text. Every frame must have the outputs of the first, in their order.
pub fn read(text: &str) -> Result<Render, String> {
    if let Some(number) = text.strip_prefix("refused=") {
        return Err(format!("the score was refused by {}: there is nothing to draw", number.trim_end()));
    }
    let mut lines = Lines { lines: text.lines(), number: 0 };
    let (mut outputs, mut marks): (Vec<(String, Vec<f64>)>, _) = (vec![], vec![]);
    let (mut key, mut value) = lines.next()?;
    while key == "n" {
        if value != marks.len().to_string() {
            return Err(lines.wrong("isn't the next frame"));
        }
        let mark = lines.keyed("mark")?;
        if !MARKS.contains(&mark) {
            return Err(lines.wrong("isn't the line of a mark"));
        }
        marks.push(mark.to_owned());
        (key, value) = lines.next()?;
        let mut port = 0;
        while key != "n" && key != END[0] {
            if marks.len() == 1 {
                outputs.push((key.to_owned(), vec![]));
            }
            match outputs.get_mut(port) {
                Some((name, wave)) if name == key => wave.push(lines.sample(value)?),
                _ => return Err(lines.wrong("isn't the output that is due")),
            }
            port += 1;
            (key, value) = lines.next()?;
        }
        if port == 0 || port < outputs.len() {
            return Err(lines.wrong("comes before a frame's last output"));
        }
    }
    if key != END[0] || marks.is_empty() {
        return Err(lines.wrong("isn't the first line of a frame"));
    }
    let mut end = vec![format!("{key}={value}")];
    for key in &END[1..] {
        end.push(format!("{key}={}", lines.keyed(key)?));
    }
    Ok(Render { outputs, marks, end })
}

struct Lines<'a> {
    lines: std::str::Lines<'a>,
    /// The line that was read last, from 1.
    number: usize,
}

impl<'a> Lines<'a> {
    /// The next line's key and value. Words of letters, digits and `_` alone, so that a picture can hold them as they are.
    fn next(&mut self) -> Result<(&'a str, &'a str), String> {
        self.number += 1;
        let word = |s: &str| !s.is_empty() && s.bytes().all(|byte| byte.is_ascii_alphanumeric() || byte == b'_');
        match self.lines.next().map(|line| line.split_once('=')) {
            Some(Some((key, value))) if word(key) && word(value) => Ok((key, value)),
            Some(_) => Err(self.wrong("isn't a key, an equals sign and a value")),
            None => Err(format!("the text ends before line {}", self.number)),
        }
    }

    fn keyed(&mut self, wanted: &str) -> Result<&'a str, String> {
        match self.next()? {
            (key, value) if key == wanted => Ok(value),
            _ => Err(self.wrong(&format!("isn't the line of {wanted}"))),
        }
    }

    /// The number whose bits are written.
    fn sample(&self, value: &str) -> Result<f64, String> {
        match u64::from_str_radix(value, 16) {
            Ok(bits) if value.len() == 16 => Ok(f64::from_bits(bits)),
            _ => Err(self.wrong("isn't a sample of 16 digits")),
        }
    }

    fn wrong(&self, what: &str) -> String {
        format!("line {} {what}", self.number)
    }
}
