//! What the pictures share: the colours of levels, text, and the frame of a picture.

use thikbromu::Finding;

/// The colours of the levels 1 to 3, and of none.
pub const LEVEL_COLOURS: [&str; 4] = ["#6aa84f", "#cc0000", "#e69138", "#f1c232"];
/// The colour of what is refused.
pub const REFUSED: &str = "#444444";
/// The colour of an outline where nothing is.
pub const OUTLINE: &str = "#bbbbbb";

/// The level that weighs most among findings: 1 before 2 before 3, and 0 where there are none.
pub fn strongest(findings: &[Finding]) -> u8 {
    findings.iter().map(Finding::level).min().unwrap_or(0)
}

/// Text in which no letter is taken for a part of the picture.
pub fn escaped(text: &str) -> String {
    let mut escaped = String::new();
    for letter in text.chars() {
        match letter {
            '&' => escaped += "&amp;",
            '<' => escaped += "&lt;",
            '>' => escaped += "&gt;",
            '"' => escaped += "&quot;",
            // Control characters may not stand in a picture at all.
            letter if letter.is_control() && letter != '\n' => escaped.push('\u{FFFD}'),
            letter => escaped.push(letter),
        }
    }
    escaped
}

/// A picture of this size around its parts.
pub fn picture(width: u32, height: u32, title: &str, parts: &str) -> String {
    format!(
        "<svg xmlns=\"http://www.w3.org/2000/svg\" viewBox=\"0 0 {width} {height}\" width=\"{width}\" height=\"{height}\" \
         font-family=\"sans-serif\" font-size=\"12\">\n<title>{}</title>\n\
         <rect width=\"{width}\" height=\"{height}\" fill=\"#ffffff\"/>\n{parts}</svg>\n",
        escaped(title)
    )
}

/// A line of text.
pub fn text(x: f64, y: f64, anchor: &str, words: &str) -> String {
    format!("<text x=\"{x:.1}\" y=\"{y:.1}\" text-anchor=\"{anchor}\">{}</text>\n", escaped(words))
}

/// A square or bar with a title.
pub fn bar(x: f64, y: f64, width: f64, height: f64, style: &str, title: &str) -> String {
    let title = escaped(title);
    format!("<rect x=\"{x:.1}\" y=\"{y:.1}\" width=\"{width:.1}\" height=\"{height:.1}\" {style}><title>{title}</title></rect>\n")
}
