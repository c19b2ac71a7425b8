//! Examples on a page: lines that are indented by four, or that stand between fences.

const INDENT: &str = "    ";
const FENCE: &str = "```";

/// The indented example that begins with this line, without the indent and blank lines at its end.
pub fn indented(page: &str, first: &str) -> String {
    let mut lines = page.lines();
    let line = lines.find(|line| line.strip_prefix(INDENT) == Some(first));
    let mut text = line.expect(first)[INDENT.len()..].to_string();
    for line in lines.take_while(|line| line.is_empty() || line.starts_with(INDENT)) {
        text += "\n";
        text += line.strip_prefix(INDENT).unwrap_or_default();
    }
    text.trim_end().to_string() + "\n"
}

/// The example between fences that begins with this line, just as it stands.
pub fn fenced(page: &str, first: &str) -> String {
    let begin = format!("{FENCE}\n{first}\n");
    let place = page.find(&begin).expect(first);
    let text = &page[place + FENCE.len() + 1..];
    text[..text.find(FENCE).expect("its end")].to_string()
}
