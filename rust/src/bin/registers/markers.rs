//! Where registers stand in a document.

const BEGINNING: &str = "<!-- registers: ";
const CLOSING: &str = " -->";
const END: &str = "<!-- end -->";

/// The name in a line that begins a register.
fn name_in(line: &str) -> Option<&str> {
    line.strip_prefix(BEGINNING)?.strip_suffix(CLOSING)
}

/// The names of the registers that a document has a marker for.
#[cfg(test)]
pub fn names(text: &str) -> impl Iterator<Item = &str> {
    text.lines().filter_map(name_in)
}

/// The text with what stands between markers replaced, by the register's name and what stood there.
pub fn replaced<F>(text: &str, maker: F) -> Result<String, String>
where
    F: Fn(&str, &str) -> Result<String, String>,
{
    let mut made = String::new();
    let mut register: Option<(&str, String)> = None;
    for line in text.split_inclusive('\n') {
        let plain = line.trim_end_matches('\n');
        match (name_in(plain), plain == END, register.take()) {
            (Some(name), _, None) => {
                made += line;
                register = Some((name, String::new()));
            }
            (None, true, Some((name, content))) => {
                made += &maker(name, &content)?;
                made += line;
            }
            (None, false, Some((name, content))) => register = Some((name, content + line)),
            (None, false, None) => made += line,
            (Some(name), _, Some((before, _))) => {
                return Err(format!("{name} begins before {before} has ended"))
            }
            (None, true, None) => return Err("an end marker ends no register".to_string()),
        }
    }
    match register {
        None => Ok(made),
        Some((name, _)) => Err(format!("{name} has no end marker")),
    }
}
