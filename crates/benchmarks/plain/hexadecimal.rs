//! Hexadecimal text: digits with marks and gaps, or the columns of `xxd`, `hexdump -C` and Wireshark.

#[derive(Debug)]
pub struct HexFault {
    pub line: usize,
    pub column: usize,
}

#[derive(Clone, Copy, PartialEq, Eq)]
enum Form {
    Plain,
    Colons,
    Spaces,
}

fn digit(c: u8) -> Option<u8> {
    match c {
        b'0'..=b'9' => Some(c - b'0'),
        b'a'..=b'f' => Some(c - b'a' + 10),
        b'A'..=b'F' => Some(c - b'A' + 10),
        _ => None,
    }
}

fn form_of(text: &[u8]) -> Form {
    let zeros = text.iter().take_while(|it| **it == b'0').count();
    match &text[zeros..] {
        [b':', ..] if zeros >= 4 => Form::Colons,
        [b' ', b' ', ..] if zeros >= 4 => Form::Spaces,
        _ => Form::Plain,
    }
}

/// What is left of a line after its offset.
fn after_offset(text: &[u8]) -> &[u8] {
    let digits = text.iter().take_while(|it| digit(**it).is_some()).count();
    if digits < 4 {
        return text;
    }
    let rest = &text[digits..];
    let rest = rest.strip_prefix(b":").unwrap_or(rest);
    &rest[rest.iter().take_while(|it| **it == b' ').count()..]
}

fn has_characters(form: Form, text: &[u8]) -> bool {
    match form {
        Form::Plain => false,
        Form::Colons => text.starts_with(b"  "),
        Form::Spaces => text.starts_with(b"|") || text.starts_with(b"   "),
    }
}

fn fault_at(before: &[u8]) -> HexFault {
    let line = 1 + before.iter().filter(|it| **it == b'\n').count();
    let column = 1 + before.iter().rev().take_while(|it| **it != b'\n').count();
    HexFault { line, column }
}

pub fn read(text: &[u8]) -> Result<Vec<u8>, HexFault> {
    let form = form_of(text);
    let in_line = |text| if form == Form::Plain { text } else { after_offset(text) };
    let mut bytes = Vec::new();
    let mut rest = in_line(text);
    loop {
        rest = match rest {
            [] => break,
            _ if has_characters(form, rest) => {
                &rest[rest[1..].iter().position(|it| *it == b'\n').map_or(rest.len(), |it| it + 1)..]
            }
            [b'\n', more @ ..] => in_line(more),
            [b'\t' | b'\r' | b' ' | b',', more @ ..] => more,
            [b'0' | b'\\', b'x', more @ ..] => more,
            [high, low, more @ ..] => match (digit(*high), digit(*low)) {
                (Some(high), Some(low)) => {
                    bytes.push(high << 4 | low);
                    more
                }
                _ => break,
            },
            _ => break,
        };
    }
    if rest.is_empty() && !bytes.is_empty() {
        return Ok(bytes);
    }
    Err(fault_at(&text[..text.len() - rest.len()]))
}
