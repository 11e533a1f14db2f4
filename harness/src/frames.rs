//! The framing of sections: a component's sections one by one, and a section's content.

/// What stands before a component's sections: magic number, version and layer.
pub const HEADER: [u8; 8] = [0x00, 0x61, 0x73, 0x6d, 0x0d, 0x00, 0x01, 0x00];

/// A section's id, what its size counts (the content), and the bytes after it; nothing where the section is not whole.
fn first_section(bytes: &[u8]) -> Option<(u8, &[u8], &[u8])> {
    let (id, rest) = bytes.split_first()?;
    let digits = 1 + rest.iter().take_while(|byte| **byte >= 0x80).count();
    let size = rest.get(..digits)?.iter().rev().fold(0, |size, digit| size << 7 | usize::from(digit & 0x7f));
    let (content, rest) = rest[digits..].split_at_checked(size)?;
    Some((*id, content, rest))
}

/// A finished section's content: count and body.
pub fn content(section: &[u8]) -> Option<&[u8]> {
    first_section(section).filter(|(.., rest)| rest.is_empty()).map(|(_, content, _)| content)
}

/// A finished section's body: its content without the count.
pub fn body(section: &[u8]) -> Option<&[u8]> {
    let content = content(section)?;
    content.get(1 + content.iter().take_while(|byte| **byte >= 0x80).count()..)
}

/// A component's sections, framing included.
pub fn sections(component: &[u8]) -> Option<Vec<&[u8]>> {
    let mut rest = component.strip_prefix(&HEADER)?;
    let mut sections = Vec::new();
    while !rest.is_empty() {
        let (.., after) = first_section(rest)?;
        sections.push(&rest[..rest.len() - after.len()]);
        rest = after;
    }
    Some(sections)
}

#[cfg(test)]
mod tests {
    use super::*;

    #[test]
    fn sections_are_taken_apart() {
        let long = [&[1, 0x82, 0x01], &[0; 130][..]].concat();
        let component = [&HEADER[..], &[7, 2, 1, 0x73], &long].concat();
        assert_eq!(sections(&component), Some(vec![&[7, 2, 1, 0x73][..], &long]));
        assert_eq!(content(&long), Some(&[0; 130][..]));
        assert_eq!(body(&[7, 2, 1, 0x73]), Some(&[0x73][..]));
    }

    #[test]
    fn broken_framing_is_none() {
        assert_eq!(content(&[7, 3, 1, 0x73]), None);
        assert_eq!(content(&[7, 1, 1, 0x73]), None);
        assert_eq!(content(&[7, 0x80]), None);
        assert_eq!(sections(&HEADER[1..]), None);
        assert_eq!(sections(&[&HEADER[..], &[7]].concat()), None);
    }
}
