//! Text as words: names and numbers, strings, and single characters. Comments are left out.

/// The words of a text in C, Rust or Rattle.
pub fn words(text: &str) -> Vec<String> {
    let mut words = Vec::new();
    let mut rest = text;
    while let Some(first) = rest.chars().next() {
        let len = match first {
            _ if rest.starts_with("//") => rest.find('\n').unwrap_or(rest.len()),
            _ if rest.starts_with("/*") => rest.find("*/").map_or(rest.len(), |end| end + 2),
            '"' => string_len(rest),
            _ if is_name(first) => rest.find(|c| !is_name(c)).unwrap_or(rest.len()),
            _ => first.len_utf8(),
        };
        let (word, after) = rest.split_at(len);
        if !word.starts_with("//") && !word.starts_with("/*") && !word.trim().is_empty() {
            words.push(word.to_string());
        }
        rest = after;
    }
    words
}

fn is_name(c: char) -> bool {
    c.is_ascii_alphanumeric() || c == '_'
}

/// The length of the string at the front, quotes included.
fn string_len(text: &str) -> usize {
    let mut escaped = false;
    for (at, c) in text.char_indices().skip(1) {
        match c {
            '"' if !escaped => return at + 1,
            _ => escaped = c == '\\' && !escaped,
        }
    }
    text.len()
}

/// The place of the bracket that closes the one at `open`.
pub fn closing(words: &[String], open: usize) -> Option<usize> {
    let mut depth = 0usize;
    for (at, word) in words.iter().enumerate().skip(open) {
        match word.as_str() {
            "(" | "[" | "{" => depth += 1,
            ")" | "]" | "}" => depth -= 1,
            _ => (),
        }
        if depth == 0 {
            return Some(at);
        }
    }
    None
}

/// The items of a list: what stands between the separators that are in no bracket.
pub fn items<'a>(words: &'a [String], separator: &str) -> Vec<&'a [String]> {
    let mut items = Vec::new();
    let (mut start, mut depth) = (0, 0);
    for (at, word) in words.iter().enumerate() {
        match word.as_str() {
            "(" | "[" | "{" => depth += 1,
            ")" | "]" | "}" => depth -= 1,
            _ if depth == 0 && word == separator => {
                items.push(&words[start..at]);
                start = at + 1;
            }
            _ => (),
        }
    }
    items.push(&words[start..]);
    items.retain(|item| !item.is_empty());
    items
}

/// Words as one line, for messages.
pub fn line(words: &[String]) -> String {
    words.join(" ")
}

/// Words as text, for patterns.
pub fn strs(words: &[String]) -> Vec<&str> {
    words.iter().map(String::as_str).collect()
}

#[cfg(test)]
mod tests {
    use super::*;

    #[test]
    fn comments_and_spaces_are_no_words() {
        let text = "a /* b\n c */ *d; // e\n \"f\\\" // g\" h1_";
        assert_eq!(words(text), ["a", "*", "d", ";", "\"f\\\" // g\"", "h1_"]);
    }

    #[test]
    fn commas_in_brackets_do_not_separate() {
        let words = words("a: [u8, 2], b: (c, d),");
        let items: Vec<String> = items(&words, ",").into_iter().map(line).collect();
        assert_eq!(items, ["a : [ u8 , 2 ]", "b : ( c , d )"]);
    }
}
