//! The text of the report program.

use crate::{require_capacity, Map, Refusal};

/// The longest input that the report program accepts, in bytes.
pub const MAX_INPUT: usize = 65_536;

/// What the report program prints for an input: six lines, or one for a refusal.
pub fn report_text(input: &[u8]) -> String {
    match open_input(input) {
        Ok(map) => lines(&map),
        Err(refusal) => refused_line(refusal),
    }
}

/// That text, to the front of `text`. Refusal 12 where it does not fit. Answers its length.
pub fn report(input: &[u8], text: &mut [u8]) -> Result<u64, Refusal> {
    let line = report_text(input);
    require_capacity(line.len(), text.len())?;
    text[..line.len()].copy_from_slice(line.as_bytes());
    Ok(line.len() as u64)
}

fn open_input(input: &[u8]) -> Result<Map<'_>, Refusal> {
    require_capacity(input.len(), MAX_INPUT)?;
    Map::open(input)
}

fn lines(map: &Map) -> String {
    let summary = map.summary();
    format!(
        "slots {}\nfar {}\nstep {}\nindex {}\nsum {}\nreadings {}\n",
        summary.n,
        summary.k,
        summary.step,
        summary.m,
        summary.sum,
        map.readings()
    )
}

fn refused_line(refusal: Refusal) -> String {
    let Refusal { number, map, place } = refusal;
    format!("refused {number} map {map} place {place}\n")
}

#[cfg(test)]
mod tests {
    use super::*;
    use crate::encode;

    #[test]
    fn map_a() {
        let text = report_text(&encode(&[0, 254, 255, 300]).unwrap());
        assert_eq!(
            text,
            "slots 4\nfar 2\nstep 0\nindex 0\nsum 809\nreadings 3\n"
        );
    }

    #[test]
    fn refusals_are_text() {
        assert_eq!(report_text(&[]), "refused 1 map 1 place 0\n");
        assert_eq!(
            report_text(&[0; MAX_INPUT + 1]),
            "refused 12 map 0 place 0\n"
        );
        assert_eq!(report_text(&[0; MAX_INPUT]), "refused 2 map 1 place 0\n");
    }

    #[test]
    fn text_must_fit() {
        let mut text = [b'.'; 30];
        let refused = report(&[], &mut text[..23]);
        assert_eq!(refused, Err(Refusal::of_call(12, 0)));
        assert_eq!(text, [b'.'; 30]);
        assert_eq!(report(&[], &mut text), Ok(24));
        assert_eq!(&text, b"refused 1 map 1 place 0\n......");
    }
}
