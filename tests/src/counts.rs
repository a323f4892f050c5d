//! How many cases each comparison tries. The papers say these numbers, and a test holds them to it.

/// Sheets, and typed texts, through every job of the library.
pub const SHEETS: u64 = 100_000;
pub const TEXTS: u64 = 40_000;
/// Sheets at the limits, and as many texts.
pub const LIMITS: u64 = 80;
/// Sheets, and texts, read into tables.
pub const READ_SHEETS: u64 = 100_000;
pub const READ_TEXTS: u64 = 40_000;
/// Tables written.
pub const TABLES: u64 = 80_000;
/// Inputs of each program, and those with long lists of each that answers.
pub const RUNS: u64 = 1_500;
pub const LONG_LISTS: u64 = 8;
/// Smaller cases that are tried of one that fails, at most, and the seconds after which no further one is.
pub const SMALLER: u64 = 20_000;
pub const SHRINK_SECONDS: u64 = 20;

#[cfg(test)]
mod tests {
    use super::*;

    const README: &str = include_str!("../../README.md");
    const CLAIMS: &str = include_str!("../../docs/CLAIMS.md");
    const OWN: &str = include_str!("../README.md");

    /// A number as the papers have it, with commas.
    fn said(number: u64) -> String {
        let digits = number.to_string();
        let places = (1..=digits.len()).rev();
        let with_comma = digits.chars().zip(places).map(|(digit, place)| {
            let comma = if place % 3 == 1 && place > 1 { "," } else { "" };
            format!("{digit}{comma}")
        });
        with_comma.collect()
    }

    /// Whether a paper says this, wherever its lines end.
    fn says(paper: &str, text: &str) -> bool {
        let words: Vec<&str> = paper.split_whitespace().collect();
        words.join(" ").contains(text)
    }

    #[test]
    fn the_papers_say_these_numbers() {
        let [sheets, texts, limits, tables] = [SHEETS, TEXTS, LIMITS, TABLES].map(said);
        let [read_sheets, read_texts] = [READ_SHEETS, READ_TEXTS].map(said);
        let [runs, long] = [RUNS, LONG_LISTS].map(said);
        let [smaller, seconds] = [SMALLER, SHRINK_SECONDS].map(said);
        let library = format!("{sheets} sheets and {texts} typed texts");
        for paper in [README, CLAIMS] {
            let at_the_limits = format!("{library}, and {limits} of each at the limits");
            assert!(says(paper, &at_the_limits), "{at_the_limits}");
            let written = format!("{tables} tables");
            assert!(says(paper, &written), "{written}");
        }
        for text in [
            format!("every job of the library on {library}"),
            format!("on {limits} sheets and {limits} texts at the limits"),
            format!("| {read_sheets} sheets and {read_texts} texts, whole"),
            format!("| {tables} tables, right and damaged"),
            format!("| {runs} sheets or texts through each program, and {long} with long lists"),
            format!("At most {smaller} smaller cases are tried, and none after {seconds} seconds"),
        ] {
            assert!(says(OWN, &text), "{text}");
        }
    }

    #[test]
    fn numbers_with_commas() {
        let written = [7, 999, 1_000, 40_000, 1_234_567].map(said);
        assert_eq!(written, ["7", "999", "1,000", "40,000", "1,234,567"]);
    }
}
