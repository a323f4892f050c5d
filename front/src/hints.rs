//! Hints for what happens when sheets and texts are typed by hand: each is a test of the input and
//! the words that are said if it applies. A test looks at the line of the refusal, or at a beginning
//! that no input has which is taken; so what it finds is a cause of the refusal.

use crate::listing;
use crate::options::Form;
use crate::spot::{Spot, LINE};

/// An input that is refused, and where.
pub struct Refused<'a> {
    pub input: &'a [u8],
    pub form: Form,
    pub spot: Option<Spot<'a>>,
}

struct Hint {
    applies: fn(&Refused) -> bool,
    words: &'static str,
}

const HINTS: [Hint; 12] = [
    Hint {
        applies: is_text_for_sheet,
        words: "This looks like a typed text, and is taken as a sheet: \
                use --typed, or let the file's name end in .text.",
    },
    Hint {
        applies: is_sheet_for_text,
        words: "This looks like a planning sheet, and is taken as a typed text, \
                by --typed, --as-sheet or a name that ends in .text: use --sheet instead.",
    },
    Hint {
        applies: has_byte_order_mark,
        words: "It begins with a byte order mark: save it as plain text \
                (ASCII, or UTF-8 without a byte order mark).",
    },
    Hint {
        applies: ends_in_cr_lf,
        words: "The line ends in CR LF (\\r and a line feed), as Windows writes it: \
                save the file with the line ends of Unix, LF alone.",
    },
    Hint {
        applies: has_cr,
        words: "The line ends in CR (\\r), as old Macs write it: \
                save the file with the line ends of Unix, LF alone.",
    },
    Hint {
        applies: has_tab,
        words: "There is a tab (\\t) in this line: type spaces instead.",
    },
    Hint {
        applies: has_other_characters,
        words: "There is a character in this line that is not plain ASCII, such as a long dash or \
                a fixed space: type a plain one instead.",
    },
    Hint {
        applies: is_blank,
        words: "The line is blank: delete it.",
    },
    Hint {
        applies: has_no_last_line_feed,
        words: "The last line has no line feed at its end: press Enter there, and save.",
    },
    Hint {
        applies: has_three_numbers,
        words: "Lines of 17 bytes are the form before weights: each line has a fourth number of \
                five columns now. On a W line it is the weight, 1 to 999, and on every other 0.",
    },
    Hint {
        applies: has_small_letter,
        words: "The letters of a sheet are capitals: H, N, A, O, R, W and Z.",
    },
    Hint {
        applies: has_capital,
        words: "A typed text has small letters only: switches, faults, rule, wish, weight, s1, f1.",
    },
];

/// The words of all hints that apply.
pub fn hints<'a>(refused: &'a Refused) -> impl Iterator<Item = &'static str> + 'a {
    HINTS
        .iter()
        .filter(|hint| (hint.applies)(refused))
        .map(|hint| hint.words)
}

/// Those of UTF-8 and of UTF-16.
const BYTE_ORDER_MARKS: [&[u8]; 3] = [b"\xef\xbb\xbf", b"\xff\xfe", b"\xfe\xff"];
const CARRIAGE_RETURN: u8 = b'\r';
const TAB: u8 = b'\t';
/// What a typed text begins with.
const SWITCHES: &[u8] = b"switches";
/// The letters of a sheet, as they are typed by mistake.
const SMALL_LETTERS: &[u8] = b"hnaorwz";
/// The numbers of a line before there were weights.
const NUMBERS_BEFORE: usize = 3;

fn without_mark(bytes: &[u8]) -> &[u8] {
    let mark = |mark: &&[u8]| bytes.strip_prefix(*mark);
    BYTE_ORDER_MARKS.iter().find_map(mark).unwrap_or(bytes)
}

/// The line at fault; empty if none is.
fn line<'a>(refused: &Refused<'a>) -> &'a [u8] {
    refused.spot.as_ref().map_or(b"", |spot| spot.bytes)
}

fn has_byte_order_mark(refused: &Refused) -> bool {
    without_mark(refused.input) != refused.input
}

fn is_text_for_sheet(refused: &Refused) -> bool {
    let begin = without_mark(refused.input).get(..SWITCHES.len());
    refused.form == Form::Sheet && begin.is_some_and(|word| word.eq_ignore_ascii_case(SWITCHES))
}

/// Its first line is like `H    3    3    0    0`.
fn is_sheet_for_text(refused: &Refused) -> bool {
    let is_head = match without_mark(refused.input) {
        [b'H' | b'h', next, ..] => is_before_number(*next),
        _ => false,
    };
    refused.form == Form::Text && is_head
}

/// Whether this byte may stand after a sheet's letter.
fn is_before_number(byte: u8) -> bool {
    matches!(byte, b' ' | TAB | b'-' | b'0'..=b'9')
}

fn ends_in_cr_lf(refused: &Refused) -> bool {
    let is_ended = refused.spot.as_ref().is_some_and(|spot| spot.is_ended);
    is_ended && line(refused).ends_with(&[CARRIAGE_RETURN])
}

fn has_cr(refused: &Refused) -> bool {
    !ends_in_cr_lf(refused) && line(refused).contains(&CARRIAGE_RETURN)
}

fn has_tab(refused: &Refused) -> bool {
    line(refused).contains(&TAB)
}

fn has_other_characters(refused: &Refused) -> bool {
    !without_mark(line(refused)).is_ascii()
}

fn is_blank(refused: &Refused) -> bool {
    let spot = refused.spot.as_ref();
    spot.is_some_and(|spot| {
        let is_line = spot.is_ended || !spot.bytes.is_empty();
        is_line && spot.bytes.trim_ascii().is_empty()
    })
}

/// Of a sheet, its last line is whole but for the line feed; a text ends within a line.
fn has_no_last_line_feed(refused: &Refused) -> bool {
    let spot = refused.spot.as_ref();
    spot.is_some_and(|spot| {
        let n = spot.bytes.len();
        spot.is_at_end() && n > 0 && (refused.form == Form::Text || n == LINE - 1)
    })
}

fn has_three_numbers(refused: &Refused) -> bool {
    let line = listing::line(line(refused));
    refused.form == Form::Sheet && line.is_some_and(|line| line.numbers.len() == NUMBERS_BEFORE)
}

fn has_small_letter(refused: &Refused) -> bool {
    let is_small = match line(refused) {
        [letter, next, ..] => SMALL_LETTERS.contains(letter) && is_before_number(*next),
        _ => false,
    };
    refused.form == Form::Sheet && is_small
}

fn has_capital(refused: &Refused) -> bool {
    let byte = refused.spot.as_ref().and_then(Spot::byte);
    let is_capital = byte.is_some_and(|byte| byte.is_ascii_uppercase());
    refused.form == Form::Text && is_capital && !is_sheet_for_text(refused)
}

#[cfg(test)]
mod tests {
    use super::*;
    use comzsered::read;

    /// The beginnings of the hints that are given for an input that the library refuses.
    fn given(form: Form, input: &[u8]) -> Vec<&'static str> {
        let refusal = read(form.input(input)).unwrap_err();
        let spot = Spot::of(input, &refusal);
        let refused = Refused { input, form, spot };
        let all: Vec<&str> = hints(&refused).collect();
        let begin = |words: &'static str| &words[..words.find([':', ',']).unwrap()];
        all.into_iter().map(begin).collect()
    }

    fn of_sheet(input: &str) -> Vec<&'static str> {
        given(Form::Sheet, input.as_bytes())
    }

    fn of_text(input: &str) -> Vec<&'static str> {
        given(Form::Text, input.as_bytes())
    }

    const SHEET: &str = "\
H    1    0    0    0
R    1    0    0    0
W   -1    0    0    1
Z    3    0    0    0
";
    /// The form before weights.
    const OF_17: &str = "H    1    0    0\nR    1    0    0\nW   -1    0    0\nZ    3    0    0\n";
    const TEXT: &str = "switches 1\nfaults 0\nrule s1\nwish !s1\n";

    const TYPED_TEXT: &str = "This looks like a typed text";
    const PLANNING_SHEET: &str = "This looks like a planning sheet";
    const MARK: &str = "It begins with a byte order mark";
    const CR_LF: &str = "The line ends in CR LF (\\r and a line feed)";
    const CR: &str = "The line ends in CR (\\r)";
    const TABS: &str = "There is a tab (\\t) in this line";
    const OTHER: &str = "There is a character in this line that is not plain ASCII";
    const BLANK: &str = "The line is blank";
    const NO_LINE_FEED: &str = "The last line has no line feed at its end";
    const BEFORE: &str = "Lines of 17 bytes are the form before weights";
    const CAPITALS: &str = "The letters of a sheet are capitals";
    const SMALL: &str = "A typed text has small letters only";

    #[test]
    fn the_other_form() {
        assert_eq!(of_sheet(TEXT), [TYPED_TEXT]);
        assert_eq!(of_sheet("Switches 1\n"), [TYPED_TEXT]);
        assert_eq!(of_text(SHEET), [PLANNING_SHEET]);
        // Longer than any sheet, and longer than any text.
        assert_eq!(of_sheet(&TEXT.repeat(500)), [TYPED_TEXT]);
        assert_eq!(of_text(&SHEET.repeat(500)), [PLANNING_SHEET]);
        // As long as a line, and so not refused for its length.
        assert_eq!(of_sheet(&TEXT[..LINE]), [TYPED_TEXT]);
    }

    #[test]
    fn byte_order_marks() {
        assert_eq!(of_sheet(&format!("\u{feff}{SHEET}")), [MARK]);
        assert_eq!(of_text(&format!("\u{feff}{TEXT}")), [MARK]);
        for mark in [b"\xff\xfe", b"\xfe\xff"] {
            assert_eq!(given(Form::Text, mark), [MARK]);
        }
        assert_eq!(of_sheet(&format!("\u{feff}{TEXT}")), [TYPED_TEXT, MARK]);
    }

    #[test]
    fn line_ends() {
        assert_eq!(of_sheet(&SHEET.replace('\n', "\r\n")), [CR_LF]);
        assert_eq!(of_text(&TEXT.replace('\n', "\r\n")), [CR_LF]);
        assert_eq!(of_sheet(&SHEET.replace('\n', "\r")), [CR]);
        assert_eq!(of_text(&TEXT.replace('\n', "\r")), [CR]);
        // In some line, and as the last byte.
        assert_eq!(of_text("switches 1\nfaults 0\r\nrule s1\n"), [CR_LF]);
        assert_eq!(
            of_sheet("H    1    0    0    0\nZ    1    0    0    0\r"),
            [CR]
        );
    }

    #[test]
    fn tabs() {
        assert_eq!(of_sheet(&SHEET.replace("    ", "\t")), [TABS]);
        // One for a space, so that the length is right.
        assert_eq!(of_sheet(&SHEET.replace("R ", "R\t")), [TABS]);
        assert_eq!(of_text(&TEXT.replace("rule ", "rule\t")), [TABS]);
    }

    #[test]
    fn other_characters() {
        assert_eq!(of_sheet(&SHEET.replace('-', "–")), [OTHER]);
        assert_eq!(of_text(&TEXT.replace("rule ", "rule\u{a0}")), [OTHER]);
    }

    #[test]
    fn blank_lines() {
        assert_eq!(of_sheet(&format!("{SHEET}\n")), [BLANK]);
        assert_eq!(of_text(&format!("{TEXT}\n")), [BLANK]);
        assert_eq!(of_sheet(&format!("{SHEET}   ")), [BLANK]);
        assert_eq!(of_sheet(&SHEET.replace("W ", "\nW ")), [BLANK]);
        assert_eq!(of_text(&TEXT.replace("wish", "\nwish")), [BLANK]);
        assert_eq!(of_sheet("\n"), [BLANK]);
    }

    #[test]
    fn no_last_line_feed() {
        assert_eq!(of_sheet(SHEET.trim_end()), [NO_LINE_FEED]);
        assert_eq!(of_text(TEXT.trim_end()), [NO_LINE_FEED]);
        // A line that ends before its columns, or a text that ends before its lines.
        assert!(of_sheet(SHEET.trim_end_matches("0\n")).is_empty());
        assert!(of_text("switches 1\n").is_empty());
        // Another cause before the last line.
        assert!(of_text("switches 1\nfaults 01\nrule s1").is_empty());
    }

    #[test]
    fn three_numbers() {
        assert_eq!(of_sheet(OF_17), [BEFORE]);
        // So many lines that the length is that of a sheet.
        let wishes = OF_17.replace("W   -1    0    0\n", &"W   -1    0    0\n".repeat(LINE - 3));
        assert_eq!(wishes.len() % LINE, 0);
        assert_eq!(of_sheet(&wishes), [BEFORE]);
        // One line of many, the last one without its line feed, and small letters.
        let one = SHEET.replace("W   -1    0    0    1", "W   -1    0    0");
        assert_eq!(of_sheet(&one), [BEFORE]);
        assert_eq!(of_sheet(SHEET.trim_end_matches("    0\n")), [BEFORE]);
        assert_eq!(of_sheet(&OF_17.to_lowercase()), [BEFORE, CAPITALS]);
        // As many characters, and other columns.
        let other = SHEET.replace("W   -1    0    0    1", "W   -1  0  0   3");
        assert!(of_sheet(&other).is_empty());
        assert_eq!(of_text(OF_17), [PLANNING_SHEET]);
    }

    #[test]
    fn letters() {
        assert_eq!(of_sheet(&SHEET.to_lowercase()), [CAPITALS]);
        assert_eq!(of_sheet(&SHEET.replace('W', "w")), [CAPITALS]);
        assert_eq!(of_text(&TEXT.to_uppercase()), [SMALL]);
        assert_eq!(of_text(&TEXT.replace("rule s", "rule S")), [SMALL]);
    }

    /// Refusals that these hints are not for.
    #[test]
    fn none() {
        for sheet in [
            "",
            "H    1    0    0    0\nR   01    0    0    0\nZ    2    0    0    0\n",
            "X    1    0    0    0\n",
            "H    1    0    0    0\nZ    2    0    0    0\n",
            "H   21    0    0    0\nZ    1    0    0    0\n",
            "H    1    0    0    0\nR    2    0    0    0\nZ    2    0    0    0\n",
            "H    1    0    0    0\nW    1    0    0    0\nZ    2    0    0    0\n",
        ] {
            assert!(of_sheet(sheet).is_empty(), "{sheet}");
        }
        for text in [
            "",
            "hello\n",
            "switches 21\nfaults 0\n",
            "switches 3\nfaults 0\nrule s1  & s2\n",
            "switches 3\nfaults 0\nwish s1 weight 0\n",
        ] {
            assert!(of_text(text).is_empty(), "{text}");
        }
    }

    /// Every hint is given by some test above: their words are all there.
    #[test]
    fn all_are_tried() {
        let tried = [
            TYPED_TEXT,
            PLANNING_SHEET,
            MARK,
            CR_LF,
            CR,
            TABS,
            OTHER,
            BLANK,
            NO_LINE_FEED,
            BEFORE,
            CAPITALS,
            SMALL,
        ];
        for hint in &HINTS {
            assert!(
                tried.iter().any(|words| hint.words.starts_with(words)),
                "{}",
                hint.words
            );
        }
    }
}
