//! The answer in words: the switches, each broken wish and the listed combinations of faults, by
//! what the program printed and what the input says.

use comzsered::{Cause, Literal, Pattern, Tables, Wish};

use crate::listing::Listing;
use crate::options::Form;

/// What is said about a search that was made.
pub fn said(listing: &Listing, tables: &Tables, form: Form) -> String {
    let mut said = String::new();
    match listing.cause() {
        None => {
            let broken = broken_wishes(listing, tables, form);
            let (n, of) = (broken.len(), listing.wishes.len());
            said += &format!("There is a plan. It breaks {n} of {of} wishes");
            if is_weighed(tables) {
                said += &format!("; their weights add up to {}", listing.cost);
            }
            said += ".\n";
            said += &part("Switches", &switches(listing));
            said += &part("Broken wishes", &broken);
        }
        Some(Cause::NoRoom) => said += "It is open whether there is a plan: the list is full.\n",
        Some(_) => {
            said += "There is no plan: whatever the switches, \
                     some combination of faults breaks a rule.\n";
        }
    }
    let listed: Vec<String> = listing
        .patterns
        .iter()
        .map(|&word| faults(Pattern(word), tables.faults))
        .collect();
    said + &part("Combinations of faults, as the search listed them", &listed)
}

/// A title, and its lines beneath it.
fn part(title: &str, lines: &[String]) -> String {
    if lines.is_empty() {
        return format!("{title}: none\n");
    }
    let lines: String = lines.iter().map(|line| format!("  {line}\n")).collect();
    format!("{title}:\n{lines}")
}

fn switches(listing: &Listing) -> Vec<String> {
    let numbered = (1..).zip(&listing.switches);
    numbered.map(|(k, &on)| switch(k, on)).collect()
}

fn switch(k: u32, on: bool) -> String {
    let state = if on { "on" } else { "off" };
    format!("switch {k} {state}")
}

/// Whether weights are worth a word: not all of them are 1.
fn is_weighed(tables: &Tables) -> bool {
    tables.wishes.iter().any(|wish| wish.weight != 1)
}

fn broken_wishes(listing: &Listing, tables: &Tables, form: Form) -> Vec<String> {
    let before = lines_before_wishes(tables, form);
    let is_weighed = is_weighed(tables);
    let weight = |wish: &Wish| is_weighed.then(|| format!(", weight {}", wish.weight));
    let said = |k: usize, wish: &Wish| {
        let (line, weight) = (before + k, weight(wish).unwrap_or_default());
        format!("wish {k} (line {line}{weight}): {}", literals(wish))
    };
    let numbered = (1..).zip(listing.wishes.iter().zip(&tables.wishes));
    numbered
        .filter(|(_, (&kept, _))| !kept)
        .map(|(k, (_, wish))| said(k, wish))
        .collect()
}

/// The lines of the input before its first wish.
fn lines_before_wishes(tables: &Tables, form: Form) -> usize {
    let head = match form {
        Form::Sheet => 1 + tables.gates.len(),
        Form::Text => 2,
    };
    head + tables.rules.len()
}

fn literals(wish: &Wish) -> String {
    let literal = |Literal { switch: k, on }| switch(k, on);
    let words: Vec<String> = wish.literals().map(literal).collect();
    if words.is_empty() {
        return "no switch, so that nothing keeps it".to_string();
    }
    words.join(" or ")
}

fn faults(pattern: Pattern, faults: u32) -> String {
    let occurs = (1..=faults).filter(|&k| pattern.has(k, faults));
    let words: Vec<String> = occurs.map(|k| format!("fault {k}")).collect();
    if words.is_empty() {
        return "no fault".to_string();
    }
    words.join(" and ")
}

#[cfg(test)]
mod tests {
    use super::*;
    use comzsered::{Gate, Point, Refusal};

    fn tables() -> Tables {
        Tables {
            switches: 2,
            faults: 3,
            gates: vec![Gate::Not(Point(1)); 4],
            rules: vec![Point(1); 2],
            wishes: vec![
                [Literal::on(1)].into(),
                [Literal::off(2), Literal::on(1), Literal::off(1)].into(),
                Wish::default(),
            ],
        }
    }

    #[test]
    fn plan() {
        let listing = Listing {
            switches: vec![true, false],
            wishes: vec![true, false, false],
            patterns: vec![0, 4, 3],
            ..Listing::default()
        };
        let begin = "\
There is a plan. It breaks 2 of 3 wishes.
Switches:
  switch 1 on
  switch 2 off
Broken wishes:
";
        let end = "\
Combinations of faults, as the search listed them:
  no fault
  fault 1
  fault 2 and fault 3
";
        // The same wishes stand on other lines of a sheet than of a text.
        for (form, lines) in [(Form::Sheet, [9, 10]), (Form::Text, [6, 7])] {
            let [second, third] = lines;
            let wishes = format!(
                "  wish 2 (line {second}): switch 2 off or switch 1 on or switch 1 off\n  \
                 wish 3 (line {third}): no switch, so that nothing keeps it\n"
            );
            let expected = [begin, &wishes, end].concat();
            assert_eq!(said(&listing, &tables(), form), expected);
        }
    }

    /// The cost is what the program printed.
    #[test]
    fn weights() {
        let mut tables = tables();
        let wishes = &mut tables.wishes;
        wishes[0].weight = 999;
        wishes[2].weight = 20;
        let listing = Listing {
            cost: 21,
            switches: vec![true, false],
            wishes: vec![true, false, false],
            ..Listing::default()
        };
        let expected = "\
There is a plan. It breaks 2 of 3 wishes; their weights add up to 21.
Switches:
  switch 1 on
  switch 2 off
Broken wishes:
  wish 2 (line 9, weight 1): switch 2 off or switch 1 on or switch 1 off
  wish 3 (line 10, weight 20): no switch, so that nothing keeps it
Combinations of faults, as the search listed them: none
";
        assert_eq!(said(&listing, &tables, Form::Sheet), expected);
    }

    #[test]
    fn nothing_at_all() {
        let expected = "\
There is a plan. It breaks 0 of 0 wishes.
Switches: none
Broken wishes: none
Combinations of faults, as the search listed them: none
";
        let none = said(&Listing::default(), &Tables::default(), Form::Sheet);
        assert_eq!(none, expected);
    }

    #[test]
    fn no_plan() {
        let listing = |cause| Listing {
            refusal: Some(Refusal {
                cause,
                place: 0,
                column: 0,
            }),
            patterns: vec![7],
            ..Listing::default()
        };
        let end = "Combinations of faults, as the search listed them:\n  \
                   fault 1 and fault 2 and fault 3\n";
        for (cause, begin) in [
            (Cause::NoPlan, "There is no plan: "),
            (Cause::NoRoom, "It is open "),
        ] {
            let said = said(&listing(cause), &tables(), Form::Sheet);
            assert!(said.starts_with(begin) && said.ends_with(end), "{said}");
            assert_eq!(said.lines().count(), 3);
        }
    }
}
