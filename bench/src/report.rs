//! Markdown, ready for docs/PERFORMANCE.md.

use crate::timing::{Measured, Spread};

pub struct Section {
    /// For the head, and for the summary's.
    pub name: String,
    /// What it was measured on.
    pub about: String,
    /// Those lent to the first seats and to the second.
    pub slots: [usize; 2],
    pub rounds: usize,
    pub rows: Vec<(&'static str, Measured)>,
}

/// One line a work and one column a section: how many times as long ours takes as plain Rust.
pub fn print_summary(sections: &[Section]) {
    let works = sections.first().map_or(&[][..], |section| &section.rows);
    let rows = works.iter().enumerate().map(|(place, (work, _))| {
        let ratio = |section: &Section| format!("{:.2}", section.rows[place].1.ours_to_plain.middle);
        [work.to_string()].into_iter().chain(sections.iter().map(ratio)).collect()
    });
    let names = sections.iter().map(|section| section.name.as_str());
    print_table(["ours / plain"].into_iter().chain(names).collect(), rows);
}

/// Nanoseconds and ratios of every work on one table.
pub fn print_section(section: &Section) {
    println!("### {}\n", section.name);
    println!("Slots lent: {}. Rounds: {}. {}\n", thousands(section.slots[0]), section.rounds, section.about);
    let head = ["Work", "ours, ns", "plain, ns", "ours / plain", "middle half", "control", "middle half"];
    let rows = section.rows.iter().map(|(work, measured)| {
        vec![
            work.to_string(),
            nanoseconds(middle_of(measured.ours)),
            nanoseconds(middle_of(measured.plain)),
            ratio(measured.ours_to_plain),
            half(measured.ours_to_plain),
            ratio(measured.plain_again),
            half(measured.plain_again),
        ]
    });
    print_table(head.to_vec(), rows);
}

/// The same works in the seats with few slots and in those with many.
pub fn print_slots(section: &Section) {
    println!("Rounds: {}. {}\n", section.rounds, section.about);
    let [few, many] = section.slots.map(thousands);
    let head = [
        "Work".to_string(),
        format!("ours, {few} slots, ns"),
        format!("ours, {many} slots, ns"),
        "many / few".to_string(),
        "middle half".to_string(),
        format!("plain, {few} slots, ns"),
        format!("plain, {many} slots, ns"),
        "many / few".to_string(),
        "middle half".to_string(),
    ];
    let rows = section.rows.iter().map(|(work, measured)| {
        let side = |[few, many]: [f64; 2], again| [nanoseconds(few), nanoseconds(many), ratio(again), half(again)];
        let ours = side(measured.ours, measured.ours_again);
        let plain = side(measured.plain, measured.plain_again);
        [work.to_string()].into_iter().chain(ours).chain(plain).collect()
    });
    print_table(head.iter().map(String::as_str).collect(), rows);
}

/// One work on several tables, where a ratio says little.
pub fn print_times(sections: &[Section]) {
    let rows = sections.iter().flat_map(|section| {
        section.rows.iter().map(|(_, measured)| {
            let [ours, plain] = [measured.ours, measured.plain].map(|seats| nanoseconds(middle_of(seats)));
            vec![section.name.clone(), section.rounds.to_string(), ours, plain]
        })
    });
    print_table(vec!["Slots, all in use", "rounds", "ours, ns", "plain, ns"], rows);
}

/// The first column to the left, the others to the right.
fn print_table(head: Vec<&str>, rows: impl Iterator<Item = Vec<String>>) {
    println!("| {} |", head.join(" | "));
    println!("|---|{}", "--:|".repeat(head.len() - 1));
    for row in rows {
        println!("| {} |", row.join(" | "));
    }
    println!();
}

fn middle_of([first, second]: [f64; 2]) -> f64 {
    (first + second) / 2.0
}

fn ratio(spread: Spread) -> String {
    format!("{:.2}", spread.middle)
}

fn half(spread: Spread) -> String {
    format!("{:.2} to {:.2}", spread.low, spread.high)
}

fn nanoseconds(number: f64) -> String {
    if number < 10.0 {
        format!("{number:.2}")
    } else if number < 100.0 {
        format!("{number:.1}")
    } else {
        thousands(number.round() as usize)
    }
}

/// A number with commas.
pub fn thousands(number: usize) -> String {
    let digits = number.to_string();
    let mut text = String::new();
    for (place, digit) in digits.chars().enumerate() {
        if place > 0 && (digits.len() - place) % 3 == 0 {
            text.push(',');
        }
        text.push(digit);
    }
    text
}
