//! The tables: a row for each case with the figure of each version, the library's ratio to each ordinary one, and the
//! bar that the library is held to.

use crate::case::{Bar, Case, Group, Growth};

/// How many bars hold and how many are broken.
#[derive(Clone, Copy, Default)]
pub struct Verdict {
    /// They hold.
    pub hold: usize,
    /// They are broken.
    pub broken: usize,
}

impl Verdict {
    /// The text of a bar.
    fn judge(&mut self, bar: &str, holds: bool) -> String {
        if holds {
            self.hold += 1;
            format!("{bar} holds")
        } else {
            self.broken += 1;
            format!("{bar} BROKEN")
        }
    }

    fn judge_case(&mut self, bar: Bar, library: f64, ordinary: &[f64]) -> String {
        match bar {
            Bar::AtMost(most) => {
                let best = ordinary.iter().copied().fold(f64::INFINITY, f64::min);
                self.judge(&format!("{most:.2}"), library <= most * best)
            }
            Bar::AtMostEach([first, second]) => {
                let holds = library <= first * ordinary[0] && library <= second * ordinary[1];
                self.judge(&format!("{first:.2} and {second:.2}"), holds)
            }
            Bar::Number(most) => self.judge(&format!("{most:.0}"), library <= most),
            Bar::UnderFirst => self.judge("under", library < ordinary[0]),
        }
    }
}

/// Prints the table of a group, with the bars if there is a verdict to enter them in. `measure` gives the figures of
/// the case at a place; false if it cannot.
pub fn print(
    group: &Group,
    mut verdict: Option<&mut Verdict>,
    mut measure: impl FnMut(&Case, usize) -> Option<Vec<f64>>,
) -> bool {
    let heads = |names: &[&str]| names.iter().map(|name| name.to_string()).collect();
    print_row(group.title, heads(group.columns), heads(group.ratios), if verdict.is_some() { "bar" } else { "" });
    let mut all = Vec::new();
    for (place, case) in group.cases.iter().enumerate() {
        let Some(figures) = measure(case, place) else { return false };
        let (library, ordinary) = (figures[0], &figures[group.columns.len() - group.ratios.len()..]);
        let judged = verdict.as_deref_mut().zip(case.bar);
        let judged = judged.map(|(verdict, bar)| verdict.judge_case(bar, library, ordinary));
        let ratios = ordinary.iter().map(|ordinary| format!("{:.2}", library / ordinary)).collect();
        let digits = if case.each == 1 { 0 } else { 2 };
        let cells = figures.iter().map(|figure| format!("{figure:.digits$}")).collect();
        print_row(&case.name, cells, ratios, &judged.unwrap_or_default());
        all.push(figures);
    }
    for Growth { name, cases: [from, to], most } in &group.growth {
        let times: Vec<f64> = all[*to].iter().zip(&all[*from]).map(|(to, from)| to / from).collect();
        let judged = verdict.as_deref_mut().map(|verdict| verdict.judge(&format!("{most:.2}"), times[0] <= *most));
        let cells = times.iter().map(|times| format!("{times:.2}")).collect();
        print_row(name, cells, Vec::new(), &judged.unwrap_or_default());
    }
    println!();
    true
}

/// A line: the name, up to four figures, up to two ratios, the bar.
fn print_row(name: &str, mut figures: Vec<String>, mut ratios: Vec<String>, bar: &str) {
    figures.resize(4, String::new());
    ratios.resize(2, String::new());
    let cells: String = figures.iter().chain(&ratios).map(|cell| format!("{cell:>9}")).collect();
    println!("{}", format!("{name:<55}{cells}  {bar}").trim_end());
}
