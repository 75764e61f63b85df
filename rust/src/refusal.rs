//! Why something is refused.

use crate::codes::{Listed, LISTED};
use std::fmt;

/// Why something is refused: the code, and the place that goes with it, or 0 where the code names none. Nothing has changed.
///
/// The place is that of the first offending item, from 1; for codes 32 to 36 the number of the block, from 0; for 37 the code of
/// the rule that the sheet's numbers are against.
///
/// ```
/// let refusal = qirfadhun::Plan::builder(65).build().unwrap_err();
/// assert_eq!((refusal.code, refusal.place), (1, 0));
/// assert_eq!(refusal.sentence(), "R is not in 1..512");
/// assert_eq!(refusal.meaning(), "the plan has no region, or more than we judge");
/// assert_eq!(refusal.remedy(), "take another part of the airspace");
/// assert_eq!(refusal.to_string(), "refused 1 0: R is not in 1..512");
/// ```
#[non_exhaustive]
#[derive(Clone, Copy, Debug, PartialEq, Eq, Hash)]
pub struct Refusal {
    /// The code, as [`codes`](crate::codes) lists them.
    pub code: u64,
    /// The place that goes with the code, or 0.
    pub place: u64,
}

impl Refusal {
    /// When this code is given, in words, with the place where it names one.
    #[must_use]
    pub fn sentence(&self) -> String {
        let Refusal { code, place } = *self;
        let given = self.said(|listed| listed.given);
        if code == CONTENTS {
            return format!("the plan in the sheet is refused by {place}: {given}");
        }
        match self.listed().find_map(|listed| listed.place) {
            Some(item) => format!("{given} ({item} {place})"),
            None => given,
        }
    }

    /// What it means at the screen, in words.
    #[must_use]
    pub fn meaning(&self) -> String {
        self.said(|listed| listed.meaning)
    }

    /// What to do about it, in words.
    #[must_use]
    pub fn remedy(&self) -> String {
        self.said(|listed| listed.remedy)
    }

    /// What the lines of the list say; for the plan in a sheet those of its own code.
    fn said(&self, said: fn(&Listed) -> &'static str) -> String {
        match self.code {
            CONTENTS => joined(listed(self.place), said),
            _ => joined(self.listed(), said),
        }
    }

    /// The lines of the list that speak of this refusal: those with a place or those without.
    fn listed(&self) -> impl Iterator<Item = &'static Listed> {
        let Refusal { code, place } = *self;
        let without = listed(code).any(|listed| listed.place.is_none());
        let with = listed(code).any(|listed| listed.place.is_some());
        let named = with && (place != 0 || !without);
        listed(code).filter(move |listed| listed.place.is_some() == named)
    }
}

/// What a sheet holds is refused; the place is the code.
const CONTENTS: u64 = 37;

fn listed(code: u64) -> impl Iterator<Item = &'static Listed> {
    LISTED.iter().filter(move |listed| listed.code == code)
}

/// What the lines say, each once.
fn joined(listed: impl Iterator<Item = &'static Listed>, said: fn(&Listed) -> &'static str) -> String {
    let mut all: Vec<&str> = Vec::new();
    for words in listed.map(said) {
        if !all.contains(&words) {
            all.push(words);
        }
    }
    if all.is_empty() {
        return "this code is not listed".to_string();
    }
    all.join(", or ")
}

/// The code, the place and the sentence.
impl fmt::Display for Refusal {
    fn fmt(&self, f: &mut fmt::Formatter<'_>) -> fmt::Result {
        write!(f, "refused {} {}: {}", self.code, self.place, self.sentence())
    }
}

impl std::error::Error for Refusal {}
