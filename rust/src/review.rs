//! Figures over many sheets: the input that the proved program `figures` takes, and what it prints, each number with its name.

use crate::limits::{MOST_CONSTRAINTS, MOST_SECOND_BYTES, MOST_SHEETS};
use crate::{Kind, Refusal, Relation};
use std::fmt;
use std::str::FromStr;

/// The bytes of a block.
const BLOCK: usize = 512;

/// No total is above it, which is proved.
const MOST_TOTAL: u64 = 4_000_000_000_000_000_000;

/// The code of an input that ends where it must not, or that has a wrong count.
const TORN: u64 = 18;

/// A kind of each number, from 1 on. Its relation makes no difference here.
const KINDS: [Kind; 5] = [
    Kind::Connected(Relation::AtMost),
    Kind::Border,
    Kind::Balanced,
    Kind::Bounded(Relation::AtMost),
    Kind::Dwell(Relation::AtMost),
];

/// The figures over up to 1,000 sheets, as the proved program `figures` prints them: one number a line, without a name. Here each has
/// its name. The sheets are counted from 1, those that are refused among them. It prints as sentences:
///
/// ```
/// use qirfadhun::{Kind, Review};
///
/// let review: Review = "2\n1\n0\n0\n1\n0\n2\n1\n15\n1\n53\n3\n".parse()?;
/// assert_eq!((review.sheets(), review.sound(), review.refused()), (3, 2, 1));
/// assert_eq!(review.failed(Kind::Border), 1);
/// assert_eq!(review.largest().map(|largest| (largest.total(), largest.sheet())), Some((53, 3)));
/// assert_eq!(
///     review.to_string(),
///     "3 sheets: 2 read soundly, 1 refused.
/// No sheet has total 0.
/// Constraints that failed: connected 0, border 1, balanced 0, bounded 2, dwell time 1.
/// Smallest total: 15, in sheet 1, the first that has it.
/// Largest total: 53, in sheet 3, the first that has it."
/// );
/// # Ok::<(), qirfadhun::Unread>(())
/// ```
///
/// Only such a text makes one: no number is put in another's place.
///
/// ```compile_fail
/// # fn mixed(one: qirfadhun::Review) -> qirfadhun::Review {
/// qirfadhun::Review { sound: one.refused(), ..one }
/// # }
/// ```
#[derive(Clone, Copy, Debug, PartialEq, Eq)]
pub struct Review {
    sound: u64,
    refused: u64,
    zero: u64,
    failed: [u64; KINDS.len()],
    smallest: Option<Extreme>,
    largest: Option<Extreme>,
    torn: bool,
}

impl Review {
    /// What the program reads: each sheet, of either form, sound or not, after its block count in two bytes.
    ///
    /// ```
    /// use qirfadhun::{Review, Unfit};
    ///
    /// let sheets = [std::fs::read("../sheets/a.sheet")?, std::fs::read("../sheets/flights.sheet")?];
    /// let input = Review::input_of(&sheets)?;
    /// assert!(input[..2] == [5, 0] && input[2..2 + 5 * 512] == sheets[0] && input[2 + 5 * 512..][..2] == [8, 0]);
    ///
    /// let cut = &sheets[0][..1_000];
    /// assert_eq!(Review::input_of(&[&sheets[1], cut]), Err(Unfit::Length { sheet: 2, bytes: 1_000 }));
    /// # Ok::<(), Box<dyn std::error::Error>>(())
    /// ```
    ///
    /// # Errors
    ///
    /// [`Unfit`], where there are more than 1,000, or one has not 1 to 74 whole blocks: such an input would be read as another one.
    pub fn input_of<S: AsRef<[u8]>>(sheets: &[S]) -> Result<Vec<u8>, Unfit> {
        if sheets.len() > MOST_SHEETS {
            return Err(Unfit::Sheets(sheets.len()));
        }
        let mut input = Vec::new();
        for (sheet, bytes) in (1..).zip(sheets.iter().map(AsRef::as_ref)) {
            let length = bytes.len();
            if length == 0 || !length.is_multiple_of(BLOCK) || length > MOST_SECOND_BYTES {
                return Err(Unfit::Length { sheet, bytes: length });
            }
            input.extend(((length / BLOCK) as u16).to_le_bytes());
            input.extend(bytes);
        }
        Ok(input)
    }

    /// How many sheets there are: those that were read soundly, and those that were refused.
    #[must_use]
    pub fn sheets(&self) -> u64 {
        self.sound + self.refused
    }

    /// How many were read soundly. Totals and constraints that failed are of these alone.
    #[must_use]
    pub fn sound(&self) -> u64 {
        self.sound
    }

    /// How many were refused. Which they are, and why, [`Board::read`](crate::Board::read) tells of each.
    #[must_use]
    pub fn refused(&self) -> u64 {
        self.refused
    }

    /// How many have total 0: no constraint of theirs failed.
    #[must_use]
    pub fn with_total_zero(&self) -> u64 {
        self.zero
    }

    /// How many constraints of this kind failed, in all sheets together, whatever their relation is.
    #[must_use]
    pub fn failed(&self, kind: Kind) -> u64 {
        self.failed[kind.number() as usize - 1]
    }

    /// Each kind, from 1 on, with how many constraints of it failed, whatever their relation is: that of the kind here means nothing.
    pub fn failures(&self) -> impl Iterator<Item = (Kind, u64)> + '_ {
        KINDS.into_iter().map(|kind| (kind, self.failed(kind)))
    }

    /// The smallest total; `None` where no sheet was read soundly.
    #[must_use]
    pub fn smallest(&self) -> Option<Extreme> {
        self.smallest
    }

    /// The largest total; `None` where no sheet was read soundly.
    #[must_use]
    pub fn largest(&self) -> Option<Extreme> {
        self.largest
    }

    /// 18, with the place of the sheet that could not be taken: a wrong count stands before it, or the input ends in it. `None` where
    /// there is none, also after the 1,000th sheet.
    #[must_use]
    pub fn stopped(&self) -> Option<Refusal> {
        self.torn.then(|| Refusal { code: TORN, place: self.sheets() + 1 })
    }

    /// The sentences, with a sheet's name after its number.
    ///
    /// ```
    /// let review: qirfadhun::Review = "2\n0\n0\n0\n0\n0\n2\n0\n5\n2\n15\n1\n".parse()?;
    /// let text = review.with_names(|sheet| ["a.sheet", "b.sheet"][sheet as usize - 1].to_string());
    /// assert!(text.ends_with("Largest total: 15, in sheet 1, a.sheet, the first that has it."));
    /// # Ok::<(), qirfadhun::Unread>(())
    /// ```
    #[must_use]
    pub fn with_names(&self, name: impl Fn(u64) -> String) -> String {
        self.sentences(|sheet| format!("sheet {sheet}, {}", name(sheet)))
    }

    fn sentences(&self, named: impl Fn(u64) -> String) -> String {
        let of_sheets = |count: u64| if count == 1 { "1 sheet".to_string() } else { format!("{count} sheets") };
        let mut sentences = vec![format!("{}: {} read soundly, {} refused.", of_sheets(self.sheets()), self.sound, self.refused)];
        if let (Some(smallest), Some(largest)) = (self.smallest, self.largest) {
            sentences.push(match self.zero {
                0 => "No sheet has total 0.".to_string(),
                1 => "1 sheet has total 0.".to_string(),
                count => format!("{count} sheets have total 0."),
            });
            let failed = self.failures().map(|(kind, failed)| format!("{kind} {failed}")).collect::<Vec<_>>().join(", ");
            sentences.push(format!("Constraints that failed: {failed}."));
            for (which, extreme) in [("Smallest", smallest), ("Largest", largest)] {
                sentences.push(format!("{which} total: {}, in {}, the first that has it.", extreme.total, named(extreme.sheet)));
            }
        } else {
            sentences.push("There is no smallest and no largest total, since no sheet was read soundly.".to_string());
        }
        sentences.extend(self.stopped().map(|refusal| format!("Reading stopped: {refusal}.")));
        sentences.join("\n")
    }
}

impl fmt::Display for Review {
    fn fmt(&self, f: &mut fmt::Formatter<'_>) -> fmt::Result {
        f.write_str(&self.sentences(|sheet| format!("sheet {sheet}")))
    }
}

/// All that the program can print is taken: its twelve lines, or these and `refused 18 PLACE`, each with its line feed. Another text is
/// not, nor one whose numbers contradict each other.
impl FromStr for Review {
    type Err = Unread;

    fn from_str(text: &str) -> Result<Self, Unread> {
        let mut lines = Lines { rest: text, number: 0 };
        let sound = lines.number(|sound| sound <= MOST_SHEETS as u64)?;
        let refused = lines.number(|refused| refused <= MOST_SHEETS as u64 - sound)?;
        let zero = lines.number(|zero| zero <= sound)?;
        let mut failed = [0; KINDS.len()];
        for failed in &mut failed {
            *failed = lines.number(|failed| failed <= MOST_CONSTRAINTS as u64 * (sound - zero))?;
        }
        let failures: u64 = failed.iter().sum();
        if !(sound - zero..=MOST_CONSTRAINTS as u64 * (sound - zero)).contains(&failures) {
            return Err(Unread { line: lines.number });
        }
        let sheets = sound + refused;
        let mut extreme = |due: &dyn Fn(u64, u64) -> bool| {
            let total = lines.number(|total| total <= if sound > 0 { MOST_TOTAL } else { 0 })?;
            let right = |sheet| if sound > 0 { (1..=sheets).contains(&sheet) && due(total, sheet) } else { sheet == 0 };
            lines.number(right).map(|sheet| (sound > 0).then_some(Extreme { total, sheet }))
        };
        let smallest = extreme(&|total, _| (total == 0) == (zero > 0))?;
        // The first sheet with a total is the same exactly for the same total; then none but refused ones stand before it.
        let largest = extreme(&|total, sheet| {
            smallest.is_some_and(|least| match total == least.total {
                true => sheet == least.sheet && sheet <= refused + 1,
                false => total > least.total && sheet != least.sheet && sound > 1,
            }) && (total == 0) == (zero == sound)
        })?;
        let torn = lines.refusal(sheets + 1)?;
        Ok(Review { sound, refused, zero, failed, smallest, largest, torn })
    }
}

/// A smallest or largest total, and the first sheet that has it.
#[derive(Clone, Copy, Debug, PartialEq, Eq)]
pub struct Extreme {
    total: u64,
    sheet: u64,
}

impl Extreme {
    /// The total.
    #[must_use]
    pub fn total(&self) -> u64 {
        self.total
    }

    /// The number of the first sheet that has it, from 1, those that are refused among them.
    #[must_use]
    pub fn sheet(&self) -> u64 {
        self.sheet
    }
}

/// As "15, in sheet 1".
impl fmt::Display for Extreme {
    fn fmt(&self, f: &mut fmt::Formatter<'_>) -> fmt::Result {
        write!(f, "{}, in sheet {}", self.total, self.sheet)
    }
}

/// Lines of a text, one after the other.
struct Lines<'t> {
    rest: &'t str,
    number: usize,
}

impl<'t> Lines<'t> {
    /// The next line, which has its end.
    fn next(&mut self) -> Result<&'t str, Unread> {
        self.number += 1;
        let (line, rest) = self.rest.split_once('\n').ok_or(Unread { line: self.number })?;
        self.rest = rest;
        Ok(line)
    }

    /// The number in the next line, with no digit or sign too many.
    fn number(&mut self, right: impl Fn(u64) -> bool) -> Result<u64, Unread> {
        let line = self.next()?;
        let number = line.parse().ok().filter(|&number: &u64| number.to_string() == line && right(number));
        number.ok_or(Unread { line: self.number })
    }

    /// Whether a refusal of this sheet follows; else nothing does.
    fn refusal(&mut self, sheet: u64) -> Result<bool, Unread> {
        if self.rest.is_empty() {
            return Ok(false);
        }
        let right = self.next()? == format!("refused {TORN} {sheet}") && sheet <= MOST_SHEETS as u64;
        match right && self.rest.is_empty() {
            true => Ok(true),
            false => Err(Unread { line: self.number + usize::from(right) }),
        }
    }
}

/// A text that the program can't have printed.
///
/// ```
/// let unread = "2\n1\n+0\n".parse::<qirfadhun::Review>().unwrap_err();
/// assert_eq!(unread.line(), 3);
/// assert_eq!(unread.to_string(), "line 3 is missing, or is not what `figures` prints there");
/// ```
#[derive(Clone, Copy, Debug, PartialEq, Eq)]
pub struct Unread {
    line: usize,
}

impl Unread {
    /// The first line, from 1, that is missing, is no such number, doesn't go with those before it, or is too many.
    #[must_use]
    pub fn line(&self) -> usize {
        self.line
    }
}

impl fmt::Display for Unread {
    fn fmt(&self, f: &mut fmt::Formatter<'_>) -> fmt::Result {
        write!(f, "line {} is missing, or is not what `figures` prints there", self.line)
    }
}

impl std::error::Error for Unread {}

/// Why sheets can't be handed over to the program.
#[non_exhaustive]
#[derive(Clone, Copy, Debug, PartialEq, Eq)]
pub enum Unfit {
    /// So many are too many.
    Sheets(usize),
    /// A sheet has so many bytes, which are not 1 to 74 blocks.
    Length {
        /// The number of the sheet, from 1.
        sheet: usize,
        /// How many bytes it has.
        bytes: usize,
    },
}

impl fmt::Display for Unfit {
    fn fmt(&self, f: &mut fmt::Formatter<'_>) -> fmt::Result {
        match self {
            Unfit::Sheets(count) => write!(f, "there are {count} sheets, and figures are over at most {MOST_SHEETS}"),
            Unfit::Length { sheet, bytes } => write!(
                f,
                "sheet {sheet} has {bytes} bytes, and figures are over sheets of 1 to {} blocks of {BLOCK} bytes",
                MOST_SECOND_BYTES / BLOCK
            ),
        }
    }
}

impl std::error::Error for Unfit {}
