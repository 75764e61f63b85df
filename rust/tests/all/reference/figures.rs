//! What the program `figures` prints of an input, and how much of it it takes.

use super::blocks::number_of;
use super::form::SECOND;
use super::limits::*;
use super::verdicts::Verdicts;

/// The bytes of a block count.
const COUNT: usize = 2;

/// What an input comes to: what each sheet is judged to be, the place of the one that is refused by 18, and the bytes that are read.
pub struct Figures {
    pub sheets: Vec<Verdicts>,
    pub refused: Option<u64>,
    pub taken: usize,
}

impl Figures {
    pub fn of(input: &[u8]) -> Self {
        let mut figures = Figures { sheets: vec![], refused: None, taken: 0 };
        while figures.sheets.len() < SHEETS && figures.taken < input.len() {
            let count = figures.take(input, COUNT);
            let blocks = number_of(count) as usize;
            let right = count.len() == COUNT && (1..=SECOND.blocks).contains(&blocks);
            let sheet = if right { figures.take(input, BLOCK * blocks) } else { &[] };
            if !right || sheet.len() < BLOCK * blocks {
                figures.refused = Some(figures.sheets.len() as u64 + 1);
                break;
            }
            figures.sheets.push(Verdicts::of(sheet));
        }
        figures
    }

    /// So many bytes more of the input, as far as it has them.
    fn take<'a>(&mut self, input: &'a [u8], bytes: usize) -> &'a [u8] {
        let rest = &input[self.taken..];
        let taken = &rest[..bytes.min(rest.len())];
        self.taken += taken.len();
        taken
    }

    pub fn text(&self) -> String {
        let sound: Vec<&Verdicts> = self.sheets.iter().filter(|sheet| sheet.code == 0).collect();
        let mut numbers =
            vec![sound.len(), self.sheets.len() - sound.len(), sound.iter().filter(|sheet| sheet.total == 0).count()];
        for kind in 1..=CALL_KINDS {
            let failed = |sheet: &&Verdicts| sheet.list.iter().filter(|one| one.kind == kind && one.violation > 0).count();
            numbers.push(sound.iter().map(failed).sum());
        }
        let totals = || sound.iter().map(|sheet| sheet.total);
        for total in [totals().min(), totals().max()] {
            let first = self.sheets.iter().position(|sheet| sheet.code == 0 && Some(sheet.total) == total);
            numbers.extend([total.unwrap_or(0) as usize, first.map_or(0, |before| before + 1)]);
        }
        let mut text: String = numbers.iter().map(|number| format!("{number}\n")).collect();
        if let Some(place) = self.refused {
            text += &format!("refused 18 {place}\n");
        }
        text
    }
}
