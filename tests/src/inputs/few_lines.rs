//! Short texts of a few different lines, in every order: each line is a digit, and a text the number
//! that its lines make.

use super::text::Text;

/// The lines, in which tabs are shown as spaces.
pub struct FewLines(pub &'static [&'static str]);

impl FewLines {
    /// How many texts of so many lines there are.
    pub fn count(&self, lines: u32) -> usize {
        self.0.len().pow(lines)
    }

    /// The text of so many lines with this number, of which the first line is the last digit.
    pub fn text(&self, lines: u32, number: usize) -> Text {
        let line = |at: u32| self.0[number / self.count(at) % self.0.len()].replace(' ', "\t");
        Text::of_lines(&(0..lines).map(line).collect::<Vec<_>>())
    }

    /// Every text of so many lines, each with its last line ended and without.
    pub fn every(&self, lines: u32) -> impl Iterator<Item = Text> + '_ {
        (0..self.count(lines)).flat_map(move |number| both(self.text(lines, number)))
    }

    /// The same of the texts that begin with this line.
    pub fn beginning(&self, first: usize, lines: u32) -> impl Iterator<Item = Text> + '_ {
        let rest = 0..self.count(lines - 1);
        rest.flat_map(move |rest| both(self.text(lines, first + rest * self.0.len())))
    }
}

/// The text, and the same without its last byte.
fn both(text: Text) -> [Text; 2] {
    let cut = text.0[..text.0.len().saturating_sub(1)].to_vec();
    [text, Text(cut)]
}
