//! Registers in both forms, and catalogues that are refused, each with its refusal, all written out.
//! Tabs are shown as spaces, as they are in 01.

use super::text::Text;

/// A register text, its catalogue, and what comes of that on the way back.
pub struct Both {
    pub name: &'static str,
    text: &'static str,
    catalogue: &'static str,
    back: &'static str,
}

/// A catalogue with its refusal and the place of it.
pub struct Refused {
    pub name: &'static str,
    catalogue: &'static str,
    pub refusal: (u32, usize),
}

pub const BOTH: [Both; 20] = [
    grouped("nothing at all", "", ""),
    grouped("one read", "S 1 R\n", "S 1 R\n"),
    grouped("one unread", "S 1 U\n", "S 1 U\n"),
    grouped(
        "no objections",
        "S 3 R\nS 1987.14 U\nS 99999999 R\n",
        "S 3 R\nS 1987.14 U\nS 99999999 R\n",
    ),
    grouped("one that objects to itself", "S 1 R\nO 1 1\n", "S 1 R 1\n"),
    grouped(
        "named before its line",
        "S 1 R\nS 2 U\nO 2 1\n",
        "S 1 R 2\nS 2 U\n",
    ),
    grouped(
        "named behind its line",
        "S 1 R\nS 2 U\nO 1 2\n",
        "S 1 R\nS 2 U 1\n",
    ),
    grouped(
        "two that object to each other",
        "S 2 R\nS 1 R\nO 1 2\nO 2 1\n",
        "S 2 R 1\nS 1 R 2\n",
    ),
    both(
        "two that object to each other, the later first",
        "S 2 R\nS 1 R\nO 2 1\nO 1 2\n",
        "S 2 R 1\nS 1 R 2\n",
        "S 2 R\nS 1 R\nO 1 2\nO 2 1\n",
    ),
    grouped(
        "the game of 01",
        "S 101 R\nS 102 R\nS 103 R\nS 104 R\nO 102 101\nO 101 102\nO 103 102\nO 104 103\n",
        "S 101 R 102\nS 102 R 101 103\nS 103 R 104\nS 104 R\n",
    ),
    both(
        "a chain from its end, with its objections backwards",
        "S 1 U\nS 2 R\nS 3 R\nS 4 R\nO 4 3\nO 3 2\nO 2 1\n",
        "S 1 U 2\nS 2 R 3\nS 3 R 4\nS 4 R\n",
        "S 1 U\nS 2 R\nS 3 R\nS 4 R\nO 2 1\nO 3 2\nO 4 3\n",
    ),
    grouped(
        "the order is that of the lines, and not that of the numbers",
        "S 30 R\nS 20 R\nS 10 R\nO 10 30\nO 20 30\nO 30 10\n",
        "S 30 R 10 20\nS 20 R\nS 10 R 30\n",
    ),
    grouped(
        "objectors that go down, and up again",
        "S 5 R\nS 6 R\nS 7 R\nO 7 6\nO 5 6\nO 6 6\n",
        "S 5 R\nS 6 R 7 5 6\nS 7 R\n",
    ),
    both(
        "objections mixed, the order of each target kept",
        "S 1 R\nS 2 U\nS 3 R\nO 3 2\nO 2 1\nO 1 2\nO 3 1\nO 2 2\nO 1 1\n",
        "S 1 R 2 3 1\nS 2 U 3 1 2\nS 3 R\n",
        "S 1 R\nS 2 U\nS 3 R\nO 2 1\nO 3 1\nO 1 1\nO 3 2\nO 1 2\nO 2 2\n",
    ),
    both(
        "the last objection is the first line's",
        "S 1 R\nS 2 R\nO 1 2\nO 2 2\nO 1 1\n",
        "S 1 R 1\nS 2 R 1 2\n",
        "S 1 R\nS 2 R\nO 1 1\nO 1 2\nO 2 2\n",
    ),
    grouped(
        "one objects to all",
        "S 8 R\nS 9 U\nS 10 R\nO 9 8\nO 9 9\nO 9 10\n",
        "S 8 R 9\nS 9 U 9\nS 10 R 9\n",
    ),
    grouped(
        "all object to one",
        "S 8 R\nS 9 U\nS 10 R\nO 8 9\nO 9 9\nO 10 9\n",
        "S 8 R\nS 9 U 8 9 10\nS 10 R\n",
    ),
    both(
        "year numbers",
        "S 1987.14 R\nS 1987 U\nS 14 R\nS 198714 R\n\
         O 1987.14 198714\nO 14 1987.14\nO 1987 1987.14\n",
        "S 1987.14 R 14 1987\nS 1987 U\nS 14 R\nS 198714 R 1987.14\n",
        "S 1987.14 R\nS 1987 U\nS 14 R\nS 198714 R\n\
         O 14 1987.14\nO 1987 1987.14\nO 1987.14 198714\n",
    ),
    grouped(
        "the least and the greatest numbers",
        "S 1 R\nS 99999999 U\nS 1000.1 R\nS 2099.9999 U\n\
         O 2099.9999 1\nO 1000.1 1\nO 99999999 1000.1\n",
        "S 1 R 2099.9999 1000.1\nS 99999999 U\nS 1000.1 R 99999999\nS 2099.9999 U\n",
    ),
    grouped(
        "1987.1 and 1987.10",
        "S 1987.1 R\nS 1987.10 R\nO 1987.10 1987.1\nO 1987.1 1987.10\nO 1987.10 1987.10\n",
        "S 1987.1 R 1987.10\nS 1987.10 R 1987.1 1987.10\n",
    ),
];

pub const REFUSED: [Refused; 31] = [
    refused("no end", "S 1 R", (2, 0)),
    refused("a last line without an end", "S 1 R\nS 2 R 1", (2, 0)),
    refused("one byte", "S", (2, 0)),
    refused("a blank line", "\n", (3, 1)),
    refused("a blank line behind", "S 1 R\n\n", (3, 2)),
    refused("an objection line", "S 1 R\nO 1 1\n", (3, 2)),
    refused("no mark", "S 1\n", (3, 1)),
    refused("an objector in the place of the mark", "S 1 1\n", (3, 1)),
    refused("a mark behind the objectors", "S 1 1 R\n", (3, 1)),
    refused("two marks", "S 1 R U\n", (3, 1)),
    refused("a tab in front", " S 1 R\n", (3, 1)),
    refused("a tab behind", "S 1 R \n", (3, 1)),
    refused("a tab behind an objector", "S 1 R 1 \n", (3, 1)),
    refused("two tabs before an objector", "S 1 R  1\n", (3, 1)),
    refused("two tabs between objectors", "S 1 R 1  2\nS 2 R\n", (3, 1)),
    refused("byte 13", "S 1 R 1\r\n", (3, 1)),
    refused("an objector 0", "S 1 R 0\n", (3, 1)),
    refused("an objector of nine digits", "S 1 R 100000001\n", (3, 1)),
    refused("an objector that begins with 0", "S 1 R 01\n", (3, 1)),
    refused("serial 01", "S 1987.1 R 1987.01\n", (3, 1)),
    refused("issued twice", "S 1 R\nS 2 R\nS 1 U\n", (5, 3)),
    refused(
        "issued twice, and unknown before",
        "S 1 R 9\nS 1 R\n",
        (5, 2),
    ),
    refused(
        "spoiled behind what is issued twice",
        "S 1 R\nS 1 R\nS\n",
        (5, 2),
    ),
    refused("unknown", "S 1 R\nS 2 R 1 3\n", (7, 2)),
    refused("1987.10 for 1987.1", "S 1987.1 R 1987.10\n", (7, 1)),
    refused("unknown behind a repeat", "S 1 R 1 1\nS 2 R 3\n", (7, 2)),
    refused("unknown twice", "S 1 R 3 3\nS 2 R 2 2\n", (7, 1)),
    refused("repeated", "S 1 R 1 1\n", (8, 1)),
    refused(
        "repeated, with another between",
        "S 1 R\nS 2 R 1 2 1\n",
        (8, 2),
    ),
    refused("repeated before its line", "S 1 R 2 2\nS 2 R\n", (8, 1)),
    refused(
        "repeated on two lines",
        "S 1 R\nS 2 R 2 2\nS 3 R 3 3\n",
        (8, 2),
    ),
];

const fn both(
    name: &'static str,
    text: &'static str,
    catalogue: &'static str,
    back: &'static str,
) -> Both {
    Both {
        name,
        text,
        catalogue,
        back,
    }
}

/// A register whose objections are grouped already, so that it comes back as it is.
const fn grouped(name: &'static str, text: &'static str, catalogue: &'static str) -> Both {
    both(name, text, catalogue, text)
}

const fn refused(name: &'static str, catalogue: &'static str, refusal: (u32, usize)) -> Refused {
    Refused {
        name,
        catalogue,
        refusal,
    }
}

impl Both {
    pub fn text(&self) -> Text {
        Text::typed(self.text)
    }

    pub fn catalogue(&self) -> Text {
        Text::typed(self.catalogue)
    }

    pub fn back(&self) -> Text {
        Text::typed(self.back)
    }
}

impl Refused {
    pub fn catalogue(&self) -> Text {
        Text::typed(self.catalogue)
    }
}
