//! Texts that are mended, with what comes of them and the report written out. Tabs are shown as
//! spaces, as they are in 01.

use super::text::Text;

pub struct Mend {
    pub name: &'static str,
    text: &'static str,
    mended: &'static str,
    report: &'static str,
}

pub const MENDS: [Mend; 33] = [
    mend("nothing at all", "", "", ""),
    mend("a register", "S 1 R\nO 1 1\n", "S 1 R\nO 1 1\n", ""),
    mend(
        "spoiled lines",
        "S\n\nS 1 R\nS 2 R \nS 3 U\nO 1\nO 3 1\n\n",
        "S 1 R\nS 3 U\nO 3 1\n",
        "1 dropped 3\n2 dropped 3\n4 dropped 3\n6 dropped 3\n8 dropped 3\n",
    ),
    mend(
        "a last line without an end",
        "S 1 R\nS 2 R",
        "S 1 R\n",
        "2 dropped 2\n",
    ),
    mend(
        "nothing but a line without an end",
        "\r",
        "",
        "1 dropped 2\n",
    ),
    mend(
        "a second statement without an end",
        "S 1 R\nS 1 U",
        "S 1 R\n",
        "2 dropped 2\n",
    ),
    mend(
        "an unknown objector without an end",
        "S 1 R\nO 9 1",
        "S 1 R\n",
        "2 dropped 2\n",
    ),
    mend(
        "a late statement",
        "S 1 R\nO 1 1\nS 2 R\nO 2 1\n",
        "S 1 R\nS 2 R\nO 1 1\nO 2 1\n",
        "3 moved 4\n",
    ),
    mend(
        "late statements keep their order",
        "O 3 3\nS 3 R\nS 2 U\nO 2 3\nS 1 R\n",
        "S 3 R\nS 2 U\nS 1 R\nO 3 3\nO 2 3\n",
        "2 moved 4\n3 moved 4\n5 moved 4\n",
    ),
    mend(
        "late behind an objection that is dropped",
        "O 9 9\nS 1 R\n",
        "S 1 R\n",
        "1 dropped 7\n2 moved 4\n",
    ),
    mend(
        "nothing is late behind a spoiled line",
        "O 1 1 \nS 1 R\n",
        "S 1 R\n",
        "1 dropped 3\n",
    ),
    mend(
        "a second statement",
        "S 1 R\nS 1 R\n",
        "S 1 U\n",
        "2 dropped 5\n",
    ),
    mend(
        "a third statement, and marks that differ",
        "S 1 R\nS 2 U\nS 1 U\nS 2 R\nS 1 R\n",
        "S 1 U\nS 2 U\n",
        "3 dropped 5\n4 dropped 5\n5 dropped 5\n",
    ),
    mend(
        "a second statement that is late",
        "S 1 R\nO 1 1\nS 1 R\n",
        "S 1 U\nO 1 1\n",
        "3 dropped 5\n",
    ),
    mend(
        "a second statement of a late one",
        "O 1 1\nS 1 R\nS 1 R\n",
        "S 1 U\nO 1 1\n",
        "2 moved 4\n3 dropped 5\n",
    ),
    mend(
        "a second statement of a spoiled one is the first",
        "S 01 R\nS 1 R\n",
        "S 1 R\n",
        "1 dropped 3\n",
    ),
    mend(
        "a number that is named before its statement",
        "O 1 2\nS 2 R\nS 1 R\n",
        "S 2 R\nS 1 R\nO 1 2\n",
        "2 moved 4\n3 moved 4\n",
    ),
    mend(
        "an unknown objector",
        "S 1 R\nS 2 R\nO 9 1\nO 2 1\n",
        "S 1 U\nS 2 R\nO 2 1\n",
        "3 dropped 7\n",
    ),
    mend(
        "an unknown objector before its target",
        "O 9 1\nS 1 R\n",
        "S 1 U\n",
        "1 dropped 7\n2 moved 4\n",
    ),
    mend(
        "an unknown target",
        "S 1 R\nO 1 9\n",
        "S 1 R\n",
        "2 dropped 7\n",
    ),
    mend(
        "both unknown",
        "S 1 R\nO 9 8\nO 9 9\n",
        "S 1 R\n",
        "2 dropped 7\n3 dropped 7\n",
    ),
    mend(
        "a repeat of a kept objection",
        "S 1 R\nS 2 R\nO 1 2\nO 2 1\nO 1 2\nO 1 2\n",
        "S 1 R\nS 2 R\nO 1 2\nO 2 1\n",
        "5 dropped 8\n6 dropped 8\n",
    ),
    mend(
        "a repeat of a dropped objection",
        "S 1 R\nO 9 1\nO 9 1\n",
        "S 1 U\n",
        "2 dropped 7\n3 dropped 7\n",
    ),
    mend(
        "two digits in the report",
        "\n\n\n\n\n\n\n\n\n\nS 1 R\n",
        "S 1 R\n",
        "1 dropped 3\n2 dropped 3\n3 dropped 3\n4 dropped 3\n5 dropped 3\n\
         6 dropped 3\n7 dropped 3\n8 dropped 3\n9 dropped 3\n10 dropped 3\n",
    ),
    mend(
        "one line for each cause of a short text",
        "S 1 R\nS 2 R\nS 1 U\nO 1 2\n\nS 4 R\nO 9 4\nO 1 2\nO 2 1",
        "S 1 U\nS 2 R\nS 4 U\nO 1 2\n",
        "3 dropped 5\n5 dropped 3\n6 moved 4\n7 dropped 7\n8 dropped 8\n9 dropped 2\n",
    ),
    mend(
        "a register with year numbers",
        "S 1987.14 R\nS 1987 U\nS 198714 R\nO 1987.14 1987\nO 198714 1987.14\n",
        "S 1987.14 R\nS 1987 U\nS 198714 R\nO 1987.14 1987\nO 198714 1987.14\n",
        "",
    ),
    mend(
        "a second statement of a year number",
        "S 1987.1 R\nS 1987.10 R\nS 1987.1 R\n",
        "S 1987.1 U\nS 1987.10 R\n",
        "3 dropped 5\n",
    ),
    mend(
        "a late year number",
        "S 3 R\nO 2004.1 3\nS 2004.1 U\n",
        "S 3 R\nS 2004.1 U\nO 2004.1 3\n",
        "3 moved 4\n",
    ),
    mend(
        "an unknown year number objects",
        "S 1987 R\nS 14 R\nO 1987.14 1987\nO 14 14\n",
        "S 1987 U\nS 14 R\nO 14 14\n",
        "3 dropped 7\n",
    ),
    mend(
        "an unknown year number is objected to",
        "S 1987.1 R\nO 1987.1 1987.10\nO 1987.1 1987\n",
        "S 1987.1 R\n",
        "2 dropped 7\n3 dropped 7\n",
    ),
    mend(
        "a repeat of an objection of year numbers",
        "S 1987.1 R\nS 2099.9999 U\nO 2099.9999 1987.1\nO 1987.1 2099.9999\nO 2099.9999 1987.1\n",
        "S 1987.1 R\nS 2099.9999 U\nO 2099.9999 1987.1\nO 1987.1 2099.9999\n",
        "5 dropped 8\n",
    ),
    mend(
        "spoiled year numbers",
        "S 1987.01 R\nS 1987.1 R\nS 2100.1 R\nS 1987.1. R\nO 1987. 1987.1\nO 1987.1 1987,1\n",
        "S 1987.1 R\n",
        "1 dropped 3\n3 dropped 3\n4 dropped 3\n5 dropped 3\n6 dropped 3\n",
    ),
    mend(
        "a year number without an end",
        "S 1987.1 R\nO 1987.1 1987.1",
        "S 1987.1 R\n",
        "2 dropped 2\n",
    ),
];

const fn mend(
    name: &'static str,
    text: &'static str,
    mended: &'static str,
    report: &'static str,
) -> Mend {
    Mend {
        name,
        text,
        mended,
        report,
    }
}

impl Mend {
    pub fn text(&self) -> Text {
        Text::typed(self.text)
    }

    pub fn mended(&self) -> Text {
        Text::typed(self.mended)
    }

    pub fn report(&self) -> String {
        self.report.replace(' ', "\t")
    }
}
