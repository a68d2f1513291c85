//! The examples at the edges of document 01 that are short enough to be written out: the text, and
//! what 01 says of it as the program prints it. Tabs are shown as spaces, as they are in 01.

use super::text::Text;

pub struct Example {
    pub name: &'static str,
    text: &'static str,
    print: &'static str,
}

pub const EXAMPLES: [Example; 18] = [
    example("empty", "", "REGISTER 0 0\n"),
    example("one read", "S 1 R\n", "REGISTER 1 0\n1 stands 0\n"),
    example("one unread", "S 1 U\n", "REGISTER 1 0\n1 open -\n"),
    example(
        "one read that objects to itself",
        "S 1 R\nO 1 1\n",
        "REGISTER 1 1\n1 open -\n1 1 standoff -\n",
    ),
    example(
        "two that object to each other",
        "S 1 R\nS 2 R\nO 1 2\nO 2 1\n",
        "REGISTER 2 2\n1 open -\n2 open -\n1 2 standoff -\n2 1 standoff -\n",
    ),
    example(
        "a circle of three",
        "S 1 R\nS 2 R\nS 3 R\nO 1 2\nO 2 3\nO 3 1\n",
        "REGISTER 3 3\n1 open -\n2 open -\n3 open -\n\
         1 2 standoff -\n2 3 standoff -\n3 1 standoff -\n",
    ),
    example(
        "the listing",
        "S 101 R\nS 102 R\nS 103 R\nS 104 R\nO 102 101\nO 101 102\nO 103 102\nO 104 103\n",
        "REGISTER 4 4\n101 open -\n102 open -\n103 falls 1\n104 stands 0\n\
         102 101 standoff -\n101 102 standoff -\n103 102 idle -\n104 103 felling 1\n",
    ),
    example(
        "an unread one falls, and one stands by it",
        "S 1 U\nS 2 R\nS 3 R\nO 2 1\nO 1 3\n",
        "REGISTER 3 2\n1 falls 1\n2 stands 0\n3 stands 2\n2 1 felling 1\n1 3 delaying 2\n",
    ),
    example(
        "an unread one objects",
        "S 1 U\nS 2 R\nO 1 2\n",
        "REGISTER 2 1\n1 open -\n2 open -\n1 2 standoff -\n",
    ),
    example(
        "a chain down to an unread one",
        "S 1 U\nS 2 R\nS 3 R\nS 4 R\nO 4 3\nO 3 2\nO 2 1\n",
        "REGISTER 4 3\n1 falls 3\n2 stands 2\n3 falls 1\n4 stands 0\n\
         4 3 felling 1\n3 2 delaying 2\n2 1 felling 3\n",
    ),
    example(
        "a finish of that chain",
        "S 1 R\nS 2 R\nS 3 R\nS 4 R\nO 4 3\nO 3 2\nO 2 1\nO 4 1\n",
        "REGISTER 4 4\n1 falls 1\n2 stands 2\n3 falls 1\n4 stands 0\n\
         4 3 felling 1\n3 2 delaying 2\n2 1 felling 3\n4 1 felling 1\n",
    ),
    example(
        "felling in three turns",
        "S 5 R\nS 6 R\nS 7 R\nO 5 6\nO 6 7\nO 7 6\n",
        "REGISTER 3 3\n5 stands 0\n6 falls 1\n7 stands 2\n\
         5 6 felling 1\n6 7 delaying 2\n7 6 felling 3\n",
    ),
    example(
        "the greatest number",
        "S 99999999 R\nO 99999999 99999999\n",
        "REGISTER 1 1\n99999999 open -\n99999999 99999999 standoff -\n",
    ),
    example("number 0", "S 0 R\n", "REFUSED 3 1\n"),
    example("number 07", "S 7 R\nS 07 R\n", "REFUSED 3 2\n"),
    example("nine digits", "S 100000000 R\n", "REFUSED 3 1\n"),
    example(
        "nine digits that object",
        "S 1 R\nO 1 1\nO 000000001 1\n",
        "REFUSED 3 3\n",
    ),
    example("a blank line", "S 1 R\n\nS 2 R\n", "REFUSED 3 2\n"),
];

pub const fn example(name: &'static str, text: &'static str, print: &'static str) -> Example {
    Example { name, text, print }
}

impl Example {
    /// The example with this name, which there must be.
    pub fn named(name: &str) -> &'static Self {
        let mut examples = EXAMPLES.iter();
        let found = examples.find(|example| example.name == name);
        found.expect("an example with this name")
    }

    pub fn text(&self) -> Text {
        Text::typed(self.text)
    }

    /// What the program prints.
    pub fn print(&self) -> Vec<u8> {
        Text::typed(self.print).0
    }
}
