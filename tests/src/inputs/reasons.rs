//! Registers with the reason for every statement written out as it is printed: some of document 01,
//! and some more. Tabs are shown as spaces, as they are in 01.

use super::written::{of_01, written, Written};

/// The reason for each statement, in listed order.
pub type Reasons = Written<&'static str>;

pub const REASONS: [Reasons; 13] = [
    of_01(
        "felling in three turns",
        &[
            "5 stands 0\n",
            "6 falls 1\n5 6 felling 1\n",
            "7 stands 2\n5 6 felling 1\n6 7 delaying 2\n",
        ],
    ),
    of_01(
        "the listing",
        &[
            "101 open -\n102 101 standoff -\n101 102 standoff -\n",
            "102 open -\n102 101 standoff -\n101 102 standoff -\n",
            "103 falls 1\n104 103 felling 1\n",
            "104 stands 0\n",
        ],
    ),
    of_01(
        "a chain down to an unread one",
        &[
            "1 falls 3\n4 3 felling 1\n3 2 delaying 2\n2 1 felling 3\n",
            "2 stands 2\n4 3 felling 1\n3 2 delaying 2\n",
            "3 falls 1\n4 3 felling 1\n",
            "4 stands 0\n",
        ],
    ),
    of_01(
        "one read that objects to itself",
        &["1 open -\n1 1 standoff -\n"],
    ),
    written(
        "what an idle objection leads to is left out",
        "S 1 R\nS 2 R\nS 3 R\nS 4 R\nO 2 1\nO 3 1\nO 4 3\nO 2 3\n",
        &[
            "1 falls 1\n2 1 felling 1\n",
            "2 stands 0\n",
            "3 falls 1\n4 3 felling 1\n2 3 felling 1\n",
            "4 stands 0\n",
        ],
    ),
    written(
        "a late felling objection, and what it alone leads to, is left out",
        "S 1 R\nS 2 R\nS 3 R\nS 4 R\nS 5 R\nO 4 3\nO 5 4\nO 3 1\nO 2 1\nO 5 2\nO 3 2\n",
        &[
            "1 falls 3\n4 3 delaying 2\n5 4 felling 1\n3 1 felling 3\n",
            "2 falls 1\n5 2 felling 1\n",
            "3 stands 2\n4 3 delaying 2\n5 4 felling 1\n",
            "4 falls 1\n5 4 felling 1\n",
            "5 stands 0\n",
        ],
    ),
    written(
        "two felling objections of the length of their target",
        "S 1 R\nS 2 R\nS 3 R\nS 4 R\nS 5 R\nS 6 R\nO 2 1\nO 3 1\nO 4 2\nO 5 3\nO 6 4\nO 6 5\n",
        &[
            "1 falls 3\n2 1 felling 3\n3 1 felling 3\n4 2 delaying 2\n5 3 delaying 2\n\
             6 4 felling 1\n6 5 felling 1\n",
            "2 stands 2\n4 2 delaying 2\n6 4 felling 1\n",
            "3 stands 2\n5 3 delaying 2\n6 5 felling 1\n",
            "4 falls 1\n6 4 felling 1\n",
            "5 falls 1\n6 5 felling 1\n",
            "6 stands 0\n",
        ],
    ),
    written(
        "a felling objection of the length of its target, and a later one",
        "S 1 R\nS 5 R\nS 6 R\nS 7 R\nS 8 R\nS 9 R\nO 5 1\nO 7 1\nO 6 5\nO 7 6\nO 8 7\nO 9 8\n",
        &[
            "1 falls 3\n7 1 felling 3\n8 7 delaying 2\n9 8 felling 1\n",
            "5 stands 4\n6 5 delaying 4\n7 6 felling 3\n8 7 delaying 2\n9 8 felling 1\n",
            "6 falls 3\n7 6 felling 3\n8 7 delaying 2\n9 8 felling 1\n",
            "7 stands 2\n8 7 delaying 2\n9 8 felling 1\n",
            "8 falls 1\n9 8 felling 1\n",
            "9 stands 0\n",
        ],
    ),
    written(
        "delaying objections of two lengths",
        "S 1 R\nS 2 R\nS 3 R\nS 4 R\nS 5 R\nO 4 1\nO 2 1\nO 3 2\nO 4 3\nO 5 4\n",
        &[
            "1 stands 4\n4 1 delaying 2\n2 1 delaying 4\n3 2 felling 3\n4 3 delaying 2\n\
             5 4 felling 1\n",
            "2 falls 3\n3 2 felling 3\n4 3 delaying 2\n5 4 felling 1\n",
            "3 stands 2\n4 3 delaying 2\n5 4 felling 1\n",
            "4 falls 1\n5 4 felling 1\n",
            "5 stands 0\n",
        ],
    ),
    written(
        "a circle of open statements, to which a reason comes back",
        "S 1 R\nS 2 R\nS 3 R\nS 4 R\nS 5 R\nO 1 2\nO 2 3\nO 3 1\nO 4 3\nO 5 4\n",
        &[
            "1 open -\n1 2 standoff -\n2 3 standoff -\n3 1 standoff -\n",
            "2 open -\n1 2 standoff -\n2 3 standoff -\n3 1 standoff -\n",
            "3 open -\n1 2 standoff -\n2 3 standoff -\n3 1 standoff -\n",
            "4 falls 1\n5 4 felling 1\n",
            "5 stands 0\n",
        ],
    ),
    written(
        "an open statement, and a falling one against it",
        "S 30 U\nS 20 R\nS 10 R\nS 9 R\nO 30 20\nO 10 20\nO 9 10\nO 20 10\nO 20 20\n",
        &[
            "30 open -\n",
            "20 open -\n30 20 standoff -\n20 20 standoff -\n",
            "10 falls 1\n9 10 felling 1\n",
            "9 stands 0\n",
        ],
    ),
    written(
        "in the order of the lines, which is not that of the walk",
        "S 4 R\nS 3 R\nS 2 R\nS 1 R\nO 1 2\nO 3 4\nO 2 3\n",
        &[
            "4 falls 3\n1 2 felling 1\n3 4 felling 3\n2 3 delaying 2\n",
            "3 stands 2\n1 2 felling 1\n2 3 delaying 2\n",
            "2 falls 1\n1 2 felling 1\n",
            "1 stands 0\n",
        ],
    ),
    written(
        "numbers of both forms, of which 1987.1 and 1987 are not 1987.14",
        "S 1987.14 R\nS 1987.1 R\nS 1987 R\nS 198714 R\n\
         O 1987.1 1987.14\nO 1987 1987.1\nO 198714 1987\n",
        &[
            "1987.14 falls 3\n1987.1 1987.14 felling 3\n1987 1987.1 delaying 2\n\
             198714 1987 felling 1\n",
            "1987.1 stands 2\n1987 1987.1 delaying 2\n198714 1987 felling 1\n",
            "1987 falls 1\n198714 1987 felling 1\n",
            "198714 stands 0\n",
        ],
    ),
];
