//! Registers with year numbers, each with what the program prints of it written out. Tabs are shown as
//! spaces, as they are in 01.

use super::examples::{example, Example};

pub const YEARS: [Example; 18] = [
    example(
        "one of each form",
        "S 1987.14 R\nS 14 R\n",
        "REGISTER 2 0\n1987.14 stands 0\n14 stands 0\n",
    ),
    example(
        "1987.14 is neither 198714 nor 1987 nor 14",
        "S 1987.14 R\nS 198714 R\nS 1987 U\nS 14 R\nO 198714 1987.14\nO 1987.14 1987\nO 14 14\n",
        "REGISTER 4 3\n1987.14 falls 1\n198714 stands 0\n1987 open -\n14 open -\n\
         198714 1987.14 felling 1\n1987.14 1987 idle -\n14 14 standoff -\n",
    ),
    example(
        "a chain of both forms",
        "S 2004.1 U\nS 1987 R\nS 1987.9999 R\nS 99999999 R\n\
         O 99999999 1987.9999\nO 1987.9999 1987\nO 1987 2004.1\n",
        "REGISTER 4 3\n2004.1 falls 3\n1987 stands 2\n1987.9999 falls 1\n99999999 stands 0\n\
         99999999 1987.9999 felling 1\n1987.9999 1987 delaying 2\n1987 2004.1 felling 3\n",
    ),
    example(
        "a circle of one year",
        "S 1987.1 R\nS 1987.10 R\nS 1987.100 R\n\
         O 1987.1 1987.10\nO 1987.10 1987.100\nO 1987.100 1987.1\n",
        "REGISTER 3 3\n1987.1 open -\n1987.10 open -\n1987.100 open -\n\
         1987.1 1987.10 standoff -\n1987.10 1987.100 standoff -\n1987.100 1987.1 standoff -\n",
    ),
    example(
        "the least year number",
        "S 1000.1 R\nO 1000.1 1000.1\n",
        "REGISTER 1 1\n1000.1 open -\n1000.1 1000.1 standoff -\n",
    ),
    example(
        "the greatest year number",
        "S 2099.9999 R\nO 2099.9999 2099.9999\n",
        "REGISTER 1 1\n2099.9999 open -\n2099.9999 2099.9999 standoff -\n",
    ),
    example(
        "a year before 1000",
        "S 1000.1 R\nS 0999.1 R\n",
        "REFUSED 3 2\n",
    ),
    example(
        "a year after 2099",
        "S 2099.1 R\nS 2100.1 R\n",
        "REFUSED 3 2\n",
    ),
    example("a year of three digits", "S 999.1 R\n", "REFUSED 3 1\n"),
    example("a year of five digits", "S 19870.1 R\n", "REFUSED 3 1\n"),
    example("no serial", "S 1987. R\n", "REFUSED 3 1\n"),
    example("serial 0", "S 1987.0 R\n", "REFUSED 3 1\n"),
    example(
        "serial 01",
        "S 1987.1 R\nO 1987.1 1987.01\n",
        "REFUSED 3 2\n",
    ),
    example(
        "a serial of five digits",
        "S 1987.1 R\nO 1987.12345 1987.1\n",
        "REFUSED 3 2\n",
    ),
    example(
        "a comma for the point",
        "S 1987.14 R\nS 1987,14 R\n",
        "REFUSED 3 2\n",
    ),
    example(
        "a year number issued twice",
        "S 1987.14 R\nS 198714 R\nS 1987.14 U\n",
        "REFUSED 5 3\n",
    ),
    example(
        "an unknown year number",
        "S 1987.1 R\nS 1987 R\nO 1987 1987.1\nO 1987 1987.10\n",
        "REFUSED 7 4\n",
    ),
    example(
        "a repeated objection of year numbers",
        "S 1987.1 R\nS 1987.10 R\nO 1987.1 1987.10\nO 1987.10 1987.1\nO 1987.1 1987.10\n",
        "REFUSED 8 5\n",
    ),
];
