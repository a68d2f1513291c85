//! The tests by name. A suite is a file that makes some of them; each test stops at the first
//! difference and shows the input.

mod asked;
mod catalogue;
pub mod corpus;
mod examples;
mod limits;
mod meaning;
mod mending;
mod numbers;
mod order;
mod reasons;
mod refusals;
mod rooms;
mod shapes;
mod sheets;
mod small;
mod texts;

use crate::library::session::Session;

/// What a test does. It fails with the input and what was wrong with the answer.
type Run = Box<dyn Fn(&mut Session) -> Result<(), String> + Sync>;

pub struct Test {
    pub name: String,
    pub run: Run,
}

impl Test {
    fn new(
        name: impl Into<String>,
        run: impl Fn(&mut Session) -> Result<(), String> + Sync + 'static,
    ) -> Self {
        Test {
            name: name.into(),
            run: Box::new(run),
        }
    }
}

pub fn all() -> Vec<Test> {
    let suites = [
        meaning::tests(),
        examples::tests(),
        small::tests(),
        shapes::tests(),
        limits::tests(),
        rooms::tests(),
        refusals::tests(),
        order::tests(),
        numbers::tests(),
        texts::tests(),
        asked::tests(),
        reasons::tests(),
        sheets::tests(),
        mending::tests(),
        catalogue::tests(),
        corpus::tests(),
    ];
    suites.into_iter().flatten().collect()
}
