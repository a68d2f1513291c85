//! The rows of a listing or a reason as they are printed, told apart by their fields. What a row says
//! is taken from its bytes, and from no solver.

/// The row of an objection, and its first three fields.
pub struct Row<'a> {
    pub whole: &'a str,
    pub objector: &'a str,
    pub target: &'a str,
    pub kind: &'a str,
}

/// The rows of the objections, which alone have four fields.
pub fn objections(printed: &str) -> impl Iterator<Item = Row<'_>> {
    printed.lines().filter_map(|whole| {
        let fields: Vec<&str> = whole.split('\t').collect();
        match fields[..] {
            [objector, target, kind, _] => Some(Row {
                whole,
                objector,
                target,
                kind,
            }),
            _ => None,
        }
    })
}

/// The number and the label of the statement that a reason is for, which its first row has.
pub fn asked(reason: &str) -> Result<(&str, &str), String> {
    let fields: Vec<&str> = reason.lines().next().unwrap_or("").split('\t').collect();
    match fields[..] {
        [number, label, _] => Ok((number, label)),
        _ => Err(format!("no row of a statement comes first: {reason:?}")),
    }
}
