//! A limit that a figure is held to.

pub struct Goal {
    pub words: String,
    pub measured: String,
    pub holds: bool,
}

impl Goal {
    pub fn at_most(words: impl Into<String>, measured: f64, limit: f64) -> Goal {
        Goal { words: words.into(), measured: format!("{measured:.2}"), holds: measured <= limit }
    }
}
