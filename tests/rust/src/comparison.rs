//! Stores compared over random sessions.

use crate::coverage::Coverage;
use crate::engines::{difference, failing_call, Engines, Stores};
use crate::generate::{Generator, Start};
use crate::session::Session;
use crate::shrink::shrink;

pub struct Comparison<'s> {
    stores: Stores<'s>,
    pub generator: Generator,
    pub coverage: Coverage,
    pub engines: Engines<'s>,
}

impl<'s> Comparison<'s> {
    pub fn new(stores: Stores<'s>, seed: u64) -> Comparison<'s> {
        let (generator, coverage) = (Generator::new(seed), Coverage::default());
        Comparison { stores, generator, coverage, engines: Engines::new(stores) }
    }

    /// Whole sessions with at least so many calls together; the session that fails is given up to its failing call.
    pub fn run(&mut self, calls: u64) -> Result<(), Session> {
        while self.coverage.calls() < calls {
            self.session()?;
        }
        Ok(())
    }

    fn session(&mut self) -> Result<(), Session> {
        let start = self.generator.start();
        self.engines.start(&start.session);
        self.coverage.start(self.engines.tables(), &start);
        let Start { mut session, calls, .. } = start;
        let mut before = [Vec::new(), Vec::new()];
        for _ in 0..calls {
            for (before, table) in before.iter_mut().zip(self.engines.tables()) {
                before.clear();
                before.extend_from_slice(table);
            }
            let tables = [before[0].as_slice(), &before[1]];
            let call = self.generator.call(tables);
            let result = self.engines.call(&call);
            if let Ok(answers) = &result {
                self.coverage.count(tables, &call, answers);
            }
            session.calls.push(call);
            if result.is_err() {
                return Err(session);
            }
        }
        Ok(())
    }

    /// A failing session made small, and its difference.
    pub fn shrunk(&self, session: Session) -> (Session, String) {
        let fails = |session: &Session| difference(self.stores, session).is_some();
        let late = failing_call(self.stores, &session).filter(fails);
        let small = shrink(late.unwrap_or(session), fails);
        let (number, what) = difference(self.stores, &small).unwrap_or_default();
        (small, format!("call {number}: {what}"))
    }
}
