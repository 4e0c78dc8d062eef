//! Random histories in which entries hang on one another by their triggers, so that settled variables (docs/RULES.md,
//! 10.14) are met; they are watched, as 12.9 says.

use super::{History, Run};
use crate::call::Call;
use crate::chains::RandomChain;
use crate::lasting::Lasting;
use crate::make::packed;
use crate::state::State;

impl Run<'_> {
    /// A history that begins with a chain of triggers and mostly with a lock, and goes on with calls on the chain's
    /// variables, with rebuilds between them.
    pub(super) fn chain_history(&mut self) -> Result<(), String> {
        let chain = RandomChain::new(&mut self.random);
        self.pool = chain.pool();
        let lengths = [600, 1200, 2048];
        let (nv_len, volatile_len) = (self.random.pick(&lengths), self.random.pick(&lengths));
        let mut history = self.powered_on(&vec![0xFF; nv_len], vec![0xFF; volatile_len])?;
        for call in chain.calls(&mut self.random) {
            self.step(&mut history, &call)?;
        }
        for (call, times_in_12) in [(Call::Disable, 1), (Call::Lock, 9), (Call::Exit, 2)] {
            if self.random.below(12) < times_in_12 {
                self.step(&mut history, &call)?;
            }
        }
        let mut lasting = Lasting::default();
        for _ in 0..10 + self.random.below(40) {
            self.chain_step(&mut history, &chain, &mut lasting)?;
        }
        Ok(())
    }

    /// A rebuild, a question for a variable of the chain, which is watched then, or any call.
    fn chain_step(&mut self, history: &mut History, chain: &RandomChain, lasting: &mut Lasting) -> Result<(), String> {
        match self.random.below(20) {
            0 => {
                let order = history.order.clone();
                self.rebuild(history)?;
                lasting.follow_rebuild(self.comparison, &mut history.sides, history.order == order)
            }
            1..=4 => {
                let (namespace, name) = chain.variable(&mut self.random);
                self.step(history, &Call::Settled { namespace, name: name.clone() })?;
                lasting.watch(self.comparison, &mut history.sides, (namespace, name))
            }
            _ => {
                let call = self.call(&history.sides.library);
                let granted = self.step(history, &call)?;
                lasting.follow(self.comparison, &mut history.sides, &call, granted)
            }
        }
    }

    /// The entries of a chain of triggers, over stores that hold its variables.
    pub(super) fn chain_state(&mut self) -> State {
        let chain = RandomChain::new(&mut self.random);
        self.pool = chain.pool();
        let [nv, volatile] = chain.stores();
        State::new(&nv, &volatile, &packed(&chain.entries))
    }
}
