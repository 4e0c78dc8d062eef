use crate::calls::{self, Dumped, Request, Started};
use crate::{Attributes, Namespace, Quarrel, Refused, Status, SwitchBytes, Switches, quarrels};

/// An engine over three lent byte slices, with its switches. Every method but [`Engine::resume`],
/// [`Engine::switches`], [`Engine::has_exited`] and [`Engine::quarrels`] is one call of [`calls`]; a refusal is an `Err`
/// and leaves everything as it was.
///
/// A refused start does not end an engine that is running, which keeps its own switches:
/// [`Engine::power_on_again`] and [`Engine::restart_again`] leave it as it was, and after a refused
/// [`Engine::power_on`] or [`Engine::restart`] over the slices of an engine that was dropped,
/// [`Engine::resume`] goes on with the switches that it had.
///
/// ```
/// use varpolicy::{Engine, POLICY_BYTES, Status};
///
/// let (mut nv, mut volatile, mut policy) = ([0xFF; 256], [0xFF; 256], [0; POLICY_BYTES]);
/// let mut engine = Engine::power_on(&mut nv, &mut volatile, &mut policy, true)?;
/// engine.disable()?;
/// let switches = engine.switches();
///
/// volatile[0] = 0; // no record begins so
/// let refused = Engine::restart(&mut nv, &mut volatile, &mut policy, false);
/// assert_eq!(refused.err(), Some(Status::VolumeCorrupted));
///
/// let mut engine = Engine::resume(&mut nv, &mut volatile, &mut policy, switches);
/// assert!(!engine.is_enabled());
/// engine.power_on_again(false)?; // it wipes the volatile store
/// assert!(engine.is_enabled());
/// # Ok::<(), Status>(())
/// ```
#[derive(Debug)]
pub struct Engine<'a> {
    nv: &'a mut [u8],
    volatile: &'a mut [u8],
    policy: &'a mut [u8],
    switches: SwitchBytes,
}

/// A variable that was read.
#[derive(Clone, Copy, PartialEq, Eq, Debug)]
pub struct Variable<'a> {
    /// Its stored attributes.
    pub attributes: Attributes,
    /// Its payload, a part of the store that holds it.
    pub payload: &'a [u8],
}

/// A refused dump.
#[derive(Clone, Copy, PartialEq, Eq, Debug)]
pub struct NotDumped {
    /// BUFFER_TOO_SMALL, UNSUPPORTED or VOLUME_CORRUPTED.
    pub status: Status,
    /// The needed length, with BUFFER_TOO_SMALL; else 0.
    pub needed: usize,
}

impl<'a> Engine<'a> {
    /// Powers an engine on: see [`calls::power_on`].
    pub fn power_on(
        nv: &'a mut [u8],
        volatile: &'a mut [u8],
        policy: &'a mut [u8],
        disabling_allowed: bool,
    ) -> Result<Engine<'a>, Status> {
        let started = calls::power_on(nv, volatile, policy, disabling_allowed);
        started.status.ok()?;
        Ok(Engine { nv, volatile, policy, switches: started.switches })
    }

    /// Starts an engine over stores that are kept: see [`calls::restart`].
    pub fn restart(
        nv: &'a mut [u8],
        volatile: &'a mut [u8],
        policy: &'a mut [u8],
        disabling_allowed: bool,
    ) -> Result<Engine<'a>, Status> {
        let started = calls::restart(nv, volatile, policy, disabling_allowed);
        started.status.ok()?;
        Ok(Engine { nv, volatile, policy, switches: started.switches })
    }

    /// Goes on with an engine: over the slices as its last call left them, with the switches that it had
    /// then. No call is made, and nothing is checked or changed.
    pub fn resume(
        nv: &'a mut [u8],
        volatile: &'a mut [u8],
        policy: &'a mut [u8],
        switches: impl Into<SwitchBytes>,
    ) -> Engine<'a> {
        Engine { nv, volatile, policy, switches: switches.into() }
    }

    /// Powers this engine on again: see [`calls::power_on`]. Refused, it keeps its own switches.
    pub fn power_on_again(&mut self, disabling_allowed: bool) -> Result<(), Status> {
        let started = calls::power_on(self.nv, self.volatile, self.policy, disabling_allowed);
        self.started(started)
    }

    /// Restarts this engine over its stores: see [`calls::restart`]. Refused, it keeps its own switches.
    pub fn restart_again(&mut self, disabling_allowed: bool) -> Result<(), Status> {
        let started = calls::restart(self.nv, self.volatile, self.policy, disabling_allowed);
        self.started(started)
    }

    /// Takes the switches handed back beside SUCCESS.
    fn started(&mut self, started: Started) -> Result<(), Status> {
        started.status.ok()?;
        self.switches = started.switches;
        Ok(())
    }

    /// The switches.
    pub fn switches(&self) -> Switches {
        self.switches.into()
    }

    /// Registers a packed entry: see [`calls::register`].
    pub fn register(&mut self, entry: &[u8]) -> Result<(), Status> {
        calls::register(self.policy, self.switches, entry).ok()
    }

    /// Dumps the entries and tells their length: see [`calls::dump`].
    pub fn dump(&self, buffer: &mut [u8]) -> Result<usize, NotDumped> {
        let dumped = calls::dump(self.policy, self.switches, buffer);
        match dumped.status {
            Status::Success => Ok(dumped.length),
            status => Err(NotDumped { status, needed: dumped.length }),
        }
    }

    /// The first two entries that quarrel, if any do: see [`quarrels`](crate::quarrels()). If none do, the engine may
    /// be rebuilt from its dump in every order.
    ///
    /// It needs no buffer: a dump into none tells the length, and the policy record begins with the entries.
    ///
    /// * VOLUME_CORRUPTED: the lent policy record is not one.
    /// * UNSUPPORTED: the engine has exited, and nothing is told of its entries; ask of a dump that was made before.
    pub fn quarrels(&self) -> Result<Option<Quarrel>, Status> {
        match calls::dump(self.policy, self.switches, &mut []) {
            Dumped { status: Status::Success | Status::BufferTooSmall, length } => quarrels(&self.policy[..length]),
            refused => Err(refused.status),
        }
    }

    /// Closes registration: see [`calls::lock`].
    pub fn lock(&mut self) -> Result<(), Status> {
        calls::lock(&mut self.switches).ok()
    }

    /// Turns enforcement off: see [`calls::disable`].
    pub fn disable(&mut self) -> Result<(), Status> {
        calls::disable(&mut self.switches).ok()
    }

    /// Tells the engine that the operating system starts: see [`calls::exit`].
    pub fn exit(&mut self) -> Result<(), Status> {
        calls::exit(&mut self.switches).ok()
    }

    /// Whether the operating system has started: since a granted [`Engine::exit`] no start was granted.
    pub fn has_exited(&self) -> bool {
        self.switches().exited
    }

    /// Whether entries are enforced: see [`calls::query`].
    pub fn is_enabled(&self) -> bool {
        calls::query(self.switches).1
    }

    /// Reads a variable: see [`calls::read`].
    pub fn read(&self, namespace: &Namespace, name: &[u8]) -> Result<Variable<'_>, Status> {
        let found = calls::read(self.nv, self.volatile, self.switches, namespace, name);
        found.status.ok()?;
        Ok(Variable { attributes: found.attributes, payload: found.payload })
    }

    /// Whether a variable is settled, its lock hanging on nothing that may still change: see [`calls::settled`]. While the
    /// engine is enabled and locked a yes lasts until the next granted start.
    ///
    /// ```
    /// use varpolicy::{Attributes, Engine, Entry, Lock, Name, POLICY_BYTES, Status};
    ///
    /// let board = *b"sixteen bytes..!";
    /// let (mut nv, mut volatile, mut policy) = ([0xFF; 256], [0xFF; 256], [0; POLICY_BYTES]);
    /// let mut engine = Engine::power_on(&mut nv, &mut volatile, &mut policy, false)?;
    ///
    /// // The supply limit is locked while Armed holds 1.
    /// let (limit, armed) = (Name::new("Limit").unwrap(), Name::new("Armed").unwrap());
    /// let lock = Lock::OnVarState { namespace: board, name: armed, value: 1 };
    /// engine.register(&Entry { lock, ..Entry::new(board, limit) }.pack())?;
    /// engine.set(&board, &armed, Attributes::BS, &[1])?;
    /// assert!(!engine.settled(&board, &limit)?); // Armed may still change
    ///
    /// engine.register(&Entry { lock: Lock::OnCreate, ..Entry::new(board, armed) }.pack())?;
    /// engine.lock()?;
    /// assert!(engine.settled(&board, &limit)?);
    /// # Ok::<(), Status>(())
    /// ```
    pub fn settled(&self, namespace: &Namespace, name: &[u8]) -> Result<bool, Status> {
        let answer = calls::settled(self.nv, self.volatile, self.policy, namespace, name);
        answer.status.ok().map(|()| answer.settled)
    }

    /// Sets a variable: see [`calls::set`]. The refusal has the report beside the status.
    pub fn set(
        &mut self,
        namespace: &Namespace,
        name: &[u8],
        attributes: Attributes,
        payload: &[u8],
    ) -> Result<(), Refused> {
        let request = Request { namespace, name, attributes, payload };
        calls::set(self.nv, self.volatile, self.policy, self.switches, request).ok()
    }

    /// Deletes a variable: a set with no attributes and no payload.
    pub fn delete(&mut self, namespace: &Namespace, name: &[u8]) -> Result<(), Refused> {
        self.set(namespace, name, Attributes::NONE, &[])
    }
}
