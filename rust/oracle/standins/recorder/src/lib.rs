//! Ours, not a stand-in: the list of backend operations that the stand-ins were asked for, and
//! the answers that a script gives them.
//!
//! One list for the whole process, because the code under test reaches its backend without a
//! handle (`guestmem::rcu()`, `Mshv::new()`) and from several threads.

pub use protocol::Failure;
pub use protocol::Op;
pub use protocol::op::Attributes;
pub use protocol::op::Pages;
use std::collections::BTreeMap;
use std::sync::Arc;
use std::sync::Mutex;
use std::sync::MutexGuard;
use std::sync::PoisonError;
use std::sync::atomic::AtomicBool;
use std::sync::atomic::Ordering::Relaxed;

/// An operation and, while someone watches, the maps at the moment it was asked for.
#[derive(Debug, Clone, PartialEq, Eq)]
pub struct Asked {
    pub op: Op,
    pub maps: Option<String>,
}

/// What one call asked for.
#[derive(Debug, Default, Clone, PartialEq, Eq)]
pub struct Record {
    pub asked: Vec<Asked>,
    /// The operations, counted from 1, that were to fail and cannot.
    pub cannot_fail: Vec<u64>,
}

/// Shows the maps; called at every operation but Register.
pub type Watch = Arc<dyn Fn() -> String + Send + Sync>;

struct State {
    record: Record,
    failures: BTreeMap<u64, Failure>,
    watch: Option<Watch>,
}

static STATE: Mutex<State> = Mutex::new(State {
    record: Record {
        asked: Vec::new(),
        cannot_fail: Vec::new(),
    },
    failures: BTreeMap::new(),
    watch: None,
});
static IDLE: AtomicBool = AtomicBool::new(false);
static RELEASE: AtomicBool = AtomicBool::new(false);

fn state() -> MutexGuard<'static, State> {
    STATE.lock().unwrap_or_else(PoisonError::into_inner)
}

/// Starts an empty record; the keys of `failures` count the operations from 1.
pub fn begin(failures: BTreeMap<u64, Failure>, watch: Option<Watch>) {
    *state() = State {
        record: Record::default(),
        failures,
        watch,
    };
}

/// Ends the record and gives it.
pub fn finish() -> Record {
    let mut state = state();
    state.failures.clear();
    state.watch = None;
    std::mem::take(&mut state.record)
}

/// While idle every operation is done at once and nothing is recorded (for measuring).
pub fn set_idle(idle: bool) {
    IDLE.store(idle, Relaxed);
}

/// Whether operations are neither recorded nor scripted.
pub fn idle() -> bool {
    IDLE.load(Relaxed)
}

/// Whether the TDX module wants pages released before they are shared.
pub fn set_release(release: bool) {
    RELEASE.store(release, Relaxed);
}

/// What `set_release` said last.
pub fn release() -> bool {
    RELEASE.load(Relaxed)
}

/// Asks for an operation that may fail.
pub fn ask(op: Op) -> Result<(), Failure> {
    if idle() {
        return Ok(());
    }
    let mut state = state();
    let number = note(&mut state, op);
    match state.failures.remove(&number) {
        Some(failure) => Err(failure),
        None => Ok(()),
    }
}

/// Asks for an operation that has no way to fail.
pub fn tell(op: Op) {
    if idle() {
        return;
    }
    let mut state = state();
    let number = note(&mut state, op);
    if state.failures.remove(&number).is_some() {
        state.record.cannot_fail.push(number);
    }
}

fn note(state: &mut State, op: Op) -> u64 {
    let maps = match (&op, &state.watch) {
        (Op::Register { .. }, _) | (_, None) => None,
        (_, Some(watch)) => Some(watch()),
    };
    state.record.asked.push(Asked { op, maps });
    state.record.asked.len() as u64
}

#[cfg(test)]
mod tests {
    use super::*;

    // One test: the record is the process's.
    #[test]
    fn answers_as_scripted_and_keeps_the_order() {
        let failure = Failure {
            code: 5,
            processed: 7,
        };
        let script = BTreeMap::from([(1, failure), (2, failure), (9, failure)]);
        begin(script, Some(Arc::new(|| "maps".to_string())));
        tell(Op::Wait);
        let pages = Pages { first: 3, count: 2 };
        assert_eq!(ask(Op::Zero(pages)), Err(failure));
        assert_eq!(ask(Op::Register { start: 0, end: 1 }), Ok(()));
        set_idle(true);
        assert_eq!(ask(Op::Release(pages)), Ok(()));
        set_idle(false);
        let record = finish();
        assert_eq!(record.cannot_fail, [1]);
        let ops: Vec<_> = record.asked.iter().map(|a| a.op.clone()).collect();
        assert_eq!(
            ops,
            [Op::Wait, Op::Zero(pages), Op::Register { start: 0, end: 1 }]
        );
        assert_eq!(record.asked[1].maps.as_deref(), Some("maps"));
        assert_eq!(record.asked[2].maps, None);
        assert_eq!(finish(), Record::default());
    }
}
