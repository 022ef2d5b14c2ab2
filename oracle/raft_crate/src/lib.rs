//! The crate raft 0.7.0, as far as the port goes: raft_log.rs, log_unstable.rs, quorum/majority.rs,
//! quorum/joint.rs and tracker/inflights.rs with what they lean on (storage.rs, errors.rs, util.rs,
//! quorum.rs), compiled unchanged from the folder that holds them (see build.rs). Written here: what the
//! crate's own lib.rs holds (its macro, its hash types, its names), the generated `eraftpb` as plain data,
//! and readers of private fields.

#![allow(dead_code, deprecated, unexpected_cfgs, unused_imports, clippy::all)]

// As in the crate's lib.rs: a fatal error is a panic with the message.
macro_rules! fatal {
    ($logger:expr, $msg:expr) => {{
        let owned_kv = ($logger).list();
        let s = crate::util::format_kv_list(&owned_kv);
        if s.is_empty() {
            panic!("{}", $msg)
        } else {
            panic!("{}, {}", $msg, s)
        }
    }};
    ($logger:expr, $fmt:expr, $($arg:tt)+) => {{
        fatal!($logger, format_args!($fmt, $($arg)+))
    }};
}

pub mod eraftpb;

include!(concat!(env!("OUT_DIR"), "/modules.rs"));

pub use errors::{Error, Result, StorageError};
pub use files::{log_unstable, quorum, raft_log, storage, util};
pub use inflights::Inflights;
pub use log_unstable::Unstable;
pub use quorum::joint::Configuration as JointConfig;
pub use quorum::majority::Configuration as MajorityConfig;
pub use quorum::{AckedIndexer, Index, VoteResult};
pub use raft_log::RaftLog;
pub use storage::{GetEntriesContext, MemStorage, RaftState, Storage};
pub use util::majority;

type DefaultHashBuilder = std::hash::BuildHasherDefault<fxhash::FxHasher>;
pub type HashSet<K> = std::collections::HashSet<K, DefaultHashBuilder>;

/// A configuration of two halves: the crate's own constructor makes only the incoming one.
pub fn joint(incoming: HashSet<u64>, outgoing: HashSet<u64>) -> JointConfig {
    JointConfig { incoming: MajorityConfig::new(incoming), outgoing: MajorityConfig::new(outgoing) }
}

/// How many ids each half has.
pub fn sizes(config: &JointConfig) -> (usize, usize) {
    (config.incoming.ids().len(), config.outgoing.ids().len())
}

/// A logger that writes nothing.
pub fn silent() -> slog::Logger {
    slog::Logger::root(slog::Discard, slog::o!())
}

pub use slog::Logger;
