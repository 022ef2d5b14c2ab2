//! What raft-proto generates from eraftpb.proto, written by hand as plain data: the fields and accessors that
//! the compiled files name, no more. The generated file itself is not to be had.

use protobuf::reflect::MessageDescriptor;
use protobuf::{
    Clear, CodedInputStream, CodedOutputStream, Message as PbMessage, ProtobufResult, UnknownFields,
};
use std::any::Any;
use std::fmt;

/// A record. Its body number stands in the data, as bytes.
#[derive(Clone, Default, PartialEq, Eq)]
pub struct Entry {
    pub term: u64,
    pub index: u64,
    pub data: [u8; 8],
    pub context: [u8; 0],
}

impl Entry {
    pub fn of(index: u64, term: u64, body: u64) -> Entry {
        Entry { term, index, data: body.to_le_bytes(), context: [] }
    }

    pub fn body(&self) -> u64 {
        u64::from_le_bytes(self.data)
    }

    pub fn get_index(&self) -> u64 {
        self.index
    }

    pub fn get_term(&self) -> u64 {
        self.term
    }
}

/// Index, term and body, for a mismatch's reader.
impl fmt::Debug for Entry {
    fn fmt(&self, f: &mut fmt::Formatter<'_>) -> fmt::Result {
        write!(f, "({}, {}, {})", self.index, self.term, self.body())
    }
}

// The crate cuts lists of entries by their encoded size. Sizes are out of the port and no limit is ever
// given, so that nothing here is called: it only has to be a message.
impl PbMessage for Entry {
    fn descriptor(&self) -> &'static MessageDescriptor {
        unreachable!("entries are not encoded")
    }

    fn is_initialized(&self) -> bool {
        true
    }

    fn merge_from(&mut self, _: &mut CodedInputStream<'_>) -> ProtobufResult<()> {
        unreachable!("entries are not decoded")
    }

    fn write_to_with_cached_sizes(&self, _: &mut CodedOutputStream<'_>) -> ProtobufResult<()> {
        unreachable!("entries are not encoded")
    }

    fn compute_size(&self) -> u32 {
        unreachable!("no size limit is given")
    }

    fn get_cached_size(&self) -> u32 {
        unreachable!("no size limit is given")
    }

    fn get_unknown_fields(&self) -> &UnknownFields {
        unreachable!("entries are not decoded")
    }

    fn mut_unknown_fields(&mut self) -> &mut UnknownFields {
        unreachable!("entries are not decoded")
    }

    fn as_any(&self) -> &dyn Any {
        self
    }

    fn new() -> Entry {
        Entry::default()
    }

    fn default_instance() -> &'static Entry {
        unreachable!("nothing asks for it")
    }
}

impl Clear for Entry {
    fn clear(&mut self) {
        *self = Entry::default();
    }
}

#[derive(Clone, Debug, Default, PartialEq, Eq)]
pub struct ConfState {
    pub voters: Vec<u64>,
}

#[derive(Clone, Debug, Default, PartialEq, Eq)]
pub struct HardState {
    pub term: u64,
    pub vote: u64,
    pub commit: u64,
}

#[derive(Clone, Debug, Default, PartialEq, Eq)]
pub struct SnapshotMetadata {
    pub conf_state: ConfState,
    pub index: u64,
    pub term: u64,
}

impl SnapshotMetadata {
    pub fn set_conf_state(&mut self, v: ConfState) {
        self.conf_state = v;
    }

    pub fn take_conf_state(&mut self) -> ConfState {
        std::mem::take(&mut self.conf_state)
    }
}

#[derive(Clone, Debug, Default, PartialEq, Eq)]
pub struct Snapshot {
    pub metadata: SnapshotMetadata,
}

impl Snapshot {
    pub fn get_metadata(&self) -> &SnapshotMetadata {
        &self.metadata
    }

    pub fn mut_metadata(&mut self) -> &mut SnapshotMetadata {
        &mut self.metadata
    }

    pub fn take_metadata(&mut self) -> SnapshotMetadata {
        std::mem::take(&mut self.metadata)
    }
}

#[derive(Clone, Debug, Default, PartialEq, Eq)]
pub struct Message {
    pub entries: Vec<Entry>,
}
