//! The state file of a program: what it went on from, and where it keeps what it will go on from.

use crate::notes::Notes;
use crate::open::OPEN;
use crate::peers::Peers;
use crate::post::{OWN, PEER};
use crate::standing::SAMPLER;
use crate::state::{State, Whose};
use kit::{layout, whole};
use std::net::SocketAddr;
use wtp::{Name, Role, Salvaged, Table};

/// Far more than the largest table with its store and a day's samplers.
const LARGEST: u64 = 16_000_000;
/// What a note may begin with.
const WORDS: [&str; 4] = [OWN, PEER, OPEN, SAMPLER];

pub struct Keeper {
    file: String,
    whose: Whose,
    /// What the file holds; nothing where that isn't known.
    written: Vec<u8>,
    failing: bool,
}

/// What a program goes on from.
pub struct Resumed {
    file: String,
    pub table: Table,
    pub notes: Notes,
    /// The socket's own address.
    pub own: SocketAddr,
    pub peers: Peers,
    salvaged: Vec<Salvaged>,
}

impl Keeper {
    /// A state file and what it holds; nothing where there is none yet. One that can't be used stays as it is.
    pub fn open(file: &str, whose: Whose) -> Result<(Keeper, Option<Resumed>), String> {
        whole::is_plain(file)?;
        let mut keeper = Keeper { file: file.into(), whose, written: Vec::new(), failing: false };
        let octets = match whole::read(file, LARGEST)? {
            Some(octets) => octets,
            None => return Ok((keeper, None)),
        };
        let resumed = Resumed::of(file, whose, &octets).map_err(|what| format!("{file}: {what}"))?;
        keeper.written = octets;
        Ok((keeper, Some(resumed)))
    }

    /// Writes the file where it isn't what it holds already. A line where that fails, and where it works again.
    pub fn keep(&mut self, table: &Table, notes: &Notes) -> Option<String> {
        let (octets, store) = table.octets();
        let state = State { whose: self.whose, table: octets.to_vec(), store: store.to_vec(), notes: notes.octets() };
        let octets = state.octets();
        if octets == self.written {
            return None;
        }
        match whole::replace(&self.file, &octets) {
            Ok(()) => {
                self.written = octets;
                std::mem::take(&mut self.failing).then(|| format!("{}: is written again", self.file))
            }
            Err(why) => {
                self.written.clear();
                (!std::mem::replace(&mut self.failing, true)).then_some(why)
            }
        }
    }
}

impl Resumed {
    fn of(file: &str, whose: Whose, octets: &[u8]) -> Result<Resumed, String> {
        let state = State::of(octets)?;
        if state.whose != whose {
            return Err(format!("is the state of a {}, not of a {}", state.whose.name(), whose.name()));
        }
        let notes = Notes::of(&state.notes, &WORDS)?;
        let peers = Peers::of(notes.values(PEER)?)?;
        let own = match notes.values(OWN)?[..] {
            [own] => own,
            _ => return Err("its notes don't name one own address".into()),
        };
        let mut table = Table::kept(state.table, state.store);
        let salvaged = table.salvage().map_err(|why| format!("its table can't be salvaged: {why}"))?;
        Ok(Resumed { file: file.into(), table, notes, own, peers, salvaged })
    }

    /// The time of the table's last call: the program's goes on from there.
    pub fn clock(&self) -> u64 {
        layout::CLOCK.get(self.table.octets().0)
    }

    /// The message on something in the file that its program can't use.
    pub fn wrong(&self, what: &str) -> String {
        format!("{}: {what}", self.file)
    }

    /// What is gone on from, and a line for each place that was damaged and is freed.
    pub fn lines(&self) -> Vec<String> {
        let Resumed { file, salvaged, .. } = self;
        let (live, peers) = (live(&self.table).len(), self.peers.count());
        let mut lines = vec![format!("goes on from {file}: live transactions {live}, peers {peers}")];
        lines.extend(salvaged.iter().map(|one| format!("{file}: place {} was freed: {}", one.place, one.damage)));
        lines
    }
}

/// The names of a table's live records.
pub fn live(table: &Table) -> Vec<Name> {
    let octets = table.octets().0.get(layout::HEADER..).unwrap_or_default();
    octets.chunks_exact(layout::RECORD).filter_map(name).collect()
}

fn name(record: &[u8]) -> Option<Name> {
    let role = match layout::STATE.get(record) {
        0 => return None,
        state if state <= layout::INITIATOR_STATES => Role::Initiator,
        _ => Role::Responder,
    };
    let [peer, tid] = [layout::PEER, layout::TID].map(|field| u16::try_from(field.get(record)).unwrap_or_default());
    Some(Name { role, peer, tid })
}
