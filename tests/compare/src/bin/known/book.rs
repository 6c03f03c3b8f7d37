//! The records one after the other, each made by a call of the side.

use crate::side::{Block, Side};
use crate::value::{plain, plain_or_last, plain_or_sum};
use compare::records::Call;

/// What every byte of a room holds before a call.
const FILLING: u8 = 0xee;

/// What the result blocks hold before a call, so that one not written is seen.
const FILLED: [Block; 2] = [[0xa5; 16], [0x5a; 16]];

const TOP: &str = include_str!("top.txt");

pub struct Book {
    side: &'static Side,
    text: String,
    records: usize,
    /// The output of the record before.
    last: Vec<u8>,
}

/// A call of fork or unfork, without what the result blocks hold before it.
#[derive(Clone, Copy)]
pub struct BlockCall {
    pub cipher: u32,
    /// The cipher for which the key is prepared; by key if there is none.
    pub prepared: Option<u32>,
    pub key: Block,
    pub tweak: Block,
    pub block: Block,
    pub want: u32,
}

impl Book {
    pub fn new(side: &'static Side) -> Book {
        Book {
            side,
            text: TOP.to_string(),
            records: 0,
            last: Vec::new(),
        }
    }

    /// What the records from here on are about.
    pub fn section(&mut self, about: &str) {
        self.text += &format!("\n# ---- {}\n", about);
    }

    /// The last line tells how many records there are, so that a file that
    /// is cut off can be told.
    pub fn end(mut self) -> String {
        self.text += "\n";
        self.field("end", &self.records.to_string());
        self.text
    }

    fn field(&mut self, name: &str, value: &str) {
        self.text += &format!("{} = {}\n", name, value);
    }

    fn begin(&mut self, call: &str, about: &str) {
        self.records += 1;
        self.text += "\n";
        if !about.is_empty() {
            self.text += &format!("# {}\n", about);
        }
        self.field("record", &self.records.to_string());
        self.field("call", call);
    }

    /// The same of a call that takes a prepared key too; `of` names the scheme or
    /// cipher.
    fn begin_keyed(&mut self, call: &str, about: &str, of: (&str, u32), prepared: Option<u32>) {
        let behind = prepared.map_or("", |_| "_prepared");
        self.begin(&format!("{}{}", call, behind), about);
        self.field(of.0, &of.1.to_string());
        if let Some(cipher) = prepared {
            self.field("prepared", &cipher.to_string());
        }
    }

    /// A record of seal or open. The number that the record is there for has
    /// to come, or what is said of it would be wrong. Gives the output.
    pub fn sealing(&mut self, about: &str, call: &Call, number: u32) -> Vec<u8> {
        self.any_sealing(about, call, None, number)
    }

    /// The same with the key prepared for a cipher.
    pub fn sealing_prepared(&mut self, about: &str, call: &Call, of: u32, number: u32) -> Vec<u8> {
        self.any_sealing(about, call, Some(of), number)
    }

    fn any_sealing(
        &mut self,
        about: &str,
        call: &Call,
        prepared: Option<u32>,
        number: u32,
    ) -> Vec<u8> {
        let (name, scheme) = (call.direction.name(), ("scheme", call.scheme));
        self.begin_keyed(name, about, scheme, prepared);
        let mut room = vec![FILLING; call.room];
        self.field("key", &plain(&call.key));
        self.field("nonce", &plain(&call.nonce));
        self.field("header", &plain(&call.header));
        let text_name = call.direction.of(["body", "sealed"]);
        self.field(text_name, &plain_or_last(&call.text, &self.last));
        self.field("room", &plain(&room));
        let answer = match prepared {
            None => call.make(self.side.sealing, &mut room),
            Some(of) => (self.side.sealing_prepared)(of, call, &mut room),
        };
        assert_eq!(answer.number, number, "record {}: {}", self.records, about);
        self.field("number", &answer.number.to_string());
        self.field("length", &answer.length.to_string());
        self.field("after", &plain_or_sum(&room));
        room.truncate(answer.length);
        self.last = room;
        self.last.clone()
    }

    fn begin_block(&mut self, name: &str, about: &str, call: &BlockCall) {
        self.begin_keyed(name, about, ("cipher", call.cipher), call.prepared);
        self.field("key", &plain(&call.key));
        self.field("tweak", &plain(&call.tweak));
        self.field("block", &plain(&call.block));
    }

    /// A record of fork. Gives both halves.
    pub fn fork(&mut self, about: &str, call: &BlockCall, number: u32) -> [Block; 2] {
        self.begin_block("fork", about, call);
        self.field("want", &call.want.to_string());
        let BlockCall { cipher, want, .. } = *call;
        let (key, tweak, block) = (&call.key, &call.tweak, &call.block);
        let [mut half0, mut half1] = FILLED;
        let halves = [&mut half0, &mut half1];
        let side = self.side;
        let told = match call.prepared {
            None => (side.fork)(cipher, key, tweak, block, want, halves),
            Some(of) => (side.fork_prepared)(of, cipher, key, tweak, block, want, halves),
        };
        assert_eq!(told, number, "record {}: {}", self.records, about);
        self.field("number", &told.to_string());
        self.field("half0", &plain(&half0));
        self.field("half1", &plain(&half1));
        self.last.clear();
        [half0, half1]
    }

    /// A record of unfork.
    pub fn unfork(&mut self, about: &str, call: &BlockCall, from: u32, number: u32) {
        self.begin_block("unfork", about, call);
        self.field("from", &from.to_string());
        self.field("want", &call.want.to_string());
        let BlockCall { cipher, want, .. } = *call;
        let (key, tweak, block) = (&call.key, &call.tweak, &call.block);
        let [mut input, mut other] = FILLED;
        let ends = [&mut input, &mut other];
        let side = self.side;
        let told = match call.prepared {
            None => (side.unfork)(cipher, key, tweak, block, from, want, ends),
            Some(of) => (side.unfork_prepared)(of, cipher, key, tweak, block, from, want, ends),
        };
        assert_eq!(told, number, "record {}: {}", self.records, about);
        self.field("number", &told.to_string());
        self.field("input", &plain(&input));
        self.field("other", &plain(&other));
        self.last.clear();
    }

    /// A record of prepare.
    pub fn prepare(&mut self, about: &str, cipher: u32, key: &[u8], number: u32) {
        self.begin("prepare", about);
        self.field("cipher", &cipher.to_string());
        self.field("key", &plain(key));
        let told = (self.side.prepare)(cipher, key);
        assert_eq!(told, number, "record {}: {}", self.records, about);
        self.field("number", &told.to_string());
        self.last.clear();
    }

    /// A record of rounds.
    pub fn rounds(&mut self, about: &str, scheme: u32, [header, body]: [usize; 2], number: u32) {
        self.begin("rounds", about);
        self.field("scheme", &scheme.to_string());
        self.field("header_len", &header.to_string());
        self.field("body_len", &body.to_string());
        let answer = (self.side.rounds)(scheme, header, body);
        assert_eq!(answer.number, number, "record {}: {}", self.records, about);
        self.field("number", &answer.number.to_string());
        self.field("rounds", &answer.rounds.to_string());
        self.last.clear();
    }
}
