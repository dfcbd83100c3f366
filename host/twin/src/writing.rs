//! The writer's call: a PDU from its words.

use crate::bounds;
use crate::output::Output;
use crate::pdu::{header_length, Malformed};
use crate::words::*;

/// The words of a PDU to be written, and the octets that its parts lie in.
struct Wanted<'a> {
    words: &'a [u64],
    bytes: &'a [u8],
}

pub fn write(fields: &[u64], bytes: &[u8], out: &mut [u8], answer: &mut [u64]) -> u64 {
    let (words, answer) = match (fields.get(..FIELDS), answer.get_mut(..ANSWER)) {
        (Some(words), Some(answer)) if out.len() >= bounds::OUTPUT => (words, answer),
        _ => return 1,
    };
    let wanted = Wanted { words, bytes };
    if let Err(number) = wanted.judge() {
        return number;
    }
    let mut output = Output::new(out);
    wanted.put(&mut output);
    answer.fill(0);
    answer[0] = output.length() as u64;
    0
}

impl Wanted<'_> {
    fn judge(&self) -> Result<(), u64> {
        let header = u8::try_from(self.words[TYPE]).ok().and_then(header_length).ok_or(Malformed::D2 as u64)?;
        if self.length(header) > bounds::PDU as u128 {
            return Err(11);
        }
        self.malformed().map_or(Ok(()), |malformed| Err(malformed as u64))
    }

    /// The length that the words say, whatever else is wrong with them.
    fn length(&self, header: usize) -> u128 {
        let list = if self.words[TYPE] == 7 { self.words[NACK_COUNT] } else { 0 };
        let items: u128 = self.items().map(|item| 1 + u128::from(item[1] != 0) + u128::from(item[3])).sum();
        header as u128 + u128::from(list) + items + u128::from(self.words[USER_LENGTH])
    }

    /// The words of the items that there is room for.
    fn items(&self) -> impl Iterator<Item = &[u64]> {
        let count = usize::try_from(self.words[ITEMS]).unwrap_or(usize::MAX);
        self.words[ITEM..].chunks_exact(ITEM_WORDS).take(count)
    }

    fn malformed(&self) -> Option<Malformed> {
        let has_no_user_data = matches!(self.words[TYPE], 3 | 4 | 7);
        if !self.all_in_their_place() {
            Some(Malformed::D1)
        } else if self.words[CLASS] == 3 {
            Some(Malformed::D5)
        } else if self.words[ABORT_TYPE] > 1 {
            Some(Malformed::D6)
        } else if !self.items().all(|item| self.lies_in_bytes(item[2], item[3])) {
            Some(Malformed::D3)
        } else if self.words[ITEMS] > bounds::ITEMS as u64 {
            Some(Malformed::D4)
        } else if has_no_user_data && self.words[USER_LENGTH] != 0 {
            Some(Malformed::D7)
        } else {
            None
        }
    }

    fn all_in_their_place(&self) -> bool {
        let widths = self.words[..ITEM].iter().enumerate().all(|(word, value)| *value <= self.widest(word));
        let items = self.items().all(|item| item[0] <= 15 && item[1] <= 1 && item[3] <= if item[1] == 0 { 3 } else { 255 });
        let past_items = self.words[ITEM + ITEM_WORDS * self.items().count()..].iter().all(|word| *word == 0);
        widths
            && items
            && past_items
            && self.lies_in_bytes(self.words[NACK_START], self.words[NACK_COUNT])
            && self.lies_in_bytes(self.words[USER_START], self.words[USER_LENGTH])
    }

    /// The largest value of a word of the header, 0 where the type hasn't the word.
    fn widest(&self, word: usize) -> u64 {
        let kind = self.words[TYPE];
        let message = matches!(kind, 1 | 2 | 5 | 6);
        match word {
            TYPE => 7,
            TID => 0xFFFF,
            GTR | TTR if message => 1,
            RID if kind != 4 => 1,
            VERSION | CLASS if kind == 1 => 3,
            TIDNEW | UP if kind == 1 => 1,
            TVE if kind == 3 => 1,
            ABORT_TYPE if kind == 4 => 7,
            ABORT_REASON if kind == 4 => 255,
            PACKET if kind == 5 || kind == 6 => 255,
            NACK_COUNT if kind == 7 => 255,
            NACK_START if kind == 7 => u64::MAX,
            USER_START if message => u64::MAX,
            ITEMS | USER_LENGTH => u64::MAX,
            // What the reader told of an unknown item is passed over.
            UNKNOWN_IDENTITY | UNKNOWN_PLACE => u64::MAX,
            _ => 0,
        }
    }

    fn lies_in_bytes(&self, start: u64, length: u64) -> bool {
        u128::from(start) + u128::from(length) <= self.bytes.len() as u128
    }

    /// The caller has judged every word, so that each fits an octet or its part of the bytes.
    fn put(&self, output: &mut Output) {
        let tid = self.words[TID] as u16;
        let con = u8::from(self.words[ITEMS] > 0) << 7;
        let [high, low] = tid.to_be_bytes();
        output.put(&[con | (self.words[TYPE] as u8) << 3 | self.flags(), high, low]);
        if let Some(octet) = self.fourth_octet() {
            output.put(&[octet]);
        }
        output.put(self.part(self.words[NACK_START], self.words[NACK_COUNT]));
        self.put_items(output);
        output.put(self.part(self.words[USER_START], self.words[USER_LENGTH]));
    }

    /// The three low bits of the first octet; the words that the type hasn't are 0.
    fn flags(&self) -> u8 {
        let first = self.words[GTR] | self.words[TVE];
        (first << 2 | self.words[TTR] << 1 | self.words[RID] | self.words[ABORT_TYPE]) as u8
    }

    fn fourth_octet(&self) -> Option<u8> {
        let words = self.words;
        match words[TYPE] {
            1 => Some((words[VERSION] << 6 | words[TIDNEW] << 5 | words[UP] << 4 | words[CLASS]) as u8),
            4 => Some(words[ABORT_REASON] as u8),
            5 | 6 => Some(words[PACKET] as u8),
            7 => Some(words[NACK_COUNT] as u8),
            _ => None,
        }
    }

    fn put_items(&self, output: &mut Output) {
        let mut items = self.items().peekable();
        while let Some(item) = items.next() {
            let con = u8::from(items.peek().is_some()) << 7;
            let start = con | (item[0] as u8) << 3;
            if item[1] == 0 {
                output.put(&[start | item[3] as u8]);
            } else {
                output.put(&[start | 4, item[3] as u8]);
            }
            output.put(self.part(item[2], item[3]));
        }
    }

    fn part(&self, start: u64, length: u64) -> &[u8] {
        &self.bytes[start as usize..][..length as usize]
    }
}
