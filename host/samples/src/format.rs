//! One stored call with its answer, and a file of them: records end to end,
//! all numbers big-endian.

use oracle::{Answer, Walk};

/// A call, the length of the buffer lent to it, and the answer.
#[derive(Clone, Debug, PartialEq, Eq)]
pub struct Sample {
    pub version: u8,
    pub walk: Walk,
    pub count: u32,
    pub offset: u64,
    pub room: u32,
    pub data: Vec<u8>,
    pub answer: Answer,
    /// The strip; empty after a refusal.
    pub strip: Vec<u8>,
}

impl Sample {
    fn write(&self, out: &mut Vec<u8>) {
        out.extend_from_slice(&[self.version, self.walk as u8]);
        out.extend_from_slice(&self.count.to_be_bytes());
        out.extend_from_slice(&self.offset.to_be_bytes());
        out.extend_from_slice(&self.room.to_be_bytes());
        out.extend_from_slice(&(self.data.len() as u32).to_be_bytes());
        out.extend_from_slice(&self.data);
        out.push(self.answer.number);
        out.extend_from_slice(&self.answer.length.to_be_bytes());
        let records = if self.walk.is_block() {
            self.answer.block
        } else {
            self.answer.records
        };
        out.extend_from_slice(&records.to_be_bytes());
        out.extend_from_slice(&self.answer.tail.to_be_bytes());
        out.extend_from_slice(&self.strip);
    }
}

/// A file of these samples.
pub fn write(samples: impl IntoIterator<Item = Sample>) -> Vec<u8> {
    let mut out = Vec::new();
    samples.into_iter().for_each(|s| s.write(&mut out));
    out
}

/// The samples of a file, or none if it is not one.
pub fn read(file: &[u8]) -> Option<Vec<Sample>> {
    let mut reader = Reader(file);
    let mut samples = Vec::new();
    while !reader.0.is_empty() {
        samples.push(reader.sample()?);
    }
    Some(samples)
}

struct Reader<'a>(&'a [u8]);

impl<'a> Reader<'a> {
    fn sample(&mut self) -> Option<Sample> {
        let version = self.byte()?;
        let walk = *Walk::ALL.get(self.byte()? as usize)?;
        let (count, offset, room) = (self.number()?, self.long()?, self.number()?);
        let length = self.number()? as usize;
        let data = self.take(length)?.to_vec();
        let answer = self.answer(walk)?;
        let length = if answer.number == 0 { answer.length } else { 0 };
        Some(Sample {
            version,
            walk,
            count,
            offset,
            room,
            data,
            answer,
            strip: self.take(length as usize)?.to_vec(),
        })
    }

    /// An answer; of a block its length stands where a walk has the records.
    fn answer(&mut self, walk: Walk) -> Option<Answer> {
        let (number, length) = (self.byte()?, self.number()?);
        let (first, tail) = (self.number()?, self.number()?);
        let (records, block) = if walk.is_block() {
            (0, first)
        } else {
            (first, 0)
        };
        Some(Answer {
            number,
            length,
            records,
            tail,
            block,
        })
    }

    fn take(&mut self, n: usize) -> Option<&'a [u8]> {
        let (front, rest) = self.0.split_at_checked(n)?;
        self.0 = rest;
        Some(front)
    }

    fn byte(&mut self) -> Option<u8> {
        Some(self.take(1)?[0])
    }

    fn number(&mut self) -> Option<u32> {
        Some(u32::from_be_bytes(self.take(4)?.try_into().ok()?))
    }

    fn long(&mut self) -> Option<u64> {
        Some(u64::from_be_bytes(self.take(8)?.try_into().ok()?))
    }
}
