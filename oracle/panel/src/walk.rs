//! Where the entries of an image lie. The Rust's recovery gives entries without their places, so the image is walked here with
//! the Rust's header and decoding; `recovery` holds what the walks find against what the Rust's own recovery found.
use ringwal::{ByteWalEntry, WalEntryHeader};

/// An entry and its payload's place in the image. One that can't be decoded is passed over by the Rust's truncation.
pub struct Step {
    pub place: usize,
    pub length: usize,
    pub entry: Option<ByteWalEntry>,
}

#[derive(Clone, Copy, PartialEq)]
pub enum Stop {
    End,
    Partial,
    Checksum,
    /// A header whose length added to its offset passes 2^64.
    SumOverflows,
}

pub struct Walk {
    pub steps: Vec<Step>,
    pub stop: Stop,
}

fn step(image: &[u8], at: usize) -> Result<Step, Stop> {
    let left = image.len() - at;
    if left < WalEntryHeader::SIZE {
        return Err(if left == 0 { Stop::End } else { Stop::Partial });
    }
    let place = at + WalEntryHeader::SIZE;
    let header = WalEntryHeader::from_bytes(image[at..place].try_into().unwrap());
    let Some(end) = header.length.checked_add(place as u64) else {
        return Err(Stop::SumOverflows);
    };
    if image.len() as u64 - (place as u64) < header.length {
        return Err(Stop::Partial);
    }
    let data = &image[place..end as usize];
    if header.validate(data).is_err() {
        return Err(Stop::Checksum);
    }
    Ok(Step { place, length: data.len(), entry: bincode::deserialize(data).ok() })
}

/// Walks to the first damage as truncation does, over payloads that can't be decoded.
pub fn walk(image: &[u8]) -> Walk {
    let mut steps = Vec::new();
    let mut at = 0;
    loop {
        match step(image, at) {
            Ok(step) => {
                at = step.place + step.length;
                steps.push(step);
            }
            Err(stop) => return Walk { steps, stop },
        }
    }
}

impl Walk {
    /// As recovery reads: a payload that can't be decoded is where it stops.
    pub fn decoded(self) -> Walk {
        let Some(k) = self.steps.iter().position(|step| step.entry.is_none()) else {
            return self;
        };
        Walk { steps: self.steps.into_iter().take(k).collect(), stop: Stop::Checksum }
    }
}
