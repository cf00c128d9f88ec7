//! A second assembler, by itself: ISO/IEC 13818-1's packets of one PID, by the rules of Q-9 read anew. It holds lists and copies freely.

/// The last counter of a packet with payload, and the bytes of the section under way.
#[derive(Clone, Debug, Default, PartialEq, Eq)]
pub struct Plain {
    pub pid: u16,
    pub last: Option<u8>,
    pub under: Vec<u8>,
}

/// What a taken packet was.
#[derive(Clone, Copy, Debug, PartialEq, Eq, PartialOrd, Ord)]
pub enum Was {
    WithoutPayload,
    Repeat,
    Gap,
    Next,
}

/// The payload without its pointer_field: the bytes before the pointer's target, and those from there on where there is one.
struct Payload<'a> {
    counter: u8,
    lead: &'a [u8],
    from: Option<&'a [u8]>,
}

fn payload(pid: u16, p: &[u8]) -> Result<Option<Payload<'_>>, u64> {
    if p.len() != 188 || p[0] != 0x47 {
        return Err(71);
    }
    if u16::from_be_bytes([p[1], p[2]]) & 0x1FFF != pid {
        return Err(72);
    }
    if p[3] & 0xC0 != 0 {
        return Err(73);
    }
    let mut rest = &p[4..];
    if p[3] & 0x20 != 0 {
        rest = rest[1..].get(rest[0] as usize..).ok_or(74u64)?;
    }
    if p[3] & 0x10 == 0 {
        return Ok(None);
    }
    let (first, behind) = rest.split_first().ok_or(74u64)?;
    let counter = p[3] & 0x0F;
    if p[1] & 0x40 == 0 {
        return Ok(Some(Payload { counter, lead: rest, from: None }));
    }
    let k = *first as usize;
    if k >= behind.len() {
        return Err(74);
    }
    Ok(Some(Payload { counter, lead: &behind[..k], from: Some(&behind[k..]) }))
}

/// The bytes of the section that begins here, where its length is complete: 75 where that is too large.
fn size(s: &[u8]) -> Result<Option<usize>, u64> {
    match s {
        [_, high, low, ..] => match usize::from(high & 15) << 8 | usize::from(*low) {
            n if n > 4093 => Err(75),
            n => Ok(Some(n + 3)),
        },
        _ => Ok(None),
    }
}

impl Plain {
    pub fn new(pid: u16) -> Plain {
        Plain { pid, ..Plain::default() }
    }

    /// The sections that a packet finishes and what it was; or its refusal, with which nothing changes.
    pub fn packet(&mut self, p: &[u8]) -> Result<(Vec<Vec<u8>>, Was), u64> {
        let Some(Payload { counter, lead, from }) = payload(self.pid, p)? else {
            return Ok((vec![], Was::WithoutPayload));
        };
        if self.last == Some(counter) {
            return Ok((vec![], Was::Repeat));
        }
        let gap = self.last.is_some_and(|last| (last + 1) % 16 != counter);
        let mut sections = vec![];
        let mut under = if gap { vec![] } else { self.under.clone() };
        if !under.is_empty() {
            under.extend_from_slice(lead);
            if let Some(n) = size(&under)?.filter(|n| *n <= under.len()) {
                under.truncate(n);
                sections.push(std::mem::take(&mut under));
            }
        }
        if let Some(mut rest) = from {
            under.clear();
            while !rest.is_empty() && rest[0] != 0xFF {
                match size(rest)? {
                    Some(n) if n <= rest.len() => {
                        sections.push(rest[..n].to_vec());
                        rest = &rest[n..];
                    }
                    _ => {
                        under = rest.to_vec();
                        break;
                    }
                }
            }
        }
        self.last = Some(counter);
        self.under = under;
        Ok((sections, if gap { Was::Gap } else { Was::Next }))
    }
}
