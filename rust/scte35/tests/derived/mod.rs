//! Relabellings of random cues at random parts, and what each is to answer by a second derivation: the cue is kept as a tree, the identifier replaced in the
//! tree, and the whole laid anew. Used by tests/relabelling.rs and by host/relabellings.
use scte35::{relabel, SegmentationUpidType};

pub struct Random(pub u64);

impl Random {
    pub fn below(&mut self, n: usize) -> usize {
        self.0 ^= self.0 << 13;
        self.0 ^= self.0 >> 7;
        self.0 ^= self.0 << 17;
        (self.0 % n as u64) as usize
    }
    fn one_in(&mut self, n: usize) -> bool {
        self.below(n) == 0
    }
    fn byte(&mut self) -> u8 {
        self.below(256) as u8
    }
    fn bytes(&mut self, n: usize) -> Vec<u8> {
        (0..n).map(|_| self.byte()).collect()
    }
    fn letters(&mut self, n: usize) -> Vec<u8> {
        (0..n).map(|_| b'A' + self.below(26) as u8).collect()
    }
    /// some bytes, from `least` on and fewer than `least + n`
    fn some(&mut self, least: usize, n: usize) -> Vec<u8> {
        let n = least + self.below(n);
        self.bytes(n)
    }
}

// ---- identifiers as trees

#[derive(Clone)]
enum Node {
    Leaf(u8, Vec<u8>),
    Mid(Vec<Node>),
}

impl Node {
    fn payload(&self) -> Vec<u8> {
        match self {
            Node::Leaf(_, bytes) => bytes.clone(),
            Node::Mid(parts) => parts.iter().flat_map(|p| p.laid()).collect(),
        }
    }
    fn kind(&self) -> u8 {
        match self {
            Node::Leaf(kind, _) => *kind,
            Node::Mid(_) => 13,
        }
    }
    fn laid(&self) -> Vec<u8> {
        let payload = self.payload();
        [vec![self.kind(), payload.len() as u8], payload].concat()
    }
    /// how many parts it has, at all levels
    fn parts(&self) -> usize {
        match self {
            Node::Leaf(..) => 0,
            Node::Mid(parts) => parts.iter().map(|p| 1 + p.parts()).sum(),
        }
    }
    /// the n-th part in the order in which they are laid, counted from 1, replaced; or how many are left to count
    fn replace(&mut self, mut n: usize, new: &Node) -> Result<(), usize> {
        let Node::Mid(parts) = self else { return Err(n) };
        for part in parts {
            if n == 1 {
                *part = new.clone();
                return Ok(());
            }
            match part.replace(n - 1, new) {
                Ok(()) => return Ok(()),
                Err(left) => n = left,
            }
        }
        Err(n)
    }
}

fn leaf(r: &mut Random) -> Node {
    let kind = [1, 2, 3, 3, 4, 5, 6, 7, 8, 8, 9, 9, 10, 11, 12, 14, 15, 200][r.below(18)];
    let bytes = match kind {
        2 => r.letters(8),
        3 | 7 => r.letters(12),
        4 => r.bytes(32),
        5 | 8 => r.bytes(8),
        6 | 10 => r.bytes(12),
        9 => {
            let n = 1 + r.below(20);
            r.letters(n)
        }
        15 => [b"urn:".to_vec(), r.letters(9)].concat(),
        _ => r.some(1, 14),
    };
    Node::Leaf(kind, bytes)
}

fn node(r: &mut Random, depth: usize) -> Node {
    if depth == 0 || r.below(2) > 0 {
        return leaf(r);
    }
    let n = 1 + r.below(3);
    Node::Mid((0..n).map(|_| node(r, depth - 1)).collect())
}

/// a new identifier, and whether its reader takes it
fn new_one(r: &mut Random) -> (Node, bool) {
    match r.below(16) {
        0 => (Node::Leaf(8, r.some(0, 8)), false),
        1 => {
            let n = 13 + r.below(250);
            (Node::Leaf(3, r.letters(n)), false)
        }
        2 => (Node::Leaf(6, r.bytes(8)), false),
        3 => (Node::Leaf(0, r.bytes(3)), false),
        4 => (Node::Leaf(12, r.some(100, 160)), true),
        5 => (node(r, 3), true),
        _ => (leaf(r), true),
    }
}

// ---- sections as pieces

#[derive(Clone)]
enum Piece {
    Other(Vec<u8>),
    Segmentation { fore: Vec<u8>, upid: Node, post: Vec<u8> },
}

impl Piece {
    fn laid(&self) -> Vec<u8> {
        match self {
            Piece::Other(bytes) => bytes.clone(),
            Piece::Segmentation { fore, upid, post } => {
                let body = [b"CUEI".to_vec(), fore.clone(), upid.laid(), post.clone()].concat();
                [vec![2, body.len() as u8], body].concat()
            }
        }
    }
}

/// an item; of a `right` cue one in canonical form
fn piece(r: &mut Random, right: bool) -> Piece {
    match if right { 3 * r.below(4) } else { r.below(8) } {
        0 => Piece::Other([b"\0\x08CUEI".to_vec(), r.bytes(4)].concat()),
        1 => Piece::Other({
            let n = r.below(9);
            [vec![0x80 + r.below(9) as u8, 4 + n as u8], r.bytes(4 + n)].concat()
        }),
        2 => Piece::Other([b"\x02\x09CUEI".to_vec(), r.bytes(4), vec![0xFF]].concat()),
        3 if !right => Piece::Other({
            let n = r.below(4);
            [vec![7, n as u8], r.bytes(n)].concat()
        }),
        _ => segmentation(r, right),
    }
}

fn segmentation(r: &mut Random, right: bool) -> Piece {
    let (program, lasting) = (r.below(2) == 1, r.below(2) == 1);
    let rest = if right { 0x3F } else { r.below(64) as u8 };
    let cancel = if right { 0x7F } else { r.below(128) as u8 };
    let mut fore = [r.bytes(4), vec![cancel, (u8::from(program) << 7) | (u8::from(lasting) << 6) | rest]].concat();
    if !program {
        let n = r.below(4);
        fore.push(n as u8);
        for _ in 0..n {
            let mut component = r.bytes(6);
            component[1] |= if right { 0xFE } else { 0 };
            fore.extend(component);
        }
    }
    if lasting {
        fore.extend(r.bytes(5));
    }
    let upid = if r.one_in(10) { Node::Leaf(0, vec![]) } else { node(r, 4) };
    let after = if right { 3 } else { [3, 5, 8][r.below(3)] };
    Piece::Segmentation { fore, upid, post: r.bytes(after) }
}

fn crc(bytes: &[u8]) -> u32 {
    bytes.iter().fold(u32::MAX, |crc, b| (0..8).fold(crc ^ (u32::from(*b) << 24), |c, _| if c >> 31 == 1 { (c << 1) ^ 0x04C1_1DB7 } else { c << 1 }))
}

fn closed(bytes: &[u8]) -> Vec<u8> {
    [bytes, &crc(bytes).to_be_bytes()].concat()
}

struct Cue {
    lead: Vec<u8>,
    pieces: Vec<Piece>,
    rest: Vec<u8>,
    spare: Vec<u8>,
    /// section_length, where it is to be wrong
    length: Option<usize>,
}

impl Cue {
    fn drawn(r: &mut Random) -> Cue {
        let right = r.one_in(4);
        let mut lead = vec![0xFC, if right { 0x30 } else { r.byte() }, 0, 0, r.below(128) as u8];
        lead.extend(r.bytes(4));
        lead.extend([r.byte(), r.byte(), (r.below(16) << 4) as u8, 0, 0]);
        let mut pieces: Vec<Piece> = (0..1 + r.below(4)).map(|_| piece(r, right)).collect();
        if r.one_in(8) {
            let fill = 3000 + r.below(900);
            pieces.extend((0..fill / 200).map(|_| Piece::Other([vec![0x90, 198], r.bytes(198)].concat())));
        }
        let odd = |r: &mut Random| !right && r.one_in(4);
        let rest = if odd(r) { r.some(1, 5) } else { vec![] };
        let spare = if odd(r) { r.some(0, 6) } else { vec![] };
        let length = odd(r).then(|| r.below(4096));
        Cue { lead, pieces, rest, spare, length }
    }

    /// around these pieces
    fn around(&self, pieces: &[Piece], length: Option<usize>) -> Vec<u8> {
        let items = [pieces.iter().flat_map(|p| p.laid()).collect(), self.rest.clone()].concat();
        let mut s = [&self.lead[..], &(items.len() as u16).to_be_bytes(), &items, &self.spare].concat();
        let n = length.unwrap_or(s.len() + 4 - 3);
        s[1] = (s[1] & 0xF0) | (n >> 8 & 15) as u8;
        s[2] = n as u8;
        closed(&s)
    }

    fn at(&self, which: usize) -> usize {
        self.pieces[..which].iter().map(|p| p.laid().len()).sum()
    }
}

/// Puts one thing wrong with a section, so that it is refused with that number.
fn damaged(r: &mut Random, old: &[u8], number: u8) -> Vec<u8> {
    let (mut s, n) = (old[..old.len() - 4].to_vec(), old.len());
    let after_header = n - 14 - 4;
    match number {
        1 => return old[..r.below(3)].to_vec(),
        2 => return [old.to_vec(), r.some(4097 - n, 9)].concat(),
        3 => s[0] = r.below(0xFC) as u8,
        4 => {
            let mut s = old.to_vec();
            s[1 + r.below(n - 1)] ^= 1 << r.below(8);
            return s;
        }
        5 => s.truncate(1 + r.below(13)),
        6 => s[4] |= 0x80,
        7 | 8 => {
            let command = if number == 7 { after_header + 1 + r.below(9) } else { after_header - r.below(2) };
            s[11] = (s[11] & 0xF0) | (command >> 8 & 15) as u8;
            s[12] = command as u8;
        }
        9 => {
            let loop_length = after_header - 2 + 1 + r.below(99);
            s[14..16].copy_from_slice(&(loop_length as u16).to_be_bytes());
        }
        10 => s[13] = [1, 2, 3, 4][r.below(4)] | [0, 8, 64][r.below(3)],
        _ => s[13] = [5, 6, 255][r.below(3)],
    }
    closed(&s)
}

// ---- a relabelling, and its answer

pub struct Case {
    pub old: Vec<u8>,
    pub offset: usize,
    pub part: usize,
    pub upid_type: SegmentationUpidType,
    pub bytes: Vec<u8>,
    /// the target's bytes before
    filled: Vec<u8>,
    /// the refusal, or 0
    pub wanted: u8,
    /// what is written, if it is
    pub expected: Vec<u8>,
}

/// The next one; none where the draw made no section, or one without an item of the kind that is looked for.
pub fn case(r: &mut Random) -> Option<Case> {
    let cue = Cue::drawn(r);
    let old = cue.around(&cue.pieces, cue.length);
    if cue.pieces.iter().any(|p| p.laid().len() > 256) || old.len() > 4000 || scte35::read_section(&old).is_err() {
        return None;
    }
    let (new, fits) = new_one(r);
    let (which, part) = named(r, &cue.pieces)?;
    let offset = cue.at(which) + usize::from(r.one_in(32));
    let mut then = cue.pieces.clone();
    let found = offset == cue.at(which) && put(&mut then[which], part, &new);
    let expected = cue.around(&then, None);
    let room = if r.one_in(10) { r.below(expected.len()) } else { 4096 };
    let damage = if r.one_in(16) { 1 + r.below(11) as u8 } else { 0 };
    let wanted = match &then[which] {
        _ if damage > 0 => damage,
        Piece::Segmentation { upid, .. } if found && upid.payload().len() > 255 => 32,
        _ if !found => 41,
        _ if !fits => 33,
        x if x.laid().len() > 256 || expected.len() > 4096 => 34,
        _ if room < expected.len() => 36,
        _ => 0,
    };
    let old = if damage > 0 { damaged(r, &old, damage) } else { old };
    Some(Case {
        old,
        offset,
        part,
        upid_type: SegmentationUpidType::from_type(new.kind()),
        bytes: new.payload(),
        filled: r.bytes(room),
        wanted,
        expected,
    })
}

/// Which piece and which part: mostly one that is there.
fn named(r: &mut Random, pieces: &[Piece]) -> Option<(usize, usize)> {
    if r.one_in(16) {
        return Some((r.below(pieces.len()), r.below(6)));
    }
    let all: Vec<(usize, &Node)> =
        pieces.iter().enumerate().filter_map(|(i, p)| if let Piece::Segmentation { upid, .. } = p { Some((i, upid)) } else { None }).collect();
    let (which, upid) = *all.get(r.below(all.len().max(1)))?;
    Some((which, r.below(1 + upid.parts())))
}

/// The part replaced in its tree; whether it was there.
fn put(piece: &mut Piece, part: usize, new: &Node) -> bool {
    match piece {
        Piece::Segmentation { upid, .. } if upid.payload().is_empty() => false,
        Piece::Segmentation { upid, .. } if part == 0 => {
            *upid = new.clone();
            true
        }
        Piece::Segmentation { upid, .. } => upid.replace(part, new).is_ok(),
        Piece::Other(_) => false,
    }
}

impl Case {
    /// Has it relabelled, and compares the answer and the whole target.
    pub fn try_out(&self) {
        let Case { old, offset, part, upid_type, bytes, filled, wanted, expected } = self;
        let mut target = filled.clone();
        let answer = relabel(old, *offset, *part, *upid_type, bytes, &mut target);
        let what = || format!("{old:02X?} at {offset}, part {part}: {upid_type:?} {bytes:02X?}");
        assert_eq!(answer.map_or_else(|refusal| refusal.number(), |_| 0), *wanted, "{}", what());
        if *wanted > 0 {
            assert_eq!(&target, filled, "{}", what());
            return;
        }
        assert_eq!(answer, Ok(expected.len()), "{}", what());
        assert_eq!(&target[..expected.len()], &expected[..], "{}", what());
        assert_eq!(&target[expected.len()..], &filled[expected.len()..], "{}", what());
        assert!(scte35::read_section(expected).is_ok(), "{}", what());
        assert!(!scte35::is_canonical_section(old) || scte35::is_canonical_section(expected), "{}", what());
        assert_eq!(self.back(), self.with_its_length(), "{}", what());
    }

    /// The result, with the identifier that stood there put back.
    fn back(&self) -> Vec<u8> {
        let section = scte35::read_section(&self.old).expect("accepted");
        let stood = section.identifiers().find(|x| x.item == Some(self.offset) && x.part == self.part).expect("named");
        scte35::relabel_to_vec(&self.expected, self.offset, self.part, stood.written_type().expect("a UPID's"), stood.bytes).expect("it stood there")
    }

    /// The old section; where its section_length was wrong, with the right one.
    fn with_its_length(&self) -> Vec<u8> {
        let mut s = self.old[..self.old.len() - 4].to_vec();
        let n = self.old.len() - 3;
        s[1] = (s[1] & 0xF0) | (n >> 8 & 15) as u8;
        s[2] = n as u8;
        closed(&s)
    }

    /// Is what it begins with in canonical form?
    pub fn is_canonical(&self) -> bool {
        scte35::is_canonical_section(&self.old)
    }
}

/// The refusals that are to be met, and 0.
pub const NUMBERS: [u8; 17] = [0, 1, 2, 3, 4, 5, 6, 7, 8, 9, 10, 11, 32, 33, 34, 36, 41];
