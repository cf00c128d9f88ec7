//! The items of a descriptor loop.
use crate::flags::DeviceRestrictions;
use crate::identifiers::{identifiers, Identifier, Run};
use crate::names::SegmentationTypeId;
use crate::raw;
use crate::refusal::Refusal;
use crate::upid::Upid;
use crate::view;
use std::hash::{Hash, Hasher};
use std::iter::FusedIterator;

/// A splice descriptor.
#[derive(Debug, Clone, PartialEq, Eq, Hash)]
pub enum SpliceDescriptor<'a> {
    /// avail_descriptor
    Avail {
        /// provider_avail_id
        provider_avail_id: u32,
    },
    /// DTMF_descriptor
    Dtmf {
        /// in tenths of a second
        preroll: u8,
        /// 7 at most
        dtmf_chars: &'a [u8],
    },
    /// segmentation_descriptor
    Segmentation {
        /// the event's number
        segmentation_event_id: u32,
        /// none: the event is cancelled
        detail: Option<SegmentationDetail<'a>>,
    },
    /// time_descriptor
    Time {
        /// 48 bits
        tai_seconds: u64,
        /// TAI_ns
        tai_nanoseconds: u32,
        /// seconds between TAI and UTC
        utc_offset: u16,
    },
    /// any other tag, or another identifier than "CUEI"
    Reserved {
        /// splice_descriptor_tag
        tag: u8,
        /// "CUEI" or another
        identifier: [u8; 4],
        /// all that follows it; 250 at most
        private_bytes: &'a [u8],
    },
}

/// What a segmentation descriptor says that is not cancelled.
#[derive(Debug, Clone, PartialEq, Eq, Hash)]
pub struct SegmentationDetail<'a> {
    /// none: delivery is not restricted
    pub delivery_restrictions: Option<DeliveryRestrictions>,
    /// none: the whole program
    pub components: Option<Vec<SegmentationComponent>>,
    /// 40 bits, in ticks of 90 kHz
    pub segmentation_duration: Option<u64>,
    /// the identifier
    pub segmentation_upid: Upid<'a>,
    /// what begins or ends
    pub segmentation_type_id: SegmentationTypeId,
    /// segment_num
    pub segment_num: u8,
    /// segments_expected
    pub segments_expected: u8,
    /// the two fields at the end, where they are there
    pub sub_segments: Option<SubSegments>,
}

/// The restrictions of delivery.
#[derive(Debug, Clone, Copy, PartialEq, Eq, Hash)]
pub struct DeliveryRestrictions {
    /// web_delivery_allowed_flag
    pub web_delivery_allowed: bool,
    /// no_regional_blackout_flag
    pub no_regional_blackout: bool,
    /// archive_allowed_flag
    pub archive_allowed: bool,
    /// for which group of devices
    pub device_restrictions: DeviceRestrictions,
}

/// A component of a segmentation descriptor.
#[derive(Debug, Clone, Copy, PartialEq, Eq, Hash)]
pub struct SegmentationComponent {
    /// which component
    pub component_tag: u8,
    /// 33 bits, in ticks of 90 kHz
    pub pts_offset: u64,
}

/// The sub-segments of a segmentation descriptor.
#[derive(Debug, Clone, Copy, PartialEq, Eq, Hash)]
pub struct SubSegments {
    /// sub_segment_num
    pub sub_segment_num: u8,
    /// sub_segments_expected
    pub sub_segments_expected: u8,
}

/// An item of a loop, with its place in it.
#[derive(Debug, Clone, PartialEq, Eq, Hash)]
#[non_exhaustive]
pub struct Item<'a> {
    /// where it begins in the loop
    pub offset: usize,
    /// how many bytes it uses: the next item begins at `offset + len`
    pub len: usize,
    /// what it says, or why it is refused. A refused item ends the loop (it then reaches to the loop's end) or is passed over
    pub item: Result<SpliceDescriptor<'a>, Refusal>,
    run: Option<Run<'a>>,
}

impl<'a> Item<'a> {
    /// Its identifiers: the UPID and behind it each part of a MID, the characters of DTMF, the bytes of a reserved descriptor; each with its place
    /// in the section that the loop was read from. None of a refused item.
    pub fn identifiers(&self) -> impl Iterator<Item = Identifier<'a>> + '_ {
        identifiers(self.run, self.item.as_ref().ok())
    }
}

/// What stands at an offset of a loop (none at its end), and the offset of the next item.
#[derive(Debug, Clone, PartialEq, Eq, Hash)]
#[non_exhaustive]
pub struct Step<'a> {
    /// none at the loop's end and past it
    pub item: Option<Item<'a>>,
    /// where the next one begins; the loop's length at its end
    pub next: usize,
}

/// Reads the item at an offset of a loop. A loop of more than 4,076 bytes is refused at every offset.
pub fn read_item(descriptors: SpliceDescriptors<'_>, offset: usize) -> Step<'_> {
    let lent = descriptors.bytes;
    let t = raw::read_item(lent, offset);
    let next = t.next as usize;
    let item = match t.item.kind {
        0 => return Step { item: None, next },
        7 => Err(Refusal::answered(t.refusal, t.values)),
        _ => Ok(descriptor(&t, lent, offset)),
    };
    // an offset past the end of a loop that is too long: the item has no bytes
    let len = next.saturating_sub(offset);
    Step { item: Some(Item { offset, len, item, run: Run::of(&t, descriptors, offset) }), next }
}

fn descriptor<'a>(t: &raw::Step, lent: &'a [u8], offset: usize) -> SpliceDescriptor<'a> {
    let i = &t.item;
    let s = &i.segmentation;
    match i.kind {
        1 => SpliceDescriptor::Avail { provider_avail_id: i.provider_avail_id as u32 },
        2 => SpliceDescriptor::Dtmf { preroll: i.preroll as u8, dtmf_chars: view(lent, &i.bytes) },
        3 => SpliceDescriptor::Segmentation { segmentation_event_id: s.segmentation_event_id as u32, detail: None },
        4 => SpliceDescriptor::Segmentation {
            segmentation_event_id: s.segmentation_event_id as u32,
            detail: Some(detail(s, view(lent, &i.bytes), lent, offset)),
        },
        5 => SpliceDescriptor::Time {
            tai_seconds: i.time.tai_seconds,
            tai_nanoseconds: i.time.tai_nanoseconds as u32,
            utc_offset: i.time.utc_offset as u16,
        },
        6 => SpliceDescriptor::Reserved {
            tag: i.splice_descriptor_tag as u8,
            identifier: (t.identifier as u32).to_be_bytes(),
            private_bytes: view(lent, &i.bytes),
        },
        n => unreachable!("no item is of kind {n}"),
    }
}

fn detail<'a>(s: &raw::Segmentation, bytes: &'a [u8], lent: &[u8], offset: usize) -> SegmentationDetail<'a> {
    let restrictions = || DeliveryRestrictions {
        web_delivery_allowed: s.delivery_restrictions.web_delivery_allowed_flag == 1,
        no_regional_blackout: s.delivery_restrictions.no_regional_blackout_flag == 1,
        archive_allowed: s.delivery_restrictions.archive_allowed_flag == 1,
        device_restrictions: DeviceRestrictions::ALL[s.delivery_restrictions.device_restrictions as usize],
    };
    let (components, eidr) = if s.component_count > 0 || s.segmentation_upid_type == 10 { beside(lent, offset) } else { (vec![], [0; 12]) };
    let sub_segments =
        || SubSegments { sub_segment_num: s.sub_segments.sub_segment_num as u8, sub_segments_expected: s.sub_segments.sub_segments_expected as u8 };
    SegmentationDetail {
        delivery_restrictions: (s.delivery_not_restricted_flag == 0).then(restrictions),
        components: (s.program_segmentation_flag == 0).then_some(components),
        segmentation_duration: (s.segmentation_duration_flag == 1).then_some(s.segmentation_duration),
        segmentation_upid: Upid::of(s.segmentation_upid_type as u8, bytes, eidr),
        segmentation_type_id: SegmentationTypeId::from_id(s.segmentation_type_id as u8),
        segment_num: s.segment_num as u8,
        segments_expected: s.segments_expected as u8,
        sub_segments: (s.sub_segments.present == 1).then(sub_segments),
    }
}

/// The components and the EIDR of the item at an offset. By itself, since the answer takes 4 KB of the stack and most items have neither.
#[inline(never)]
fn beside(lent: &[u8], offset: usize) -> (Vec<SegmentationComponent>, [u8; 12]) {
    let list = raw::read_segmentation_components(lent, offset);
    let component = |c: &raw::SegmentationComponent| SegmentationComponent { component_tag: c.component_tag as u8, pts_offset: c.pts_offset };
    (list.components[..list.count as usize].iter().map(component).collect(), list.eidr.map(|b| b as u8))
}

/// Equal refusals, each in its loop: of text that is none the bytes count, and not their place.
fn alike(here: (Refusal, &[u8]), there: (Refusal, &[u8])) -> bool {
    use Refusal::InvalidUpidContent;
    match (here.0, there.0) {
        (InvalidUpidContent { upid_type: a, at, len }, InvalidUpidContent { upid_type: b, at: place, len: length }) => {
            a == b && here.1[at..][..len] == there.1[place..][..length]
        }
        (a, b) => a == b,
    }
}

/// A descriptor loop, and its place in the section that it was read from: iterate over it for its items. `==` compares the bytes.
#[derive(Debug, Clone, Copy)]
pub struct SpliceDescriptors<'a> {
    bytes: &'a [u8],
    at: usize,
}

impl<'a> SpliceDescriptors<'a> {
    /// A loop alone: places count from its own first byte.
    pub fn new(bytes: &'a [u8]) -> Self {
        SpliceDescriptors { bytes, at: 0 }
    }

    /// The loop that a view names.
    pub(crate) fn of(section: &'a [u8], place: &raw::View) -> Self {
        SpliceDescriptors { bytes: view(section, place), at: place.at as usize }
    }

    /// Its bytes.
    pub fn bytes(&self) -> &'a [u8] {
        self.bytes
    }

    /// Where it begins in the section that it was read from; 0 of a loop alone.
    pub fn at(&self) -> usize {
        self.at
    }

    /// Do the two read the same: as many items, of equal values and bytes, wherever these stand?
    pub fn reads_as(&self, other: SpliceDescriptors<'_>) -> bool {
        let (mut here, mut there) = (self.iter(), other.iter());
        loop {
            let alike = match (here.next().map(|x| x.item), there.next().map(|x| x.item)) {
                (None, None) => return true,
                (Some(Err(a)), Some(Err(b))) => alike((a, self.bytes), (b, other.bytes)),
                (a, b) => a == b,
            };
            if !alike {
                return false;
            }
        }
    }

    /// Its items, one after the other.
    pub fn iter(&self) -> Items<'a> {
        Items { descriptors: *self, offset: 0 }
    }
}

impl PartialEq for SpliceDescriptors<'_> {
    fn eq(&self, other: &Self) -> bool {
        self.bytes == other.bytes
    }
}

impl Eq for SpliceDescriptors<'_> {}

impl Hash for SpliceDescriptors<'_> {
    fn hash<H: Hasher>(&self, state: &mut H) {
        self.bytes.hash(state);
    }
}

impl<'a> IntoIterator for SpliceDescriptors<'a> {
    type Item = Item<'a>;
    type IntoIter = Items<'a>;

    fn into_iter(self) -> Items<'a> {
        self.iter()
    }
}

impl<'a> IntoIterator for &SpliceDescriptors<'a> {
    type Item = Item<'a>;
    type IntoIter = Items<'a>;

    fn into_iter(self) -> Items<'a> {
        self.iter()
    }
}

/// Iterates over the items of a loop.
#[derive(Debug, Clone)]
pub struct Items<'a> {
    descriptors: SpliceDescriptors<'a>,
    offset: usize,
}

impl Items<'_> {
    /// Where the next item begins.
    pub fn offset(&self) -> usize {
        self.offset
    }
}

impl<'a> Iterator for Items<'a> {
    type Item = Item<'a>;

    fn next(&mut self) -> Option<Self::Item> {
        // a loop that is too long is refused at every offset: once is enough
        if self.offset >= self.descriptors.bytes.len() {
            return None;
        }
        let Step { item, next } = read_item(self.descriptors, self.offset);
        self.offset = next;
        item
    }
}

impl FusedIterator for Items<'_> {}
