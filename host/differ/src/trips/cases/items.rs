//! Of items.
use super::*;
use crate::trips::fields::{COMPONENT, ITEM};

impl List {
    pub fn of_items(&mut self) {
        // 31: "a view reaches outside the lent bytes"
        for (way, change) in VIEW_WAYS {
            for (kind, what) in [("dtmf", "DTMF characters"), ("segment", "UPID"), ("reserved", "reserved descriptor's bytes")] {
                self.item(31, format!("{what}, {way}"), move |rng| {
                    let mut x = item_of(rng, &[kind]);
                    change(rng, &mut x.step.item.bytes, x.lent.len() as u64);
                    x
                });
            }
        }
        self.item_numbers();
        self.flags();
        self.item_left_out();
        self.upids();
        self.refused_upids();
        self.item_sizes();
    }

    /// 32: "a number or count handed in exceeds its field; so do over 7 DTMF or 255 UPID bytes"
    fn item_numbers(&mut self) {
        for (k, (name, width)) in ITEM.into_iter().enumerate().filter(|(_, f)| f.1 < 64) {
            self.item(32, format!("item: {name}"), move |rng| {
                let value = draw::item(rng);
                let mut x = words::item(rng, &value);
                x.step.words_mut()[5 + k] = over(rng, width);
                x
            });
        }
        for (k, (name, width)) in COMPONENT.into_iter().enumerate() {
            self.item(32, format!("segmentation: {name}"), move |rng| {
                let mut x = segment_where(rng, |s| s.components.as_ref().is_some_and(|list| !list.is_empty()));
                let place = rng.below(x.step.item.segmentation.component_count as usize);
                x.beside.components[place].words_mut()[k] = over(rng, width);
                x
            });
        }
        self.item(32, "a byte of the EIDR", |rng| {
            let mut x = segment_where(rng, |s| s.upid.kind == 10);
            let place = rng.below(12);
            x.beside.eidr[place] = over(rng, 8);
            x
        });
        self.item(32, "over 7 DTMF characters", |rng| {
            let mut x = item_of(rng, &["dtmf"]);
            let length = rng.between(8, 300);
            x.lent = rng.bytes(length);
            x.step.item.bytes = raw::View { at: 0, len: length as u64 };
            x
        });
        self.item(32, "over 255 bytes of a UPID", |rng| {
            let length = rng.between(256, 600);
            let (kind, bytes) = (rng.byte(), rng.bytes(length));
            with_upid(rng, kind, bytes)
        });
    }

    /// 33: "a flag that contradicts its optional part", and what else is no item
    fn flags(&mut self) {
        type Flag = (&'static str, fn(&Segmentation) -> bool, fn(&mut raw::Segmentation));
        const FLAGS: [Flag; 4] = [
            ("program_segmentation_flag", |s| s.components.as_ref().is_some_and(|list| !list.is_empty()), |s| s.program_segmentation_flag = 1),
            ("segmentation_duration_flag", |s| s.duration.is_some_and(|d| d > 0), |s| s.segmentation_duration_flag = 0),
            (
                "delivery_not_restricted_flag",
                |s| s.restrictions.as_ref().is_some_and(|r| r.web || r.no_blackout || r.archive || r.device > 0),
                |s| s.delivery_not_restricted_flag = 1,
            ),
            ("sub-segments", |s| s.sub_segments.is_some_and(|x| x != (0, 0)), |s| s.sub_segments.present = 0),
        ];
        for (name, holds, change) in FLAGS {
            self.item(33, format!("a flag that contradicts its optional part: {name}"), move |rng| {
                let mut x = segment_where(rng, holds);
                change(&mut x.step.item.segmentation);
                x
            });
        }
        self.item(33, "a cancel bit that contradicts the item's kind", |rng| {
            let mut x = item_of(rng, &["cancel", "segment"]);
            x.step.item.segmentation.segmentation_event_cancel_indicator ^= 1;
            x
        });
        self.item(33, "the end of a loop, a refused item, or no kind", |rng| {
            let value = draw::item(rng);
            let mut x = words::item(rng, &value);
            x.step.item.kind = rng.pick(&[0, 7, 8, 255, 256, 1 << 32 | 1, u64::MAX]);
            x
        });
        self.item(33, "reserved descriptor CUEI with tag 0 to 3", |rng| {
            let mut x = item_of(rng, &["reserved"]);
            x.step.identifier = u32::from_be_bytes(*b"CUEI").into();
            x.step.item.splice_descriptor_tag = rng.below(4) as u64;
            x
        });
    }

    /// 33: "a part that kind, cancel bit or mode leaves out"
    fn item_left_out(&mut self) {
        self.item(33, "a part that the cancel bit leaves out, of a segmentation", |rng| {
            let mut x = item_of(rng, &["cancel"]);
            // behind event and cancel indicator, words 9 and 10 of a step
            let k = rng.between(11, 26);
            x.step.words_mut()[k] = nonzero(rng, ITEM[k - 5].1);
            x
        });
        let parts: [(&str, std::ops::Range<usize>, &[&str]); 6] = [
            ("an identifier", 5..6, &["avail", "dtmf", "cancel", "segment", "time"]),
            ("an avail's id", 7..8, &["dtmf", "cancel", "segment", "time", "reserved"]),
            ("a preroll", 8..9, &["avail", "cancel", "segment", "time", "reserved"]),
            ("a segmentation", 9..27, &["avail", "dtmf", "time", "reserved"]),
            ("a time", 27..30, &["avail", "dtmf", "cancel", "segment", "reserved"]),
            ("a tag", 30..31, &["avail", "dtmf", "cancel", "segment", "time"]),
        ];
        for (part, places, others) in parts {
            self.item(33, format!("a part that the item's kind leaves out: {part}"), move |rng| {
                let mut x = item_of(rng, others);
                let k = rng.between(places.start, places.end - 1);
                x.step.words_mut()[k] = nonzero(rng, ITEM[k - 5].1);
                x
            });
        }
        self.item(33, "a part that the item's kind leaves out: bytes", |rng| {
            let mut x = item_of(rng, &["avail", "cancel", "time"]);
            x.lent = rng.bytes(9);
            x.step.item.bytes = raw::View { at: rng.below(8) as u64, len: 1 };
            x
        });
        self.item(33, "a part that the item's kind leaves out: an EIDR", |rng| {
            let mut x = item_of(rng, &["avail", "dtmf", "cancel", "time", "reserved"]);
            let place = rng.below(12);
            x.beside.eidr[place] = nonzero(rng, 8);
            x
        });
    }

    /// 33, of UPIDs
    fn upids(&mut self) {
        self.item(33, "empty UPID other than None", |rng| {
            let kind = until(rng, |rng| rng.between(1, 255), |k| ![5, 10].contains(k)) as u8;
            with_upid(rng, kind, vec![])
        });
        self.item(33, "UPID type 5", |rng| {
            let length = rng.pick(&[0, 8, 8, 12]);
            let bytes = rng.bytes(length);
            with_upid(rng, 5, bytes)
        });
        self.item(33, "an EIDR with a view", |rng| {
            let mut x = segment_where(rng, |s| s.upid.kind == 10);
            let length = rng.pick(&[1, 12]);
            x.lent = rng.bytes(length);
            x.step.item.bytes = raw::View { at: 0, len: length as u64 };
            x
        });
        self.item(33, "an EIDR beside another UPID", |rng| {
            let mut x = segment_where(rng, |s| s.upid.kind != 10);
            let place = rng.below(12);
            x.beside.eidr[place] = nonzero(rng, 8);
            x
        });
    }

    /// 33: "UPID bytes that its reader refuses"
    fn refused_upids(&mut self) {
        self.item(33, "UPID bytes that its reader refuses: type 0", |rng| {
            let length = rng.between(1, 40);
            let bytes = rng.bytes(length);
            with_upid(rng, 0, bytes)
        });
        self.item(33, "UPID bytes that its reader refuses: a length", |rng| {
            let (kind, right) = rng.pick(&[(2, 8), (3, 12), (4, 32), (6, 12), (7, 12), (8, 8)]);
            let length = until(rng, |rng| rng.between(1, 40), |n| *n != right && !(kind == 6 && *n == 8));
            let bytes = vec![b'A'; length];
            with_upid(rng, kind, bytes)
        });
        self.item(33, "UPID bytes that its reader refuses: no text", |rng| {
            let (kind, length) = rng.pick(&[(2, 8), (3, 12), (7, 12)]);
            let mut bytes = vec![b'A'; length];
            bytes[rng.below(length)] = rng.pick(&[0x80, 0xBF, 0xC0, 0xC3, 0xED, 0xF5, 0xFF]);
            with_upid(rng, kind, bytes)
        });
        let faults: [(&str, &[u8]); 6] = [
            ("one byte left", &[8]),
            ("a part that is cut off", &[1, 3, 1, 2]),
            ("a part of type 0", &[0, 0]),
            ("a part of a wrong length", &[2, 7, 65, 65, 65, 65, 65, 65, 65]),
            ("a part that is no text", &[2, 8, 65, 65, 65, 0xFF, 65, 65, 65, 65]),
            ("an ISAN of eight bytes said to be of type 6", &[6, 8, 1, 2, 3, 4, 5, 6, 7, 8]),
        ];
        for (name, fault) in faults {
            self.item(33, format!("UPID bytes that its reader refuses: in a MID, {name}"), move |rng| {
                // behind a good part, and inside as many MIDs
                let levels = rng.below(30);
                let bytes = [&[9, 1, 7][..], &crate::make::nested(levels, fault)].concat();
                with_upid(rng, 13, bytes)
            });
        }
    }

    /// 34: "descriptor length over 254"
    fn item_sizes(&mut self) {
        self.item(34, "descriptor length over 254: reserved", |rng| {
            let value = Item::Reserved { tag: 9, identifier: *b"CUEI", bytes: vec![0x5A; rng.pick(&[251, 252, 300, 5000])] };
            words::item(rng, &value)
        });
        self.item(34, "descriptor length over 254: components", |rng| {
            let mut x = segment_where(rng, |s| s.components.is_some());
            let count = rng.between(41, 255);
            x.step.item.segmentation.component_count = count as u64;
            for place in &mut x.beside.components[..count] {
                *place = raw::SegmentationComponent { component_tag: rng.byte().into(), pts_offset: rng.number(33) };
            }
            x
        });
        self.item(34, "descriptor length over 254: UPID", |rng| {
            let length = rng.between(240, 255);
            let bytes = rng.bytes(length);
            let mut x = with_upid(rng, 1, bytes);
            // one byte too many
            if rng.bit() {
                x = with_upid(rng, 9, vec![65; 240]);
            }
            x
        });
    }
}
