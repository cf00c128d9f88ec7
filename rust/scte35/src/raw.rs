//! The C functions, as `include/scte35.h` declares them. Every struct is words of 64 bits; a slice is its address and length. For those
//! who count instructions or want the bare words: everybody else uses the functions of the crate itself.

// Each struct is words and nothing else, so all bits 0 is one, and it is a slice of words.
macro_rules! words {
    ($($(#[$doc:meta])* $name:ident { $($field:ident: $type:ty),* $(,)? })*) => {
        $($(#[$doc])*
        #[doc = concat!("`", stringify!($name), "`, as the header file has it.")]
        #[repr(C)]
        #[derive(Debug, Clone, Copy, PartialEq, Eq)]
        pub struct $name {
            $(#[doc = concat!("`", stringify!($field), "`")] pub $field: $type),*
        }

        impl $name {
            /// All words 0.
            pub const ZERO: Self = unsafe { std::mem::zeroed() };

            /// The words one after the other, as the writers take them.
            pub fn words(&self) -> &[u64] {
                unsafe { std::slice::from_raw_parts(std::ptr::from_ref(self).cast(), words::<Self>()) }
            }

            /// The words, to be changed.
            pub fn words_mut(&mut self) -> &mut [u64] {
                unsafe { std::slice::from_raw_parts_mut(std::ptr::from_mut(self).cast(), words::<Self>()) }
            }
        })*
    };
}

words! {
    View { at: u64, len: u64 }
    Time { kind: u64, ticks: u64 }
    Header {
        refusal: u64,
        protocol_version: u64,
        encrypted_packet: u64,
        encryption_algorithm: u64,
        pts_adjustment: u64,
        cw_index: u64,
        tier: u64,
        splice_command_length: u64,
        splice_command_type: u64,
    }
    Mode { program_splice_flag: u64, splice_time: Time, component_count: u64 }
    Break { duration_flag: u64, auto_return: u64, duration: u64 }
    Insert {
        splice_event_id: u64,
        splice_event_cancel_indicator: u64,
        reserved: u64,
        out_of_network_indicator: u64,
        mode: Mode,
        break_duration: Break,
        unique_program_id: u64,
        avail_num: u64,
        avails_expected: u64,
    }
    Command {
        refusal: u64,
        splice_command_type: u64,
        insert: Insert,
        splice_time: Time,
        identifier: u64,
        private_bytes: View,
    }
    InsertComponent { component_tag: u64, splice_time: Time }
    InsertComponents { refusal: u64, count: u64, components: [InsertComponent; 255] }
    Section { refusal: u64, header: Header, command: Command, descriptors: View, payload: View }
    Restrictions {
        web_delivery_allowed_flag: u64,
        no_regional_blackout_flag: u64,
        archive_allowed_flag: u64,
        device_restrictions: u64,
    }
    SubSegments { present: u64, sub_segment_num: u64, sub_segments_expected: u64 }
    Segmentation {
        segmentation_event_id: u64,
        segmentation_event_cancel_indicator: u64,
        program_segmentation_flag: u64,
        segmentation_duration_flag: u64,
        delivery_not_restricted_flag: u64,
        delivery_restrictions: Restrictions,
        component_count: u64,
        segmentation_duration: u64,
        segmentation_upid_type: u64,
        segmentation_type_id: u64,
        segment_num: u64,
        segments_expected: u64,
        sub_segments: SubSegments,
    }
    TimeDescriptor { tai_seconds: u64, tai_nanoseconds: u64, utc_offset: u64 }
    Item {
        kind: u64,
        provider_avail_id: u64,
        preroll: u64,
        segmentation: Segmentation,
        time: TimeDescriptor,
        splice_descriptor_tag: u64,
        bytes: View,
    }
    Step { refusal: u64, values: [u64; 3], next: u64, identifier: u64, item: Item }
    SegmentationComponent { component_tag: u64, pts_offset: u64 }
    SegmentationComponents { refusal: u64, values: [u64; 3], count: u64, components: [SegmentationComponent; 255], eidr: [u64; 12] }
    Part { upid_type: u64, level: u64, start: u64, len: u64 }
    Upid { refusal: u64, values: [u64; 3], upid_type: u64, eidr: [u64; 12], count: u64, parts: [Part; 127] }
    AdjustedTime { refusal: u64, kind: u64, ticks: u64 }
    Adjustment { refusal: u64, adjustment: u64 }
    Daterange { refusal: u64, id: View, date: View, name: u64, length: u64 }
    Number { refusal: u64, class: u64, number: u64 }
    Written { refusal: u64, length: u64 }
}

extern "C" {
    fn scte35_abi() -> u32;
    fn scte35_read_header(s: *const u8, n: usize, at: usize) -> Header;
    fn scte35_read_section(section: *const u8, n: usize, at: usize) -> Section;
    fn scte35_read_command(command_type: u8, payload: *const u8, n: usize, at: usize) -> Command;
    fn scte35_read_insert_components(payload: *const u8, n: usize, at: usize) -> InsertComponents;
    fn scte35_read_item(descriptors: *const u8, n: usize, offset: usize) -> Step;
    fn scte35_read_segmentation_components(descriptors: *const u8, n: usize, offset: usize) -> SegmentationComponents;
    fn scte35_read_upid(upid_type: u8, upid: *const u8, n: usize, at: usize) -> Upid;
    fn scte35_crc(s: *const u8, n: usize, at: usize) -> u32;
    fn scte35_adjust_time(kind: u64, ticks: u64, pts_adjustment: u64) -> AdjustedTime;
    fn scte35_move_time(kind: u64, ticks: u64, adjustment: u64) -> AdjustedTime;
    fn scte35_chain_adjustments(a: u64, b: u64) -> Adjustment;
    fn scte35_undo_adjustment(a: u64) -> Adjustment;
    fn scte35_adjust_section(section: *const u8, n: usize, at: usize, adjustment: u64, target: *mut u8, target_length: usize) -> Written;
    fn scte35_relabel(
        section: *const u8,
        n: usize,
        offset: usize,
        part: usize,
        upid_type: u8,
        bytes: *const u8,
        bytes_length: usize,
        target: *mut u8,
        target_length: usize,
    ) -> Written;
    fn scte35_write_daterange(
        section: *const u8,
        n: usize,
        at: usize,
        id: *const u8,
        id_length: usize,
        date: *const u8,
        date_length: usize,
        target: *mut u8,
        target_length: usize,
    ) -> Written;
    fn scte35_read_daterange(line: *const u8, n: usize, at: usize, target: *mut u8, target_length: usize) -> Daterange;
    fn scte35_write_command_words(
        command: *const u64,
        command_words: usize,
        components: *const u64,
        components_words: usize,
        lent: *const u8,
        lent_length: usize,
        target: *mut u8,
        target_length: usize,
    ) -> Written;
    fn scte35_write_descriptor_words(
        step: *const u64,
        step_words: usize,
        beside: *const u64,
        beside_words: usize,
        lent: *const u8,
        lent_length: usize,
        target: *mut u8,
        target_length: usize,
    ) -> Written;
    fn scte35_write_section_words(
        header: *const u64,
        header_words: usize,
        command: *const u64,
        command_words: usize,
        components: *const u64,
        components_words: usize,
        lent: *const u8,
        lent_length: usize,
        descriptors: *const u8,
        descriptors_length: usize,
        target: *mut u8,
        target_length: usize,
    ) -> Written;
    fn scte35_is_canonical_section(section: *const u8, n: usize, at: usize) -> bool;
    fn scte35_is_canonical_loop(descriptors: *const u8, n: usize, at: usize) -> bool;
    fn scte35_is_canonical_descriptor(descriptor: *const u8, n: usize, at: usize) -> bool;
    fn scte35_classify_algorithm(n: u8) -> Number;
    fn scte35_classify_command_type(n: u8) -> Number;
    fn scte35_classify_upid_type(n: u8) -> Number;
    fn scte35_classify_segmentation_type(n: u8) -> Number;
    fn scte35_classify_network_indicator(n: u8) -> Number;
    fn scte35_classify_return_mode(n: u8) -> Number;
    fn scte35_classify_device_restrictions(n: u8) -> Number;
}

// Each of these functions takes any bytes and any numbers, reads nothing but what is lent, writes nothing but a target's bytes, keeps
// nothing, and returns: that is proved of it. So each call below is safe for every argument.

macro_rules! over_bytes {
    ($($name:ident = $function:ident -> $answer:ty;)*) => {
        $(#[doc = concat!("`", stringify!($function), "`")]
        #[inline]
        pub fn $name(s: &[u8], at: usize) -> $answer {
            unsafe { $function(s.as_ptr(), s.len(), at) }
        })*
    };
}

macro_rules! of_numbers {
    ($($name:ident = $function:ident;)*) => {
        $(#[doc = concat!("`", stringify!($function), "`")]
        #[inline]
        pub fn $name(n: u8) -> Number {
            unsafe { $function(n) }
        })*
    };
}

over_bytes! {
    read_header = scte35_read_header -> Header;
    read_section = scte35_read_section -> Section;
    read_insert_components = scte35_read_insert_components -> InsertComponents;
    read_item = scte35_read_item -> Step;
    read_segmentation_components = scte35_read_segmentation_components -> SegmentationComponents;
    crc = scte35_crc -> u32;
    is_canonical_section = scte35_is_canonical_section -> bool;
    is_canonical_loop = scte35_is_canonical_loop -> bool;
    is_canonical_descriptor = scte35_is_canonical_descriptor -> bool;
}

of_numbers! {
    classify_algorithm = scte35_classify_algorithm;
    classify_command_type = scte35_classify_command_type;
    classify_upid_type = scte35_classify_upid_type;
    classify_segmentation_type = scte35_classify_segmentation_type;
    classify_network_indicator = scte35_classify_network_indicator;
    classify_return_mode = scte35_classify_return_mode;
    classify_device_restrictions = scte35_classify_device_restrictions;
}

/// `scte35_abi`: that of the archive. Where it is not `ABI`, call nothing else.
#[inline]
pub fn abi() -> u32 {
    unsafe { scte35_abi() }
}

/// `scte35_read_command`
#[inline]
pub fn read_command(command_type: u8, s: &[u8], at: usize) -> Command {
    unsafe { scte35_read_command(command_type, s.as_ptr(), s.len(), at) }
}

/// `scte35_read_upid`
#[inline]
pub fn read_upid(upid_type: u8, s: &[u8], at: usize) -> Upid {
    unsafe { scte35_read_upid(upid_type, s.as_ptr(), s.len(), at) }
}

/// `scte35_adjust_time`
#[inline]
pub fn adjust_time(kind: u64, ticks: u64, pts_adjustment: u64) -> AdjustedTime {
    unsafe { scte35_adjust_time(kind, ticks, pts_adjustment) }
}

/// `scte35_move_time`
#[inline]
pub fn move_time(kind: u64, ticks: u64, adjustment: u64) -> AdjustedTime {
    unsafe { scte35_move_time(kind, ticks, adjustment) }
}

/// `scte35_chain_adjustments`
#[inline]
pub fn chain_adjustments(a: u64, b: u64) -> Adjustment {
    unsafe { scte35_chain_adjustments(a, b) }
}

/// `scte35_undo_adjustment`
#[inline]
pub fn undo_adjustment(a: u64) -> Adjustment {
    unsafe { scte35_undo_adjustment(a) }
}

/// `scte35_adjust_section`
#[inline]
pub fn adjust_section(s: &[u8], at: usize, adjustment: u64, target: &mut [u8]) -> Written {
    unsafe { scte35_adjust_section(s.as_ptr(), s.len(), at, adjustment, target.as_mut_ptr(), target.len()) }
}

/// `scte35_relabel`
#[inline]
pub fn relabel(s: &[u8], offset: usize, part: usize, upid_type: u8, bytes: &[u8], target: &mut [u8]) -> Written {
    unsafe { scte35_relabel(s.as_ptr(), s.len(), offset, part, upid_type, bytes.as_ptr(), bytes.len(), target.as_mut_ptr(), target.len()) }
}

/// `scte35_write_daterange`
#[inline]
pub fn write_daterange(s: &[u8], at: usize, id: &[u8], date: &[u8], target: &mut [u8]) -> Written {
    unsafe { scte35_write_daterange(s.as_ptr(), s.len(), at, id.as_ptr(), id.len(), date.as_ptr(), date.len(), target.as_mut_ptr(), target.len()) }
}

/// `scte35_read_daterange`
#[inline]
pub fn read_daterange(s: &[u8], at: usize, target: &mut [u8]) -> Daterange {
    unsafe { scte35_read_daterange(s.as_ptr(), s.len(), at, target.as_mut_ptr(), target.len()) }
}

/// `scte35_write_command_words`
#[inline]
pub fn write_command_words(command: &[u64], components: &[u64], lent: &[u8], target: &mut [u8]) -> Written {
    unsafe {
        scte35_write_command_words(
            command.as_ptr(),
            command.len(),
            components.as_ptr(),
            components.len(),
            lent.as_ptr(),
            lent.len(),
            target.as_mut_ptr(),
            target.len(),
        )
    }
}

/// `scte35_write_descriptor_words`
#[inline]
pub fn write_descriptor_words(step: &[u64], beside: &[u64], lent: &[u8], target: &mut [u8]) -> Written {
    unsafe {
        scte35_write_descriptor_words(
            step.as_ptr(),
            step.len(),
            beside.as_ptr(),
            beside.len(),
            lent.as_ptr(),
            lent.len(),
            target.as_mut_ptr(),
            target.len(),
        )
    }
}

/// `scte35_write_section_words`
#[inline]
pub fn write_section_words(header: &[u64], command: &[u64], components: &[u64], lent: &[u8], descriptors: &[u8], target: &mut [u8]) -> Written {
    unsafe {
        scte35_write_section_words(
            header.as_ptr(),
            header.len(),
            command.as_ptr(),
            command.len(),
            components.as_ptr(),
            components.len(),
            lent.as_ptr(),
            lent.len(),
            descriptors.as_ptr(),
            descriptors.len(),
            target.as_mut_ptr(),
            target.len(),
        )
    }
}

/// `SCTE35_ABI` of the header file that these declarations follow.
pub const ABI: u32 = 1;

const fn words<T>() -> usize {
    std::mem::size_of::<T>() / 8
}

/// The sizes that the header file states.
const _: () = {
    assert!(words::<Header>() == 9);
    assert!(words::<Insert>() == 14);
    assert!(words::<Command>() == 21);
    assert!(words::<InsertComponents>() == 2 + 255 * 3);
    assert!(words::<Section>() == 1 + 9 + 21 + 2 + 2);
    assert!(words::<Segmentation>() == 18);
    assert!(words::<Item>() == 27);
    assert!(words::<Step>() == 6 + 27);
    assert!(words::<SegmentationComponents>() == 5 + 255 * 2 + 12);
    assert!(words::<Upid>() == 18 + 127 * 4);
    assert!(words::<AdjustedTime>() == 3);
    assert!(words::<Adjustment>() == 2);
    assert!(words::<Daterange>() == 7);
    assert!(words::<Number>() == 3);
    assert!(words::<Written>() == 2);
};
