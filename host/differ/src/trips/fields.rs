//! The words that C hands to a writer: the name of each and how many bits its field has. Of 64 are those that are no field of the standard, and those
//! that the rules leave out.

pub type Field = (&'static str, u32);

pub const HEADER: [Field; 9] = [
    ("refusal", 64),
    ("protocol_version", 8),
    ("encrypted_packet", 1),
    ("encryption_algorithm", 6),
    ("pts_adjustment", 33),
    ("cw_index", 8),
    ("tier", 12),
    ("splice_command_length", 64),
    ("splice_command_type", 64),
];

pub const COMMAND: [Field; 21] = [
    ("refusal", 64),
    ("splice_command_type", 8),
    ("splice_event_id", 32),
    ("splice_event_cancel_indicator", 1),
    ("reserved", 7),
    ("out_of_network_indicator", 1),
    ("program_splice_flag", 1),
    ("insert's time's kind", 2),
    ("insert's time", 33),
    ("component_count", 8),
    ("duration_flag", 1),
    ("auto_return", 1),
    ("duration", 33),
    ("unique_program_id", 16),
    ("avail_num", 8),
    ("avails_expected", 8),
    ("time signal's time's kind", 2),
    ("time signal's time", 33),
    ("private identifier", 32),
    ("private bytes, at", 64),
    ("private bytes, length", 64),
];

pub const COMPONENT_SPLICE: [Field; 3] = [("component's tag", 8), ("component's time's kind", 2), ("component's time", 33)];

/// From the identifier on, which is word 5 of a step.
pub const ITEM: [Field; 28] = [
    ("identifier", 32),
    ("kind", 64),
    ("provider_avail_id", 32),
    ("preroll", 8),
    ("segmentation_event_id", 32),
    ("segmentation_event_cancel_indicator", 1),
    ("program_segmentation_flag", 1),
    ("segmentation_duration_flag", 1),
    ("delivery_not_restricted_flag", 1),
    ("web_delivery_allowed_flag", 1),
    ("no_regional_blackout_flag", 1),
    ("archive_allowed_flag", 1),
    ("device_restrictions", 2),
    ("component_count", 8),
    ("segmentation_duration", 40),
    ("segmentation_upid_type", 8),
    ("segmentation_type_id", 8),
    ("segment_num", 8),
    ("segments_expected", 8),
    ("sub-segments, present", 1),
    ("sub_segment_num", 8),
    ("sub_segments_expected", 8),
    ("tai_seconds", 48),
    ("tai_nanoseconds", 32),
    ("utc_offset", 16),
    ("splice_descriptor_tag", 8),
    ("bytes, at", 64),
    ("bytes, length", 64),
];

pub const COMPONENT: [Field; 2] = [("component's tag", 8), ("component's offset", 33)];

/// Is each word within its field?
pub fn fit(words: &[u64], fields: &[Field]) -> bool {
    assert_eq!(words.len(), fields.len());
    words.iter().zip(fields).all(|(word, (_, width))| *width == 64 || *word >> width == 0)
}
