//! Stand-in for crate `mpeg2ts-reader`: the few items that scte35-reader names, written from their
//! public behaviour. No demultiplexer. `is_scte35`'s plumbing compiles and yields no descriptor.

#[derive(Debug, PartialEq, Eq, Hash, Clone, Copy)]
pub struct StreamType(pub u8);

pub mod mpegts_crc {
    /// CRC of ISO/IEC 13818-1 Annex A: polynomial 0x04C11DB7, start 0xFFFFFFFF, high bit first.
    /// Over data followed by its CRC the sum is 0.
    pub fn sum32(data: &[u8]) -> u32 {
        let mut crc: u32 = 0xffff_ffff;
        for b in data {
            crc = (crc << 8) ^ TABLE[((crc >> 24) as u8 ^ b) as usize];
        }
        crc
    }
    static TABLE: [u32; 256] = table();
    const fn table() -> [u32; 256] {
        let mut t = [0u32; 256];
        let mut i = 0;
        while i < 256 {
            let mut c = (i as u32) << 24;
            let mut k = 0;
            while k < 8 {
                c = if c & 0x8000_0000 != 0 { (c << 1) ^ 0x04c1_1db7 } else { c << 1 };
                k += 1;
            }
            t[i] = c;
            i += 1;
        }
        t
    }
}

pub mod smptera {
    #[derive(Debug, PartialEq, Eq, Clone, Copy)]
    pub struct FormatIdentifier(pub [u8; 4]);
    impl FormatIdentifier {
        pub const CUEI: FormatIdentifier = FormatIdentifier(*b"CUEI");
    }
}

pub mod descriptor {
    #[derive(Debug)]
    pub struct DescriptorError;
    pub struct RegistrationDescriptor<'a>(pub &'a [u8]);
    impl RegistrationDescriptor<'_> {
        pub fn is_format(&self, id: crate::smptera::FormatIdentifier) -> bool {
            self.0.len() >= 4 && self.0[..4] == id.0
        }
    }
    pub enum CoreDescriptors<'a> {
        Registration(RegistrationDescriptor<'a>),
        Unknown(&'a [u8]),
    }
}

pub mod demultiplex {
    pub trait DemuxContext {}
    // the next two only so that the doc example of scte35-reader compiles
    pub struct NullPacketFilter<C>(pub std::marker::PhantomData<C>);
    pub struct FilterRequest<'a, 'b>(pub &'a (), pub &'b ());
}
#[macro_export]
macro_rules! demux_context {
    ($name:ident, $filter:ty) => {
        pub struct $name;
        impl $name {
            pub fn new() -> Self {
                $name
            }
        }
        impl $crate::demultiplex::DemuxContext for $name {}
    };
}

pub mod psi {
    pub mod pmt {
        pub struct PmtSection<'a>(pub &'a [u8]);
        impl<'a> PmtSection<'a> {
            pub fn descriptors(&self) -> impl Iterator<Item = Result<crate::descriptor::CoreDescriptors<'a>, crate::descriptor::DescriptorError>> {
                std::iter::empty()
            }
        }
    }
    #[derive(Debug)]
    pub struct SectionCommonHeader {
        pub table_id: u8,
        pub section_syntax_indicator: bool,
        pub private_indicator: bool,
        pub section_length: usize,
    }
    impl SectionCommonHeader {
        pub const SIZE: usize = 3;
        pub fn new(buf: &[u8]) -> SectionCommonHeader {
            assert_eq!(buf.len(), Self::SIZE);
            SectionCommonHeader {
                table_id: buf[0],
                section_syntax_indicator: buf[1] & 0x80 != 0,
                private_indicator: buf[1] & 0x40 != 0,
                section_length: (usize::from(buf[1] & 0x0f) << 8) | usize::from(buf[2]),
            }
        }
    }
    pub trait WholeCompactSyntaxPayloadParser {
        type Context;
        fn section(&mut self, ctx: &mut Self::Context, header: &SectionCommonHeader, data: &[u8]);
    }
}

#[cfg(test)]
mod tests {
    use super::mpegts_crc::sum32;
    use super::psi::SectionCommonHeader;

    /// The annex's register, a bit at a time.
    fn by_bits(data: &[u8]) -> u32 {
        let mut z = 0xFFFF_FFFFu32;
        for byte in data {
            for k in (0..8).rev() {
                let out = (z >> 31) ^ u32::from(byte >> k & 1);
                z = (z << 1) ^ if out == 1 { 0x04C1_1DB7 } else { 0 };
            }
        }
        z
    }

    #[test]
    fn crc() {
        assert_eq!(sum32(b"123456789"), 0x0376_E6E7);
        let mut message = vec![];
        for n in 0..600u32 {
            assert_eq!(sum32(&message), by_bits(&message));
            let mut closed = message.clone();
            closed.extend(sum32(&message).to_be_bytes());
            assert_eq!(sum32(&closed), 0);
            message.push((n.wrapping_mul(2_654_435_761) >> 11) as u8);
        }
    }

    #[test]
    fn common_header() {
        let h = SectionCommonHeader::new(&[0xFC, 0x3A, 0xBC]);
        assert_eq!((h.table_id, h.section_syntax_indicator, h.private_indicator, h.section_length), (0xFC, false, false, 0xABC));
        let h = SectionCommonHeader::new(&[0, 0xC0, 0]);
        assert_eq!((h.table_id, h.section_syntax_indicator, h.private_indicator, h.section_length), (0, true, true, 0));
    }

    #[test]
    #[should_panic]
    fn common_header_of_two_bytes() {
        SectionCommonHeader::new(&[0xFC, 0x30]);
    }
}
