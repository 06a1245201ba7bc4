//! Regions of memory, and ranges of addresses.
mod common;
use common::{all, filled, plain};
use zacpi::handler::{MappedRegion, MappedRegions, RegionError};
use zacpi::lists::records::Range;
use zacpi::lists::refusal::Refusal;
use zacpi::lists::regions::{Region, locate};
use zacpi::{AcpiError, AcpiHandler, AddressRange};

#[test]
fn a_region_is_memory() {
    let bytes = [1, 2, 3];
    let region = |start| MappedRegion::new(start, &bytes);
    assert_eq!((region(u64::MAX - 3).is_ok(), region(u64::MAX - 2).err()), (true, Some(RegionError::EndTooLarge)));
    let regions = |starts: [u64; 2]| MappedRegions::new(&starts.map(|start| region(start).unwrap())).err();
    assert_eq!(
        [[5, 8], [5, 7], [5, 4]].map(regions),
        [None, Some(RegionError::Overlap), Some(RegionError::NotAscending)]
    );
    assert_eq!(RegionError::Overlap.to_string(), "Overlap");
    let two = [region(5).unwrap(), region(8).unwrap()];
    let memory = MappedRegions::new(&two).unwrap();
    let map = |address, size| memory.map_physical_region(address, size).map(<[u8]>::to_vec);
    assert_eq!((map(6, 2), map(8, 1)), (Ok(vec![2, 3]), Ok(vec![1, 2, 3])));
    // Two regions that adjoin are two.
    assert_eq!([map(7, 2), map(4, 1), map(11, 1)], [const { Err(AcpiError::MapFailed) }; 3]);
    let list = |starts: [u64; 2]| locate(&starts.map(|address| Region { address, bytes: &bytes }), 6, 2).map(plain);
    assert_eq!(list([5, 8]), Ok("Place 0 1".into()));
    assert_eq!(list([5, 7]), Err(Refusal::RegionsNotAscending));
    assert_eq!(list([5, u64::MAX - 2]), Err(Refusal::RegionTooHigh));
    let (whole, high) = (AddressRange::new(2, 3), AddressRange::new(u64::MAX, 1));
    assert_eq!(
        ([1, 2, 4, 5].map(|at| whole.holds(at)), whole.fits(), high.fits()),
        ([false, true, true, false], true, false)
    );
}

/// A region of so many bytes.
fn region(start: u64, count: usize) -> Result<MappedRegion<'static>, RegionError> {
    MappedRegion::new(start, &[1, 2, 3, 4][..count])
}

/// How many bytes are mapped for each request, if any are.
fn lent<const N: usize>(memory: &impl AcpiHandler, requests: [(u64, usize); N]) -> [Option<usize>; N] {
    requests.map(|(address, size)| memory.map_physical_region(address, size).map(<[u8]>::len).ok())
}

/// What is mapped goes up to the end of its region, also where another one adjoins, and never beyond it.
#[test]
fn a_request_is_inside_of_one_region() {
    let one = region(0x1000, 4).unwrap();
    assert_eq!(lent(&one, [(0x1000, 1), (0x1003, 1)]), [Some(4), Some(1)]);
    assert_eq!(lent(&one, [(0xfff, 1), (0x1000, 5), (0x1003, 2), (0x1004, 1), (u64::MAX, 1)]), [None; 5]);
    let regions = [one, region(0x1004, 2).unwrap(), region(0x2000, 1).unwrap()];
    let three = MappedRegions::new(&regions).unwrap();
    let found = lent(&three, [(0x1000, 4), (0x1003, 1), (0x1004, 2), (0x2000, 1)]);
    assert_eq!(found, [Some(4), Some(1), Some(2), Some(1)]);
    assert_eq!(lent(&three, [(0x1003, 2), (0x1006, 1), (0x2001, 1), (0xfff, 1)]), [None; 4]);
}

/// Where two regions start and how many bytes they have, and why they are no memory.
#[test]
fn regions_that_are_no_memory_are_refused() {
    let pairs = [
        ((0x1000, 4), (0x1004, 1), Ok(())),
        ((0x1000, 4), (0x1003, 1), Err(RegionError::Overlap)),
        ((0x1000, 1), (0x1000, 1), Err(RegionError::Overlap)),
        ((0x1000, 1), (0xfff, 1), Err(RegionError::NotAscending)),
        ((0x1000, 1), (u64::MAX, 1), Err(RegionError::EndTooLarge)),
        ((0x1000, 1), (u64::MAX - 1, 1), Ok(())),
        ((0x1000, 0), (0x1000, 1), Ok(())),
    ];
    let memory = |first: (u64, usize), second: (u64, usize)| {
        let regions = [region(first.0, first.1)?, region(second.0, second.1)?];
        MappedRegions::new(&regions).map(|_| ())
    };
    for (first, second, wanted) in pairs {
        assert_eq!(memory(first, second), wanted, "{first:x?} {second:x?}");
    }
}

/// Ranges that overlap, without 256 bytes, inside of a window; and one that ends above 2^64 - 1.
#[test]
fn clips_ranges() {
    let of = |address, length| Range { address, length };
    let mut ranges = [of(0x3000, 0x1000), of(0x1000, 0x1000), of(0x1800, 0x1000), of(0x9000, 0x1000)];
    let clipped = all(|out| zacpi::clip_ranges(&mut ranges, &mut [of(0x1400, 0x100)], of(0x1000, 0x8800), out));
    let expected = [of(0x1000, 0x400), of(0x1500, 0x1300), of(0x3000, 0x1000), of(0x9000, 0x800)];
    assert_eq!(clipped, Ok(expected.to_vec()));
    assert_eq!(ranges, [of(0x1000, 0x1000), of(0x2000, 0x800), of(0x3000, 0x1000), of(0x9000, 0x1000)]);
    let clipped = filled(1, |out| zacpi::clip_ranges(&mut ranges, &mut [], of(0, u64::MAX), out));
    assert_eq!(clipped, Ok((vec![of(0x1000, 0x1800)], 3)));
    let high = zacpi::clip_ranges(&mut [of(u64::MAX, 1)], &mut [], of(0, 0), &mut []);
    assert_eq!(high, Err(Refusal::RangeTooHigh));
}
