//! A packet layer over two stores, written from request 5 of document 02. Every call
//! asks both stores for their bytes first, and then the one that it is about.

use crate::packet_store::{Head, Refusal, Store};

#[derive(Clone, Copy, Debug, PartialEq, Eq)]
pub enum Place {
    OnChip,
    External,
}

/// What a grant answers, and what later calls carry.
#[derive(Clone, Copy, Debug, PartialEq, Eq)]
pub struct Name {
    pub place: Place,
    pub offset: u32,
    pub record: u32,
}

pub struct Packets {
    on_chip: Store,
    external: Store,
}

impl Packets {
    pub fn new(on_chip: Store, external: Store) -> Self {
        Self { on_chip, external }
    }

    /// The other store stays. A refusal leaves no store here.
    pub fn set_up(&mut self, place: Place, asked: Head) -> Result<(), Refusal> {
        let (on_chip, external) = match place {
            Place::OnChip => (asked, self.external.head()),
            Place::External => (self.on_chip.head(), asked),
        };
        let checked = self
            .check_sizes(on_chip.size, external.size)
            .and_then(|()| self.store(place).check_set_up(asked.count));
        let store = self.store_mut(place);
        match checked {
            Ok(()) => store.begin(asked),
            Err(_) => store.clear(),
        }
        checked
    }

    /// All or nothing: a refusal leaves no store at all.
    pub fn set_up_both(&mut self, on_chip: Head, external: Head) -> Result<(), Refusal> {
        let checked = self
            .check_sizes(on_chip.size, external.size)
            .and_then(|()| self.on_chip.check_set_up(on_chip.count))
            .and_then(|()| self.external.check_set_up(external.count));
        if checked.is_ok() {
            self.on_chip.begin(on_chip);
            self.external.begin(external);
        } else {
            self.on_chip.clear();
            self.external.clear();
        }
        checked
    }

    /// A store that has no room for it, be it for want of a record or of a region,
    /// leaves it to the next. Any other refusal ends it.
    #[inline(always)]
    pub fn take(&mut self, length: u32) -> Result<Name, Refusal> {
        self.check_stores()?;
        match self.take_in(Place::OnChip, length) {
            Err(Refusal::NoSpare | Refusal::NoRegion) => self.take_in(Place::External, length),
            answer => answer,
        }
    }

    #[inline(always)]
    fn take_in(&mut self, place: Place, length: u32) -> Result<Name, Refusal> {
        let (offset, record) = self.store_mut(place).take(length)?;
        Ok(Name {
            place,
            offset,
            record,
        })
    }

    #[inline(always)]
    pub fn hand_back(&mut self, name: Name) -> Result<(), Refusal> {
        self.check_stores()?;
        self.store_mut(name.place)
            .hand_back(name.offset, name.record)
    }

    pub fn length(&self, name: Name) -> Result<u32, Refusal> {
        self.check_stores()?;
        self.store(name.place).length(name.offset, name.record)
    }

    /// The packet's part of its store; an empty part where the call is refused.
    pub fn read(&self, name: Name) -> &[u8] {
        self.check_stores()
            .and_then(|()| self.store(name.place).part(name.offset, name.record))
            .unwrap_or_default()
    }

    /// Writes the front of the packet's part of its store.
    #[inline(always)]
    pub fn fill(&mut self, name: Name, bytes: &[u8]) -> Result<(), Refusal> {
        self.check_stores()?;
        let store = self.store_mut(name.place);
        let part = store.part_mut(name.offset, name.record)?;
        let front = part.get_mut(..bytes.len()).ok_or(Refusal::TooLong)?;
        front.copy_from_slice(bytes);
        Ok(())
    }

    /// Of one store: all that is free, and the largest request that has room.
    pub fn report(&self, place: Place) -> Result<(u32, u32), Refusal> {
        self.check_stores()?;
        self.store(place).report()
    }

    /// Nobody spoils tables here, so that of one store only bytes, count and lengths
    /// can be wrong.
    pub fn audit(&self, place: Place) -> Result<(), Refusal> {
        self.check_stores()?;
        self.store(place).check()
    }

    /// Comes before all else in every call.
    fn check_stores(&self) -> Result<(), Refusal> {
        self.check_sizes(self.on_chip.head().size, self.external.head().size)
    }

    fn check_sizes(&self, on_chip: u32, external: u32) -> Result<(), Refusal> {
        if self.on_chip.is_short_of(on_chip) || self.external.is_short_of(external) {
            return Err(Refusal::ShortStore);
        }
        Ok(())
    }

    pub fn store(&self, place: Place) -> &Store {
        match place {
            Place::OnChip => &self.on_chip,
            Place::External => &self.external,
        }
    }

    pub fn store_mut(&mut self, place: Place) -> &mut Store {
        match place {
            Place::OnChip => &mut self.on_chip,
            Place::External => &mut self.external,
        }
    }

    /// All bytes of the on-chip store and of the external one, lent or not.
    pub fn bytes(&self) -> [&[u8]; 2] {
        [self.on_chip.bytes(), self.external.bytes()]
    }
}

#[cfg(test)]
mod tests {
    use super::*;

    const BOTH: [Place; 2] = [Place::OnChip, Place::External];

    /// Two stores of 16 and 32 bytes, all 7.
    fn packets(on_chip_records: u32) -> Packets {
        Packets::new(
            Store::new(16, on_chip_records, vec![7; 16]),
            Store::new(32, 8, vec![7; 32]),
        )
    }

    /// The same bytes, with room for 16 records each and without a setup.
    fn unset() -> Packets {
        Packets::new(Store::unset(16, vec![7; 16]), Store::unset(16, vec![7; 32]))
    }

    fn head(size: u32, count: u32) -> Head {
        Head { size, count }
    }

    fn name(place: Place, offset: u32, record: u32) -> Name {
        Name {
            place,
            offset,
            record,
        }
    }

    #[test]
    fn external_is_tried_where_on_chip_has_no_region_or_no_record() {
        let mut full = packets(8);
        assert_eq!(full.take(16), Ok(name(Place::OnChip, 0, 0)));
        assert_eq!(full.take(1), Ok(name(Place::External, 0, 0)));
        let mut without_spare = packets(2);
        assert_eq!(without_spare.take(1), Ok(name(Place::External, 0, 0)));
        let mut too_long = packets(8);
        assert_eq!(too_long.take(17), Ok(name(Place::External, 0, 0)));
        assert_eq!(too_long.take(3), Ok(name(Place::OnChip, 0, 0)));
    }

    /// 3 or 4 by what the last store tried lacks, whatever the first one did.
    #[test]
    fn a_take_that_both_refuse_is_refused_as_by_external() {
        for (on_chip, external, refusal) in [
            (2, 8, Refusal::NoRegion),
            (8, 2, Refusal::NoSpare),
            (8, 8, Refusal::NoRegion),
            (2, 2, Refusal::NoSpare),
        ] {
            let mut packets = Packets::new(
                Store::new(16, on_chip, vec![7; 16]),
                Store::new(32, external, vec![7; 32]),
            );
            assert_eq!(packets.take(33), Err(refusal));
            assert_eq!(packets.bytes(), [&[7; 16][..], &[7; 32]]);
        }
    }

    #[test]
    fn on_chip_ends_a_take_by_its_count_and_external_is_not_tried() {
        for (count, refusal) in [
            (0, Refusal::BadHead),
            (1, Refusal::BadHead),
            (9, Refusal::ShortTable),
            (131_072, Refusal::ShortTable),
            (131_073, Refusal::ShortTable),
            (1_048_576, Refusal::ShortTable),
            (1_048_577, Refusal::BadHead),
            (u32::MAX, Refusal::BadHead),
        ] {
            let mut packets = packets(8);
            packets.store_mut(Place::OnChip).write_count(count);
            assert_eq!(packets.take(3), Err(refusal));
            packets.store_mut(Place::OnChip).write_count(8);
            packets.store_mut(Place::External).write_count(count);
            assert_eq!(packets.take(3), Ok(name(Place::OnChip, 0, 0)));
            assert_eq!(packets.take(16), Err(refusal));
        }
    }

    #[test]
    fn a_grant_sets_its_own_bytes_and_a_fill_its_front() {
        let mut packets = packets(8);
        packets.take(2).unwrap();
        let name = packets.take(3).unwrap();
        assert_eq!(packets.bytes()[0][..7], [255, 255, 255, 255, 255, 7, 7]);
        assert_eq!(packets.read(name), [255; 3]);
        assert_eq!(packets.fill(name, &[1, 2]), Ok(()));
        assert_eq!(packets.read(name), [1, 2, 255]);
        assert_eq!(packets.fill(name, &[3; 4]), Err(Refusal::TooLong));
        assert_eq!(packets.fill(name, &[]), Ok(()));
        assert_eq!(packets.bytes()[0][..7], [255, 255, 1, 2, 255, 7, 7]);
        assert!(packets.bytes()[0][7..].iter().all(|&byte| byte == 7));
        assert_eq!(packets.bytes()[1], [7; 32]);
    }

    #[test]
    fn bytes_stay_after_a_return_and_no_old_reading_shows_in_a_grant() {
        let mut packets = packets(8);
        let name = packets.take(3).unwrap();
        packets.fill(name, &[1, 2, 3]).unwrap();
        packets.hand_back(name).unwrap();
        assert_eq!(packets.bytes()[0][..4], [1, 2, 3, 7]);
        assert_eq!(packets.take(2), Ok(name));
        assert_eq!(packets.bytes()[0][..4], [255, 255, 3, 7]);
    }

    /// The name of a packet that went back is good again once a grant has it.
    #[test]
    fn a_name_is_refused_unless_a_live_packet_has_it() {
        let mut packets = packets(8);
        let good = packets.take(3).unwrap();
        let cases = [
            (name(Place::OnChip, 1, 0), Refusal::Elsewhere),
            (name(Place::OnChip, 3, 1), Refusal::NotLive),
            (name(Place::OnChip, 0, 8), Refusal::NotLive),
            (name(Place::OnChip, 0, u32::MAX), Refusal::NotLive),
            (name(Place::External, 0, 0), Refusal::NotLive),
        ];
        for (bad, refusal) in cases {
            assert_eq!(packets.hand_back(bad), Err(refusal));
            assert_eq!(packets.length(bad), Err(refusal));
            assert_eq!(packets.fill(bad, &[9; 40]), Err(refusal));
            assert!(packets.read(bad).is_empty());
        }
        assert_eq!(packets.bytes()[0][..4], [255, 255, 255, 7]);
        assert_eq!(packets.length(good), Ok(3));
        assert_eq!(packets.hand_back(good), Ok(()));
        assert_eq!(packets.hand_back(good), Err(Refusal::NotLive));
        assert!(packets.read(good).is_empty());
        assert_eq!(packets.take(5), Ok(good));
        assert_eq!(packets.length(good), Ok(5));
    }

    #[test]
    fn the_length_tells_an_empty_packet_from_a_refusal() {
        let mut packets = packets(8);
        let empty = packets.take(0).unwrap();
        assert!(packets.read(empty).is_empty());
        assert_eq!(packets.length(empty), Ok(0));
        assert_eq!(packets.fill(empty, &[]), Ok(()));
        assert_eq!(packets.fill(empty, &[1]), Err(Refusal::TooLong));
    }

    /// Asserts that every call but a setup, with each of the names, is refused so, and
    /// changes nothing. Takes go to the on-chip store, whatever the place.
    fn refuse_all(packets: &mut Packets, place: Place, names: &[Name], refusal: Refusal) {
        let before = packets.bytes().map(<[u8]>::to_vec);
        if place == Place::OnChip {
            assert_eq!(packets.take(1), Err(refusal));
        }
        assert_eq!(packets.report(place), Err(refusal));
        assert_eq!(packets.audit(place), Err(refusal));
        for &name in names {
            assert_eq!(packets.hand_back(name), Err(refusal));
            assert_eq!(packets.length(name), Err(refusal));
            assert_eq!(packets.fill(name, &[1]), Err(refusal));
            assert_eq!(packets.fill(name, &[1; 40]), Err(refusal));
            assert!(packets.read(name).is_empty());
        }
        assert_eq!(packets.bytes(), before);
    }

    #[test]
    fn a_short_store_is_refused_before_all_else() {
        let long = || Store::new(16, 8, vec![7; 17]);
        let mut packets = Packets::new(long(), long());
        let good = packets.take(3).unwrap();
        let names = [good, name(Place::OnChip, 1, 0), name(Place::External, 0, 9)];
        for place in BOTH {
            for count in [8, 0, 9] {
                packets.store_mut(place).write_count(count);
                for lent in [0, 15] {
                    packets.store_mut(place).lend(lent);
                    for asked in BOTH {
                        refuse_all(&mut packets, asked, &names, Refusal::ShortStore);
                    }
                }
                packets.store_mut(place).lend(16);
            }
            packets.store_mut(place).write_count(8);
        }
        assert_eq!(packets.read(good), [255; 3]);
        assert_eq!(packets.take(1), Ok(name(Place::OnChip, 3, 1)));
    }

    /// A count that somebody wrote is refused in its own store alone, and all is as
    /// before once the own count is back.
    #[test]
    fn a_bad_count_is_refused_before_the_name() {
        for place in BOTH {
            let mut packets = packets(8);
            if place == Place::External {
                packets.take(16).unwrap();
            }
            let good = packets.take(3).unwrap();
            assert_eq!(good.place, place);
            let names = [good, name(place, 1, 0), name(place, 0, 9)];
            for (count, refusal) in [
                (1, Refusal::BadHead),
                (9, Refusal::ShortTable),
                (1_048_577, Refusal::BadHead),
            ] {
                packets.store_mut(place).write_count(count);
                refuse_all(&mut packets, place, &names, refusal);
                let other = BOTH[1 - place as usize];
                assert_eq!(packets.audit(other), Ok(()));
            }
            packets.store_mut(place).write_count(8);
            assert_eq!(packets.audit(place), Ok(()));
            assert_eq!(packets.read(good), [255; 3]);
            assert_eq!(packets.hand_back(good), Ok(()));
        }
    }

    #[test]
    fn there_is_no_store_before_a_setup_or_after_a_refused_one() {
        for place in BOTH {
            let mut packets = unset();
            let first = name(place, 0, 0);
            refuse_all(&mut packets, place, &[first], Refusal::BadHead);
            for (asked, refusal) in [
                (head(33, 1), Refusal::ShortStore),
                (head(16, 1), Refusal::BadCount),
                (head(16, 17), Refusal::ShortTable),
                (head(16, 131_072), Refusal::ShortTable),
                (head(16, 131_073), Refusal::ShortTable),
                (head(16, 1_048_576), Refusal::ShortTable),
                (head(16, 1_048_577), Refusal::BadCount),
            ] {
                assert_eq!(packets.set_up(place, head(16, 16)), Ok(()));
                assert_eq!(packets.report(place), Ok((16, 16)));
                assert_eq!(packets.set_up(place, asked), Err(refusal));
                assert_eq!(packets.store(place).head(), Head::default());
                refuse_all(&mut packets, place, &[first], Refusal::BadHead);
            }
        }
    }

    /// Of the store that is set up the size that is asked for is held to the bytes, and
    /// not the one that it had.
    #[test]
    fn a_setup_of_one_store_leaves_the_other() {
        let mut packets = packets(8);
        let on_chip = packets.take(16).unwrap();
        let external = packets.take(5).unwrap();
        let before = packets.bytes().map(<[u8]>::to_vec);
        packets.store_mut(Place::OnChip).lend(8);
        let asked = head(32, 8);
        let refused = packets.set_up(Place::External, asked);
        assert_eq!(refused, Err(Refusal::ShortStore));
        assert_eq!(packets.store(Place::External).head(), Head::default());
        assert_eq!(packets.store(Place::OnChip).head(), head(16, 8));
        assert_eq!(packets.set_up(Place::OnChip, head(8, 3)), Ok(()));
        assert_eq!(packets.length(on_chip), Err(Refusal::NotLive));
        assert_eq!(packets.set_up(Place::External, asked), Ok(()));
        assert_eq!(packets.length(external), Err(Refusal::NotLive));
        assert_eq!(packets.bytes(), before);
        assert_eq!(packets.take(8), Ok(on_chip));
    }

    #[test]
    fn a_setup_of_both_is_all_or_nothing() {
        let good = head(16, 8);
        for (on_chip, external, refusal) in [
            (head(17, 1), good, Refusal::ShortStore),
            (good, head(33, 1), Refusal::ShortStore),
            (head(16, 17), head(33, 1), Refusal::ShortStore),
            (head(16, 1), good, Refusal::BadCount),
            (good, head(16, 1), Refusal::BadCount),
            (head(16, 17), good, Refusal::ShortTable),
            (good, head(16, 17), Refusal::ShortTable),
            (head(16, 1), head(16, 17), Refusal::BadCount),
            (head(16, 17), head(16, 1), Refusal::ShortTable),
        ] {
            let mut packets = unset();
            assert_eq!(packets.set_up_both(good, head(32, 8)), Ok(()));
            packets.take(3).unwrap();
            let before = packets.bytes().map(<[u8]>::to_vec);
            assert_eq!(packets.set_up_both(on_chip, external), Err(refusal));
            for place in BOTH {
                assert_eq!(packets.store(place).head(), Head::default());
                assert_eq!(packets.report(place), Err(Refusal::BadHead));
            }
            assert_eq!(packets.set_up_both(head(0, 2), head(32, 16)), Ok(()));
            assert_eq!(packets.bytes(), before);
            assert_eq!(packets.report(Place::OnChip), Ok((0, 0)));
            assert_eq!(packets.report(Place::External), Ok((32, 32)));
        }
    }

    #[test]
    fn a_refusal_has_the_documents_number() {
        let numbers = [
            Refusal::BadCount,
            Refusal::ShortTable,
            Refusal::NoSpare,
            Refusal::NoRegion,
            Refusal::NotLive,
            Refusal::BadHead,
            Refusal::Elsewhere,
            Refusal::ShortStore,
            Refusal::TooLong,
        ]
        .map(Refusal::number);
        assert_eq!(numbers, [1, 2, 3, 4, 5, 6, 8, 9, 17]);
    }
}
