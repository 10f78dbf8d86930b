//! Readers. Every piece is compared with `paper`, and with what was drawn or what a walk byte by byte gives, so that these
//! cannot be wrong together. The image is lent once for many pieces, each of which has a buffer of its own.

use crate::support::calls::{self, Call, NAME, NOTHING, NOTHING_COMES, OUT, RawSlice, Request, SLICES, ask_c};
use crate::support::compare::{self, Lend};
use crate::support::damage;
use crate::support::disks::{self, DrawnDisk, DrawnFile};
use crate::support::fields;
use crate::support::geometry::{BITS, IMAGE, LONGEST, PAYLOAD, SECTORS, address, bit_place, fills, number};
use crate::support::margins::Margins;
use crate::support::random::Random;
use crate::support::readers::{self, END, Position};
use crate::support::requests::WRONG_LENGTHS;
use crate::support::settings::{Round, Rounds};
use crate::support::shapes::Shape;
use paper::Reader;

/// An image lent to the C layer.
struct Lent<'a> {
    image: &'a [u8],
    lender: Margins,
    part: RawSlice,
    pieces: usize,
}

impl<'a> Lent<'a> {
    fn new(image: &'a [u8]) -> Lent<'a> {
        let mut lender = Margins::default();
        let part = lender.lend(calls::IMAGE, image, false);
        Lent {
            image,
            lender,
            part,
            pieces: 0,
        }
    }

    /// Asks for the next piece; both sides give one answer, and leave one buffer. Gives what came, and where the next stands.
    fn next(&mut self, numbers: [u32; 3], room: usize) -> (Vec<u8>, Position) {
        let rubbish = 0x5c ^ self.pieces as u8;
        let mut parts = [NOTHING; SLICES];
        parts[calls::IMAGE] = self.part;
        parts[OUT] = self.lender.lend(OUT, &vec![rubbish; room], true);
        // Safety: the image is only read, and the output buffer stands alone.
        let answer = unsafe { ask_c(Call::Next, numbers, &parts) };
        let [sector, offset, left] = numbers;
        let (mut reader, mut out) = (Reader { sector, offset, left }, vec![rubbish; room]);
        let came = paper::next(self.image, &mut reader, &mut out);
        let what = || format!("{numbers:?}, room {room}, {}", compare::read_out(answer));
        let position = (reader.sector as usize, reader.offset as usize);
        assert_eq!(calls::refusal(answer), 0, "{}", what());
        assert_eq!(calls::value(answer), came, "{}", what());
        assert_eq!((calls::slot(answer), calls::free(answer)), position, "{}", what());
        assert!(self.lender.bytes(OUT) == out, "the buffers differ: {}", what());
        assert!(
            out[came..].iter().all(|&byte| byte == rubbish),
            "the rest is changed: {}",
            what()
        );
        assert!(self.lender.around(OUT), "bytes around it are changed: {}", what());
        self.pieces += 1;
        out.truncate(came);
        (out, position)
    }

    /// The same, and what came is what a walk byte by byte gives.
    fn by_bytes(&mut self, numbers: [u32; 3], room: usize) -> usize {
        let given = self.next(numbers, room);
        assert!(
            given == readers::by_bytes(self.image, numbers, room),
            "by bytes other ones come: {numbers:?}, room {room}"
        );
        given.0.len()
    }

    /// The image is as it was. Gives how many pieces were asked for.
    fn done(self) -> usize {
        let kept = self.lender.bytes(calls::IMAGE) == self.image && self.lender.around(calls::IMAGE);
        assert!(kept, "a piece changed the image");
        self.pieces
    }
}

/// What the C layer says a file's reader begins with; the same as was drawn.
fn opened(disk: &DrawnDisk, file: &DrawnFile) -> [u32; 3] {
    let request = Request::new(Call::Open, &disk.image).with(NAME, &file.name);
    let answer = compare::ask(&request, &mut Margins::default()).answer;
    let numbers = [calls::slot(answer), calls::free(answer), calls::value(answer)];
    assert_eq!(numbers, [number(bit_place(file.chain[0])), 9, file.body.len()]);
    numbers.map(|number| number as u32)
}

/// Where byte `at` of a file's body stands, by the chain that was drawn.
fn position(file: &DrawnFile, at: usize) -> Position {
    let at = at + fields::HEADER;
    let sector = file.chain.get(at / PAYLOAD).map(|&bit| number(bit_place(bit)));
    sector.map_or(END, |sector| (sector, at % PAYLOAD))
}

/// Reads a file with rooms as they come, until all has come and three times more. Every piece is the part of the body that was
/// drawn, and fills its buffer where the body has so many.
fn read(lent: &mut Lent, disk: &DrawnDisk, file: &DrawnFile, mut room: impl FnMut(usize) -> usize) {
    let [mut sector, mut offset, mut left] = opened(disk, file);
    let (mut at, mut after) = (0, 0);
    while after < 3 {
        after += usize::from(at == file.body.len());
        let room = room(file.body.len() - at);
        let (bytes, stands) = lent.next([sector, offset, left], room);
        assert!(
            bytes == file.body[at..][..room.min(file.body.len() - at)],
            "another piece at {at}"
        );
        at += bytes.len();
        assert_eq!(stands, position(file, at), "after {at} bytes");
        (sector, offset) = (stands.0 as u32, stands.1 as u32);
        left -= bytes.len() as u32;
    }
}

/// Each file of a disk: by rooms of one length, by edges in turn, by drawn ones, and whole.
fn cut(disk: &DrawnDisk, random: &mut Random) -> usize {
    const SAME: [usize; 6] = [9, 509, 510, 511, 512, 4_096];
    let mut lent = Lent::new(&disk.image);
    for file in disk.files.iter().filter(|file| fields::is_readable(file.kind)) {
        let same = random.pick(&SAME);
        read(&mut lent, disk, file, |_| same);
        let (mut turn, edges) = (0, [0, 1, 9, 509, 510, 511, 512]);
        read(&mut lent, disk, file, |_| {
            turn += 1;
            edges[turn % edges.len()]
        });
        read(&mut lent, disk, file, |left| readers::room(left, random));
        read(&mut lent, disk, file, |_| LONGEST);
        if file.body.len() < 3_000 {
            read(&mut lent, disk, file, |_| 1);
        }
    }
    lent.done()
}

#[test]
fn however_the_asking_is_cut() {
    let (rounds, mut pieces) = (Rounds::new(8_000_000, 120), 0);
    for seed in rounds.seeds() {
        let _round = Round(seed);
        let random = &mut Random::new(seed);
        pieces += cut(&disks::draw(random), random);
    }
    println!("{pieces} pieces");
}

/// One file that has every sector, filled to its last byte and one byte less; also a byte at a time.
#[test]
fn the_longest_body() {
    let full = |seed: u64, length: usize| {
        let random = &mut Random::new(seed);
        let disk = disks::of_shape(&Shape::with(1, BITS, random), random);
        (disk.files[0].body.len() == length).then_some(disk)
    };
    for length in [LONGEST, LONGEST - 1] {
        let disk = (8_100_000..).find_map(|seed| full(seed, length)).expect("one is drawn");
        let mut pieces = cut(&disk, &mut Random::new(8_200_000));
        let mut lent = Lent::new(&disk.image);
        for room in [1, 509, 510, 511, 512] {
            read(&mut lent, &disk, &disk.files[0], |_| room);
        }
        pieces += lent.done();
        println!("{length} bytes: {pieces} pieces");
    }
}

/// A file whose body ends at the end of a sector that is not its last: the reader then stands in the sector behind.
#[test]
fn a_body_that_ends_before_its_sectors() {
    let fits = |file: &DrawnFile| fields::is_carried(file.kind) && !file.body.is_empty();
    let drawn = (8_300_000..).map(|seed| {
        let random = &mut Random::new(seed);
        disks::of_shape(&Shape::with(1, 5, random), random)
    });
    let mut disk = { drawn }.find(|disk| fits(&disk.files[0])).expect("one is drawn");
    let file = disk.files[0].clone();
    for length in [0, 1, 500, 501, 502, 1_010, 1_011, 1_012, fills(4), fills(5) - 1, fills(5)] {
        let remainder = fields::remainder(length, 0);
        let slot = disk.slot_mut(file.slot);
        slot[fields::PAGES] = 0;
        slot[fields::REMAINDER..fields::EXEC].copy_from_slice(&remainder);
        let first = disk.sector_mut(file.chain[0]);
        first[fields::HEADER_PAGES] = 0;
        first[fields::HEADER_REMAINDER..fields::HEADER_OFFSET].copy_from_slice(&remainder);
        let payload: Vec<u8> = file
            .chain
            .iter()
            .flat_map(|&bit| disk.image[bit_place(bit)..][..PAYLOAD].to_vec())
            .collect();
        disk.files[0].body = payload[fields::HEADER..][..length].to_vec();
        cut(&disk, &mut Random::new(length as u64));
    }
}

/// Any three numbers, no more left than a disk holds, on drawn disks and on damaged ones.
#[test]
fn rubbish_readers() {
    let (all, rounds) = (damage::all(), Rounds::new(8_400_000, 300));
    let (mut pieces, mut empty, mut short) = (0, 0, 0);
    for seed in rounds.seeds() {
        let _round = Round(seed);
        let random = &mut Random::new(seed);
        let image = match random.below(3) {
            0 => disks::draw(random).image,
            1 => damage::one(random.pick(&all), random).0.image,
            _ => random.bytes(IMAGE),
        };
        let mut lent = Lent::new(&image);
        for _ in 0..60 {
            let numbers = [readers::sector(random), readers::offset(random), readers::left(random)];
            let room = readers::room(numbers[2] as usize, random);
            let came = lent.by_bytes(numbers, room);
            empty += usize::from(came == 0);
            short += usize::from(came > 0 && came < room.min(numbers[2] as usize));
        }
        pieces += lent.done();
    }
    println!("{pieces} pieces of rubbish readers: {empty} empty, {short} cut short by a link");
    assert!(!rounds.enough() || empty > 1_000 && short > 100, "too few of a sort");
}

/// Links drawn at random over all sectors: rings, chains that meet, and ends.
#[test]
fn chains_of_any_links() {
    for seed in Rounds::new(8_500_000, 40).seeds() {
        let _round = Round(seed);
        let random = &mut Random::new(seed);
        let mut image = random.bytes(IMAGE);
        let few = random.between(1, 30);
        for sector in 0..SECTORS {
            let next = if random.one_in(few * 4) {
                [0, 0]
            } else {
                address(random.below(few))
            };
            image[sector * 512 + 510..][..2].copy_from_slice(&next);
        }
        let mut lent = Lent::new(&image);
        for _ in 0..20 {
            let sector = number(bit_place(random.below(few))) as u32;
            let numbers = [sector, random.below(PAYLOAD) as u32, readers::left(random)];
            lent.by_bytes(numbers, random.pick(&[0, 1, 510, 5_000, 30_000, LONGEST]));
        }
        lent.done();
    }
}

/// Every edge of each number beside each edge of the others.
#[test]
fn edges_of_the_three_numbers() {
    let disk = disks::of_shape(&Shape::with(3, 900, &mut Random::new(1)), &mut Random::new(2));
    let mut lent = Lent::new(&disk.image);
    let sectors = [
        0,
        1,
        39,
        40,
        79,
        80,
        1_598,
        1_599,
        1_600,
        1_601,
        1 << 16 | 80,
        1 << 31,
        u32::MAX,
    ];
    let offsets = [
        0,
        1,
        8,
        9,
        10,
        508,
        509,
        510,
        511,
        512,
        1 << 9 | 9,
        1 << 16 | 9,
        1 << 31 | 9,
        u32::MAX,
    ];
    for sector in sectors {
        for offset in offsets {
            for left in [0, 1, 2, 509, 510, 511, 1_021, 65_536, LONGEST as u32 - 1, LONGEST as u32] {
                for room in [0, 1, 2, 509, 510, 511, 1_021] {
                    let came = lent.by_bytes([sector, offset, left], room);
                    let there = sector < 1_600 && offset < 510;
                    let here = (left as usize).min(room).min(510 - (offset as usize).min(510));
                    assert!(
                        if there { came >= here } else { came == 0 },
                        "{sector} {offset} {left}, room {room}"
                    );
                }
            }
        }
    }
    println!("{} pieces", lent.done());
}

/// More left than a disk holds can be no reader's, wherever it stands: nothing comes.
#[test]
fn more_left_than_a_disk_holds() {
    let disk = disks::draw(&mut Random::new(3));
    let mut lent = Lent::new(&disk.image);
    for left in [
        795_592,
        795_593,
        795_600,
        819_200,
        819_201,
        1 << 20,
        0xff_ffff,
        1 << 24,
        1 << 24 | 9,
        1 << 31,
        u32::MAX,
    ] {
        for (sector, offset, room) in [
            (80, 9, 0),
            (80, 9, 1),
            (80, 9, 600),
            (1_599, 509, 1),
            (1_600, 0, 9),
            (0, 0, 9),
        ] {
            assert_eq!(lent.by_bytes([sector, offset, left], room), 0);
        }
    }
    lent.done();
}

/// An image of another length: nothing comes, whatever the numbers are.
#[test]
fn images_of_other_lengths() {
    let random = &mut Random::new(8_600_000);
    let disk = disks::draw(random);
    for length in WRONG_LENGTHS {
        let mut image = disk.image.clone();
        image.resize(length, 7);
        for _ in 0..40 {
            let numbers = [readers::sector(random), readers::offset(random), readers::left(random)];
            let out = random.bytes(600);
            let request = Request::new(Call::Next, &image).with(OUT, &out).numbers(numbers);
            let left = compare::ask(&request, &mut Margins::default());
            assert_eq!(left.answer, NOTHING_COMES, "{}", compare::describe(&request));
            assert!(left.out == out, "{}", compare::describe(&request));
        }
    }
}
