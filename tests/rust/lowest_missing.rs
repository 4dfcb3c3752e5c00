//! The search for the lowest missing fragment (02, 2026-03), through the call that asks the device for its next message.
//! Its answers are those of a search of every bit; and of 60,000 fragments, with only the last missing or the one in the
//! middle, it takes at most half of that search's time.

use pcp::{Code, Condition, Device, Facts, Gateway, Refusal, DEVICE_REPLY, GATEWAY_REPLY};
use plain::search::by_bits;
use std::process::ExitCode;
use std::time::Instant;

const SIZE: u16 = 32;

/// What is timed, and the most that the device may take of the time of a search of every bit.
const FRAGMENTS: u16 = 60_000;
const MOST: f64 = 0.5;

const ROUNDS: usize = 201;
const CALLS: usize = 20;

/// With each total up to this one every map with one bit clear is compared: some whole eights of map bytes, and every
/// remainder. With the highest totals, those with a bit clear in the last bytes.
const COMPARED: u16 = 200;
const HIGHEST: std::ops::RangeInclusive<u16> = 65_528..=65_535;

/// A device to which a package was announced, its gateway, and what their hosts lend.
struct Download {
    device: Device,
    gateway: Gateway,
    package: Vec<u8>,
    image: Vec<u8>,
    map: Vec<u8>,
    from_device: [u8; DEVICE_REPLY],
    from_gateway: [u8; GATEWAY_REPLY],
}

impl Download {
    fn new(fragments: u16) -> Download {
        let package = vec![0x5A; usize::from(SIZE) * usize::from(fragments)];
        let mut download = Download {
            device: Device::new(b"V1").expect("a version text"),
            gateway: Gateway::start(b"V2", SIZE, &package, false).expect("a package"),
            image: vec![0; package.len()],
            map: vec![0; map_length(fragments)],
            package,
            from_device: [0; DEVICE_REPLY],
            from_gateway: [0; GATEWAY_REPLY],
        };
        download.gateway_speaks(); // query
        download.gateway_speaks(); // announcement
        download
    }

    fn gateway_speaks(&mut self) {
        let message = self.gateway.next_message(&self.package, &mut self.from_gateway);
        let message = message.expect("the gateway can be asked").expect("it has something to send");
        let (image, map) = (&mut self.image, &mut self.map);
        let answer =
            self.device.receive(Facts::BOTH, Condition::Ready, message, image, map, &mut self.from_device);
        let reply = answer.expect("the device takes it").reply.expect("it replies");
        let answer = self.gateway.receive(Facts::BOTH, reply, &self.package, &mut self.from_gateway);
        answer.expect("the gateway takes the reply");
    }

    /// The device asks for its next fragment, and gets it.
    fn load_one(&mut self) {
        let request = self.device.next_message(&self.image, &self.map, &mut self.from_device);
        let request = request.expect("the device can be asked").expect("it asks for a fragment");
        let answer = self.gateway.receive(Facts::BOTH, request, &self.package, &mut self.from_gateway);
        let fragment = answer.expect("the gateway takes it").reply.expect("it serves the fragment");
        let (image, map) = (&mut self.image, &mut self.map);
        let answer =
            self.device.receive(Facts::BOTH, Condition::Ready, fragment, image, map, &mut self.from_device);
        answer.expect("the device stores it");
    }

    /// The index that the device asks for. With none missing, the map is not the record's, and that is refused.
    fn asked(&mut self) -> Option<u16> {
        match self.device.next_message(&self.image, &self.map, &mut self.from_device) {
            Ok(Some(message @ [.., high, low])) if Code::of(message) == Some(Code::Fragment) => {
                Some(u16::from_be_bytes([*high, *low]))
            }
            Err(Refusal::BadRecord) => None,
            other => panic!("a fragment is asked for, or the record refused: {other:?}"),
        }
    }
}

/// The bytes that the map of so many fragments has to have.
fn map_length(fragments: u16) -> usize {
    (usize::from(fragments) + 7) / 8
}

/// Sets the map's bits but one, or but it and all behind it.
fn clear_one(map: &mut [u8], clear: usize, all_behind: bool) {
    let is_set = |index: usize| index < clear || index > clear && !all_behind;
    for (at, byte) in map.iter_mut().enumerate() {
        *byte = (0..8).filter(|bit| is_set(8 * at + bit)).map(|bit| 1u8 << bit).sum();
    }
}

/// A device that is asked, and how many of its maps were compared.
struct Comparison {
    download: Download,
    total: u16,
    maps: usize,
}

impl Comparison {
    fn new(total: u16) -> Comparison {
        Comparison { download: Download::new(total), total, maps: 0 }
    }

    fn compare(&mut self) -> Result<(), String> {
        let (asked, expected) = (self.download.asked(), by_bits(&self.download.map, self.total));
        self.maps += 1;
        if asked == expected {
            return Ok(());
        }
        Err(format!("of {}, {asked:?} and not {expected:?} in {:02X?}", self.total, self.download.map))
    }

    /// Maps with a bit clear from this place on, bits past the total too, and with none; as long as they must be, and
    /// longer by a byte.
    fn with_one_clear(&mut self, from: usize) -> Result<(), String> {
        for bytes in [map_length(self.total), map_length(self.total) + 1] {
            self.download.map.resize(bytes, 0);
            for (clear, all_behind) in (from..=8 * bytes).flat_map(|clear| [(clear, false), (clear, true)]) {
                clear_one(&mut self.download.map, clear, all_behind);
                self.compare()?;
            }
        }
        Ok(())
    }

    /// Maps of which one byte has every value, behind full ones.
    fn with_every_byte(&mut self) -> Result<(), String> {
        for at in 0..self.download.map.len() {
            self.download.map.fill(0xFF);
            for value in 0..=u8::MAX {
                self.download.map[at] = value;
                self.compare()?;
            }
        }
        Ok(())
    }
}

/// How many maps were compared.
fn compare_answers() -> Result<usize, String> {
    let mut maps = 0;
    for total in 1..=COMPARED {
        let mut comparison = Comparison::new(total);
        comparison.with_one_clear(0)?;
        comparison.with_every_byte()?;
        maps += comparison.maps;
    }
    for total in HIGHEST {
        let mut comparison = Comparison::new(total);
        comparison.with_one_clear(65_500)?;
        maps += comparison.maps;
    }
    Ok(maps)
}

/// The device's time in a search of every bit's, with one fragment missing: the median of pairs of rounds. What else the
/// machine does meets both of a pair, or a few pairs only.
fn median_ratio(download: &mut Download, missing: u16) -> f64 {
    clear_one(&mut download.map, missing.into(), false);
    let map = download.map.clone();
    let mut ratios: Vec<f64> = (0..ROUNDS)
        .map(|_| {
            let device = seconds(|| assert_eq!(download.asked(), Some(missing)));
            device / seconds(|| assert_eq!(by_bits(&map, FRAGMENTS), Some(missing)))
        })
        .collect();
    ratios.sort_by(f64::total_cmp);
    ratios[ROUNDS / 2]
}

fn seconds(mut call: impl FnMut()) -> f64 {
    let start = Instant::now();
    for _ in 0..CALLS {
        call();
    }
    start.elapsed().as_secs_f64()
}

fn main() -> ExitCode {
    match compare_answers() {
        Ok(maps) => println!("lowest missing: {maps} maps, each answered as by a search of every bit"),
        Err(difference) => {
            println!("lowest missing: {difference}");
            return ExitCode::FAILURE;
        }
    }
    let mut download = Download::new(FRAGMENTS);
    for _ in 1..FRAGMENTS {
        download.load_one();
    }
    for missing in [FRAGMENTS / 2, FRAGMENTS - 1] {
        let ratio = median_ratio(&mut download, missing);
        println!(
            "lowest missing: with {missing} of {FRAGMENTS}, {ratio:.3} of a search of every bit; at most {MOST}"
        );
        if ratio > MOST {
            return ExitCode::FAILURE;
        }
    }
    ExitCode::SUCCESS
}
