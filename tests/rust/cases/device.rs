//! The device's driver.

use super::messages::{announces, fragment, message, sealed, text};
use super::{expect, CONFIG};
use crate::drivers::{self, Action, DeviceEnd, Language};
use pcp::driver::{device_state, Config, PackageDigest, DEVICE_STATE_FIXED, NEVER};
use pcp::DevicePhase::{self, *};
use pcp::{md5, Version, DEVICE_RECORD, DIGEST_LENGTH};

const OLD: &[u8] = b"V1.0";
const TARGET: &[u8] = b"V2.0";
/// 11 fragments.
const SIZE: u16 = 48;
const PACKAGE: &[u8] = &[0x5A; 500];
const FRAGMENTS: u16 = 11;
const IMAGE: usize = 2_000;

/// What a driver told, but for waits: W and the image's place, S and the phase saved, the code of what is sent, I.
#[derive(Clone, Copy, Debug, PartialEq, Eq)]
enum Done {
    Wrote(usize),
    Saved(DevicePhase),
    Sent(u8, Option<u8>),
    Installs,
}

use Done::*;

struct Host {
    language: Language,
    config: Config,
    end: Box<dyn DeviceEnd>,
    version: &'static [u8],
    image: Vec<u8>,
    slots: [Vec<u8>; 2],
    now: u64,
    wake: u64,
    done: Vec<Done>,
}

impl Host {
    fn new(language: Language, config: &Config) -> Host {
        let image = vec![0xFF; IMAGE];
        let state = device_state(IMAGE);
        let end =
            drivers::device(language, config, OLD, image.clone(), state, [&[], &[]], 1_000).expect("starts");
        let mut host = Host {
            language,
            config: config.clone(),
            end,
            version: OLD,
            image,
            slots: [Vec::new(), Vec::new()],
            now: 1_000,
            wake: 0,
            done: Vec::new(),
        };
        host.work();
        host
    }

    fn restart(&mut self) {
        self.now = 5;
        let state = device_state(IMAGE);
        let slots = [&self.slots[0][..], &self.slots[1][..]];
        let image = self.image.clone();
        self.end = drivers::device(self.language, &self.config, self.version, image, state, slots, self.now)
            .expect("starts");
        self.done.clear();
        self.work();
    }

    fn work(&mut self) {
        loop {
            match self.end.poll(self.now) {
                Action::Write { at, bytes } => {
                    self.image[at..at + bytes.len()].copy_from_slice(bytes);
                    self.done.push(Wrote(at));
                }
                Action::Save { slot, bytes } => {
                    self.slots[slot] = bytes.to_vec();
                    self.done.push(Saved(phase(bytes[20])));
                }
                Action::Send(bytes) => self.done.push(Sent(bytes[3], bytes.get(8).copied())),
                Action::Install(bytes) => {
                    assert_eq!(bytes, PACKAGE);
                    self.done.push(Installs);
                }
                Action::Wait(until) => {
                    self.wake = until;
                    break;
                }
                Action::End(_) => panic!("a device has no end"),
            }
        }
    }

    fn give(&mut self, message: &[u8]) -> u8 {
        let number = self.end.receive(self.now, 0, message);
        self.work();
        number
    }

    /// What was done since the last look.
    fn done(&mut self) -> Vec<Done> {
        std::mem::take(&mut self.done)
    }

    fn wait(&mut self, time: u64) {
        let until = self.now + time;
        while self.wake <= until {
            self.now = self.wake;
            self.work();
        }
        self.now = until;
        self.work();
    }

    fn phase(&self) -> DevicePhase {
        phase(self.end.record()[0])
    }

    fn announce(&mut self) -> u8 {
        self.give(&announces(TARGET, SIZE, PACKAGE, pcp::check_of_bytes(PACKAGE)))
    }

    /// Brings a device that holds nothing to a phase.
    fn come_to(&mut self, phase: DevicePhase) {
        self.announce();
        if phase != Loading {
            for index in 0..FRAGMENTS {
                assert_eq!(self.give(&fragment(PACKAGE, SIZE, index)), 0);
            }
        }
        if phase != Loading && phase != Loaded {
            self.give(&message(22, &[0x00]));
        }
        if phase == Installing || phase == Reporting {
            self.give(&message(23, &[]));
        }
        if phase == Reporting {
            self.end.installed(0x00);
            self.version = TARGET;
            self.work();
        }
        assert_eq!(self.phase(), phase);
        self.done.clear();
    }
}

/// A config with a digest that belongs to this version.
fn knows(version: &[u8], digest: [u8; DIGEST_LENGTH]) -> Config {
    let version = Version::new(version).expect("a version text");
    Config { digest: Some(PackageDigest { version, digest }), ..CONFIG }
}

/// The digest that a record holds, if one is set.
fn held(record: &[u8]) -> Option<Vec<u8>> {
    Some(record[45..61].to_vec()).filter(|_| record[44] == 1)
}

fn phase(byte: u8) -> DevicePhase {
    DevicePhase::try_from(byte).expect("a phase")
}

/// A new device is saved before all else, and has nothing to do.
pub fn new(language: Language) -> Result<(), String> {
    let mut host = Host::new(language, &CONFIG);
    expect("saved", (host.done(), host.wake), (vec![Saved(Idle)], NEVER))?;
    expect("answers", (host.give(&message(19, &[])), host.done()), (0, vec![Sent(19, Some(0x00))]))?;
    expect("no use", host.give(&message(22, &[0x00])), 9)?;
    expect("no message", host.give(b"other traffic"), 3)?;
    let short = drivers::device(language, &CONFIG, OLD, Vec::new(), DEVICE_STATE_FIXED - 1, [&[], &[]], 0);
    expect("a short state", short.err(), Some(64))?;
    let text = drivers::device(language, &CONFIG, b"V 1", Vec::new(), DEVICE_STATE_FIXED, [&[], &[]], 0);
    expect("a bad text", text.err(), Some(17))?;
    // Without image and map it refuses, and goes on.
    let mut host = Host::new(language, &CONFIG);
    host.end = drivers::device(language, &CONFIG, OLD, Vec::new(), DEVICE_STATE_FIXED, [&[], &[]], 0)
        .map_err(|number| number.to_string())?;
    host.work();
    host.done();
    expect("no room", (host.announce(), host.done()), (0, vec![Sent(20, Some(0x05))]))
}

/// At once after a change, otherwise by the timer: after an announcement that is a resume too.
pub fn asking(language: Language) -> Result<(), String> {
    let mut host = Host::new(language, &CONFIG);
    host.done();
    let asks = Sent(21, Some(b'V'));
    host.announce();
    expect("asks at once", host.done(), vec![Saved(Loading), Sent(20, Some(0x00)), asks])?;
    host.wait(35);
    expect("asks again", host.done(), vec![asks; 3])?;
    host.announce();
    expect("a resume", host.done(), vec![Sent(20, Some(0x00))])?;
    host.wait(5);
    expect("by the timer", host.done(), vec![asks])?;
    host.give(&fragment(PACKAGE, SIZE, 0));
    expect("the next", host.done(), vec![Wrote(0), Saved(Loading), asks])?;
    expect("a repeat", (host.give(&fragment(PACKAGE, SIZE, 0)), host.done()), (12, vec![]))?;
    for index in 1..FRAGMENTS {
        host.give(&fragment(PACKAGE, SIZE, index));
    }
    host.done();
    host.wait(10);
    expect("has all", (host.phase(), host.done()), (Loaded, vec![Sent(22, Some(0x00))]))?;
    host.give(&message(22, &[0x00]));
    expect("Acked", (host.done(), host.wake), (vec![Saved(Acked)], NEVER))?;
    host.give(&message(23, &[]));
    expect("installs", host.done(), vec![Saved(Installing), Sent(23, Some(0x00)), Installs])?;
    expect("and waits", host.wake, NEVER)?;
    host.end.installed(0x0A);
    host.work();
    expect("reports", host.done(), vec![Saved(Reporting), Sent(24, Some(0x0A))])?;
    host.wait(20);
    expect("reports again", host.done(), vec![Sent(24, Some(0x0A)); 2])?;
    host.give(&message(24, &[0x80]));
    expect("rests", (host.done(), host.wake), (vec![Saved(Idle)], NEVER))?;
    // A new record, as duty 16 asks where image and map were not kept.
    let mut record = [0; DEVICE_RECORD];
    record[1..17].copy_from_slice(&text(OLD));
    record[17..33].copy_from_slice(&text(OLD));
    expect("a new record", host.end.record(), record.to_vec())
}

/// After the answer to a query it asks nothing, until an announcement or the order to install comes, or three waits are
/// over. Further queries do not lengthen that.
pub fn silence(language: Language) -> Result<(), String> {
    let mut host = Host::new(language, &CONFIG);
    host.come_to(Loading);
    let asks = Sent(21, Some(b'V'));
    host.give(&message(19, &[]));
    host.done();
    host.wait(60);
    host.give(&message(19, &[]));
    host.give(&fragment(PACKAGE, SIZE, 0));
    expect("silent", host.done(), vec![Sent(19, Some(0x00)), Wrote(0), Saved(Loading)])?;
    host.wait(29);
    expect("still silent", host.done(), vec![])?;
    host.wait(1);
    expect("asks", host.done(), vec![asks])?;
    host.give(&message(19, &[]));
    host.wait(25);
    host.announce();
    expect("an announcement", host.done(), vec![Sent(19, Some(0x00)), Sent(20, Some(0x00))])?;
    host.wait(10);
    expect("ends the silence", host.done(), vec![asks])
}

/// Image bytes, then the state, then what is sent, then the installer; and nothing that arrives comes between.
pub fn order(language: Language) -> Result<(), String> {
    let mut host = Host::new(language, &CONFIG);
    host.come_to(Acked);
    let now = host.now;
    expect("taken", host.end.receive(now, 0, &message(23, &[])), 0)?;
    for expected in ["Save", "Send", "Install", "Wait"] {
        let number = host.end.receive(now, 0, &message(19, &[]));
        expect(expected, (number, host.end.record()[0]), (if expected == "Save" { 9 } else { number }, 5))?;
        let told = format!("{:?}", host.end.poll(now));
        expect("in order", told.split(&[' ', '('][..]).next(), Some(expected))?;
    }
    // Once begun, it is not begun again, and only its end counts.
    host.done();
    host.give(&message(23, &[]));
    expect("ordered again", host.done(), vec![Sent(23, Some(0x00))])?;
    // The installer's end is not lost where an action is due.
    let number = host.end.receive(now, 0, &message(23, &[]));
    host.end.installed(0x00);
    host.work();
    expect(
        "ends meanwhile",
        (number, host.done()),
        (0, vec![Sent(23, Some(0x00)), Saved(Reporting), Sent(24, Some(0x00))]),
    )?;
    host.end.installed(0x0A);
    host.work();
    expect("no installer at work", (host.phase(), host.done()), (Reporting, vec![]))?;
    expect("runs", host.end.record()[1..17].to_vec(), text(TARGET).to_vec())
}

/// In Loading after 1, 2, 4 fragments and so on, up to save_every; always after an announcement and the last fragment.
pub fn saves(language: Language) -> Result<(), String> {
    let config = Config { save_every: 3, ..CONFIG };
    let mut host = Host::new(language, &config);
    host.come_to(Loading);
    let mut saved = Vec::new();
    for index in 0..FRAGMENTS {
        host.give(&fragment(PACKAGE, SIZE, index));
        if host.done().iter().any(|done| matches!(done, Saved(_))) {
            saved.push(index + 1);
        }
    }
    expect("saved", saved, vec![1, 4, 7, 10, 11])?;
    let mut host = Host::new(language, &CONFIG);
    host.come_to(Loading);
    for index in 0..6 {
        host.give(&fragment(PACKAGE, SIZE, index));
    }
    host.restart();
    expect("those since the save are gone", host.end.record()[40], 3)?;
    expect("waits before it asks", (host.done(), host.wake), (vec![], 5 + 10))?;
    host.give(&fragment(PACKAGE, SIZE, 3));
    expect("saves after one", host.done(), vec![Wrote(144), Saved(Loading), Sent(21, Some(b'V'))])
}

/// Given with each announcement that begins a download of its version, before that is saved and answered. The image is
/// tested by it: right, wrong, and sixteen bytes 00.
pub fn digest(language: Language) -> Result<(), String> {
    let right = md5::digest(PACKAGE);
    let mut wrong = right;
    wrong[15] ^= 1;
    let begins = vec![Saved(Loading), Sent(20, Some(0x00)), Sent(21, Some(b'V'))];
    for (digest, tested) in [(right, Loaded), (wrong, Failed), ([0; DIGEST_LENGTH], Failed)] {
        let mut host = Host::new(language, &knows(TARGET, digest));
        let held_by_save =
            |host: &Host| host.slots.iter().any(|save| held(&save[20..]).as_deref() == Some(&digest[..]));
        host.done();
        // An announcement that is refused begins nothing.
        let announcement = announces(TARGET, SIZE, PACKAGE, pcp::check_of_bytes(PACKAGE));
        host.end.receive(host.now, 1, &announcement);
        host.work();
        expect("refused", (host.done(), held(&host.end.record())), (vec![Sent(20, Some(0x01))], None))?;
        for _ in 0..2 {
            host.announce();
            expect("begins", host.done(), begins.clone())?;
            expect(
                "held, and saved",
                (held(&host.end.record()), held_by_save(&host)),
                (Some(digest.to_vec()), true),
            )?;
            host.announce();
            expect("a resume", host.done(), vec![Sent(20, Some(0x00))])?;
            for index in 0..FRAGMENTS {
                expect("stored", host.give(&fragment(PACKAGE, SIZE, index)), 0)?;
            }
            expect("tested", (host.phase(), held(&host.end.record())), (tested, Some(digest.to_vec())))?;
            let told = Sent(22, Some(if tested == Loaded { 0x00 } else { 0x07 }));
            expect("told", host.done().last(), Some(&told))?;
            host.give(&message(22, &[0x80]));
            expect("given up", (host.phase(), held(&host.end.record())), (Idle, None))?;
            host.done();
        }
    }
    // A download of another version is not given it.
    let mut host = Host::new(language, &knows(b"V2", wrong));
    host.done();
    host.announce();
    expect("another version", (host.done(), held(&host.end.record())), (begins, None))?;
    let mut host = Host::new(language, &knows(b"V2", wrong));
    host.come_to(Loaded);
    Ok(())
}

/// A host that knows it after a restart: it is given in Loading, if another or none is set, and saved; from Loaded on it
/// is too late.
pub fn later_digest(language: Language) -> Result<(), String> {
    let right = md5::digest(PACKAGE);
    for (digest, tested) in [(right, Loaded), ([0x5A; DIGEST_LENGTH], Failed)] {
        let mut host = Host::new(language, &CONFIG);
        host.come_to(Loading);
        host.give(&fragment(PACKAGE, SIZE, 0));
        host.config = knows(b"V3.0", digest);
        host.restart();
        expect("of another version", (host.done(), held(&host.end.record())), (vec![], None))?;
        host.config = knows(TARGET, digest);
        host.restart();
        expect("saved", (host.done(), host.wake), (vec![Saved(Loading)], 5 + 10))?;
        expect("given", held(&host.end.record()), Some(digest.to_vec()))?;
        expect("nothing else changed", host.end.record()[40], 1)?;
        host.restart();
        expect("once", (host.done(), held(&host.end.record())), (vec![], Some(digest.to_vec())))?;
        let other = [0xA5; DIGEST_LENGTH];
        for digest in [other, digest] {
            host.config = knows(TARGET, digest);
            host.restart();
            let expected = (vec![Saved(Loading)], Some(digest.to_vec()));
            expect("replaced", (host.done(), held(&host.end.record())), expected)?;
        }
        // One that is set stays where the host knows none.
        host.config = CONFIG;
        host.restart();
        expect("stays", (host.done(), held(&host.end.record())), (vec![], Some(digest.to_vec())))?;
        for index in 1..FRAGMENTS {
            host.give(&fragment(PACKAGE, SIZE, index));
        }
        expect("tested", host.phase(), tested)?;
    }
    for phase in [Loaded, Acked, Reporting] {
        let mut host = Host::new(language, &CONFIG);
        host.come_to(phase);
        host.config = knows(TARGET, right);
        host.restart();
        expect("too late", (host.done(), host.phase(), held(&host.end.record())), (vec![], phase, None))?;
    }
    Ok(())
}

/// Without a code each announcement begins the download anew, and clears the digest: it is given again. One that comes
/// again before a fragment leaves all as it was, and is answered by itself.
pub fn digest_without_code(language: Language) -> Result<(), String> {
    let right = md5::digest(PACKAGE);
    let mut host = Host::new(language, &knows(TARGET, right));
    host.done();
    let begins = vec![Saved(Loading), Sent(20, Some(0x00)), Sent(21, Some(b'V'))];
    let announcement = announces(TARGET, SIZE, PACKAGE, 0);
    host.give(&announcement);
    expect("begins", (host.done(), held(&host.end.record())), (begins.clone(), Some(right.to_vec())))?;
    host.give(&announcement);
    let answered = (vec![Sent(20, Some(0x00))], Some(right.to_vec()));
    expect("again", (host.done(), held(&host.end.record())), answered)?;
    host.give(&fragment(PACKAGE, SIZE, 0));
    host.done();
    host.give(&announcement);
    expect("anew", (host.done(), held(&host.end.record())), (begins, Some(right.to_vec())))?;
    expect("from nothing", host.end.record()[40], 0)?;
    let mut other = PACKAGE.to_vec();
    other[499] ^= 1;
    for index in 0..FRAGMENTS {
        host.give(&fragment(&other, SIZE, index));
    }
    expect("tested by the digest alone", host.phase(), Failed)
}

/// The number 23 is saved, told the gateway until it is answered, and kept for a log.
pub fn repeat(language: Language) -> Result<(), String> {
    let mut host = Host::new(language, &CONFIG);
    host.come_to(Loading);
    host.give(&fragment(PACKAGE, SIZE, 0));
    host.done();
    let number = host.give(&fragment(&[0x5B; 500], SIZE, 0));
    expect("differs", (number, host.done()), (23, vec![Saved(Failed), Sent(22, Some(0x07))]))?;
    expect("for a log", host.end.look(), vec![23])?;
    host.restart();
    expect("kept", host.phase(), Failed)?;
    host.wait(10);
    host.give(&message(22, &[0x80]));
    expect("answered", host.done(), vec![Sent(22, Some(0x07)), Saved(Idle)])
}

/// By what runs, how often it was begun, and whether the image is whole.
pub fn installing(language: Language) -> Result<(), String> {
    let mut host = Host::new(language, &CONFIG);
    host.come_to(Installing);
    for _ in 1..CONFIG.install_limit {
        host.restart();
        expect("begins again", (host.done(), host.phase()), (vec![Saved(Installing), Installs], Installing))?;
    }
    host.restart();
    expect("often enough", host.done(), vec![Saved(Reporting), Sent(24, Some(0x0A))])?;

    let mut host = Host::new(language, &CONFIG);
    host.come_to(Installing);
    host.version = TARGET;
    host.restart();
    expect("runs", host.done(), vec![Saved(Reporting), Sent(24, Some(0x00))])?;
    host.restart();
    expect("goes on reporting", (host.phase(), host.wake), (Reporting, 5 + 10))?;
    host.give(&message(24, &[0x00]));
    expect("runs", host.end.record()[1..17].to_vec(), text(TARGET).to_vec())?;

    let mut host = Host::new(language, &CONFIG);
    host.come_to(Installing);
    host.image[77] ^= 1;
    host.restart();
    expect("a damaged image", host.done(), vec![Saved(Reporting), Sent(24, Some(0x0A))])?;

    let mut host = Host::new(language, &CONFIG);
    host.come_to(Installing);
    host.version = b"V3.0";
    host.restart();
    expect("what else runs", host.done(), vec![Saved(Installing), Installs])?;
    host.end.installed(0x05);
    host.work();
    host.give(&message(24, &[0x00]));
    expect("is known in the end", host.end.record()[1..17].to_vec(), text(b"V3.0").to_vec())
}

/// In every other phase: goes on, if what runs is what the record says.
pub fn restarts(language: Language) -> Result<(), String> {
    for phase in [Loading, Loaded, Acked, Reporting] {
        let mut host = Host::new(language, &CONFIG);
        host.come_to(phase);
        let record = host.end.record();
        host.restart();
        expect("goes on", (host.end.record(), host.done()), (record, vec![]))?;
        host.version = b"V3.0";
        host.restart();
        expect(
            "another runs",
            (host.done(), host.end.record()[1..17].to_vec()),
            (vec![Saved(Idle)], text(b"V3.0").to_vec()),
        )?;
    }
    // An image or a state that is shorter than before.
    for (image, state) in [(500, device_state(IMAGE)), (IMAGE, DEVICE_STATE_FIXED + 1)] {
        let mut host = Host::new(language, &CONFIG);
        host.come_to(Loading);
        let slots = [&host.slots[0][..], &host.slots[1][..]];
        let image = vec![0; image];
        host.end =
            drivers::device(language, &CONFIG, OLD, image, state, slots, 0).map_err(|n| n.to_string())?;
        expect("a new record", host.phase(), Idle)?;
    }
    // An image that is another one than was completed: of a save in Loaded or Acked nothing is taken up, and an installation
    // that a restart cut off has failed.
    for (acked, executed, expected) in [(false, false, Idle), (true, false, Idle), (true, true, Reporting)] {
        let mut host = Host::new(language, &CONFIG);
        host.come_to(Loaded);
        if acked {
            host.give(&message(22, &[0x00]));
        }
        if executed {
            host.give(&message(23, &[]));
        }
        let before = host.phase();
        host.restart();
        let again = if executed { Installing } else { before };
        expect("the image stands", host.phase(), again)?;
        host.image[PACKAGE.len() - 1] ^= 1;
        host.restart();
        expect("another image", host.phase(), expected)?;
    }
    Ok(())
}

/// Of two whole saves the one with the higher counter; never an older one where that is not usable.
pub fn newest(language: Language) -> Result<(), String> {
    let mut host = Host::new(language, &CONFIG);
    host.come_to(Loaded);
    host.give(&message(22, &[0x00]));
    let newer = usize::from(host.slots[0][20] != Acked as u8);
    expect("two saves", (phase(host.slots[newer][20]), phase(host.slots[1 - newer][20])), (Acked, Loaded))?;
    let saves = host.slots.clone();
    let mut started = |slots: [Vec<u8>; 2]| {
        host.slots = slots;
        host.restart();
        host.phase()
    };
    expect("the newer", started(saves.clone()), Acked)?;
    expect("exchanged", started([saves[1].clone(), saves[0].clone()]), Acked)?;
    let with = |change: &dyn Fn(&mut Vec<u8>)| {
        let mut saves = saves.clone();
        change(&mut saves[newer]);
        saves
    };
    for bit in 0..8 * saves[newer].len() {
        expect("damaged", started(with(&|save| save[bit / 8] ^= 1 << (bit % 8))), Loaded)?;
    }
    for length in 0..saves[newer].len() {
        expect("cut", started(with(&|save| save.truncate(length))), Loaded)?;
    }
    let whole = |at: usize, byte: u8| {
        with(&move |save: &mut Vec<u8>| {
            save[at] = byte;
            sealed(save);
        })
    };
    expect("no record, but whole", started(whole(20, 7)), Idle)?;
    for layout in [0, 2] {
        expect("another layout, but whole", started(whole(1, layout)), Idle)?;
    }
    expect("another length", started(whole(35, 1)), Idle)?;
    // A counter may pass its end.
    let counted = |mut save: Vec<u8>, counter: u32| {
        save[8..12].copy_from_slice(&counter.to_be_bytes());
        sealed(&mut save);
        save
    };
    let (acked, loaded) = (saves[newer].clone(), saves[1 - newer].clone());
    for (one, other) in [(0, u32::MAX), (5, u32::MAX - 5), (1 << 31, (1 << 31) - 1)] {
        let slots = [counted(loaded.clone(), other), counted(acked.clone(), one)];
        expect("past the end", started(slots.clone()), Acked)?;
        expect("past the end", started([slots[1].clone(), slots[0].clone()]), Acked)?;
    }
    // The next save replaces the older one.
    host.slots = saves;
    host.restart();
    host.give(&message(23, &[]));
    let after = |slot: usize| phase(host.slots[slot][20]);
    expect("the next", (after(newer), after(1 - newer)), (Acked, Installing))
}

/// Time that goes back counts as standing.
pub fn clock(language: Language) -> Result<(), String> {
    let mut host = Host::new(language, &CONFIG);
    host.come_to(Loading);
    host.now = 0;
    host.work();
    expect("waits", (host.done(), host.wake), (vec![], 1_010))?;
    host.now = u64::MAX;
    host.work();
    expect("asks once at the end of time", (host.done(), host.wake), (vec![Sent(21, Some(b'V'))], NEVER))
}
