//! Compares the library, called from Rust, with a model that is written here from 01 and shares no
//! code with it, on printed, faulty, damaged and random messages. The inputs are the same in every
//! run.

use pcp::raw as library;
use std::fmt::UpperHex;
use std::process::ExitCode;

/// 01, "The message and its check" and "Recognising a message", with 02's 2026-01.
struct Model {
    table: [u16; 256],
}

impl Model {
    fn new() -> Model {
        let double = |entry: u32| match entry << 1 {
            kept if kept < 0x1_0000 => kept,
            carried => (carried & 0xFFFF) ^ 0x1021,
        };
        Model {
            table: std::array::from_fn(|i| (0..8).fold((i as u32) << 8, |e, _| double(e)) as u16),
        }
    }

    fn check(&self, bytes: impl Iterator<Item = u8>) -> u16 {
        bytes.fold(0, |register, byte| {
            let [high, low] = u16::to_be_bytes(register);
            u16::from(high) ^ self.table[usize::from(low ^ byte)]
        })
    }

    fn message_check(&self, message: &[u8]) -> u16 {
        let field_as_zero = |(i, &byte)| if (4..6).contains(&i) { 0 } else { byte };
        self.check(message.iter().enumerate().map(field_as_zero))
    }

    fn recognise(&self, supported: u8, pcp: u8, message: &[u8]) -> u8 {
        let word =
            |at: usize| message.get(at..at + 2).map(|w| usize::from(w[0]) << 8 | usize::from(w[1]));
        let check_fits =
            || word(6).is_some() && word(4) == Some(self.message_check(message).into());
        let tests: [&dyn Fn() -> bool; 7] = [
            &|| supported != 0,
            &|| pcp != 0,
            &|| message.starts_with(&[0xFF, 0xFE]),
            &|| message.get(2).map(|byte| byte % 16) == Some(1),
            &|| matches!(message.get(3), Some(19..=24)),
            &check_fits,
            &|| word(6).map(|data| data + 8) == Some(message.len()),
        ];
        tests.iter().position(|passes| !passes()).map_or(0, |i| i as u8 + 1)
    }

    /// Writes the check, as far as there is room for it.
    fn seal(&self, message: &mut [u8]) {
        let check = self.message_check(message).to_be_bytes();
        message.iter_mut().skip(4).zip(check).for_each(|(field, byte)| *field = byte);
    }

    fn message(&self, code: u8, data: &[u8]) -> Vec<u8> {
        let length = data.len() as u16; // a longer message keeps the low 16 bits
        let mut message = [&[0xFF, 0xFE, 1, code, 0, 0], &length.to_be_bytes()[..], data].concat();
        self.seal(&mut message);
        message
    }
}

/// splitmix64
struct Random(u64);

impl Random {
    fn next(&mut self) -> u64 {
        self.0 = self.0.wrapping_add(0x9E37_79B9_7F4A_7C15);
        let x = (self.0 ^ self.0 >> 30).wrapping_mul(0xBF58_476D_1CE4_E5B9);
        let x = (x ^ x >> 27).wrapping_mul(0x94D0_49BB_1331_11EB);
        x ^ x >> 31
    }

    fn below(&mut self, bound: usize) -> usize {
        (self.next() % bound as u64) as usize
    }

    fn byte(&mut self) -> u8 {
        self.next() as u8
    }

    fn not_zero(&mut self) -> u8 {
        1 + self.below(255) as u8
    }

    fn code(&mut self) -> u8 {
        19 + self.below(6) as u8
    }

    fn bytes(&mut self, length: usize) -> Vec<u8> {
        (0..length).map(|_| self.byte()).collect()
    }
}

struct Run {
    model: Model,
    random: Random,
    compared: u64,
    different: u64,
}

impl Run {
    fn same<T: PartialEq + UpperHex>(&mut self, what: &str, got: T, expected: T, input: &[u8]) {
        if got == expected {
            return;
        }
        self.different += 1;
        if self.different <= 5 {
            let hex: String = input.iter().take(64).map(|byte| format!("{byte:02X}")).collect();
            let more = if input.len() > 64 { ".." } else { "" };
            println!("{what}: {got:X}, not {expected:X}, of {} bytes {hex}{more}", input.len());
        }
    }

    /// Returns the model's number.
    fn compare(&mut self, supported: u8, pcp: u8, input: &[u8]) -> u8 {
        let check = self.model.check(input.iter().copied());
        let message_check = self.model.message_check(input);
        let number = self.model.recognise(supported, pcp, input);
        self.same("check", library::check(input), check, input);
        self.same("message check", library::message_check(input), message_check, input);
        self.same("recognition", library::recognise([supported, pcp], input), number, input);
        self.compared += 1;
        number
    }

    /// The same of an input whose number is known without the model.
    fn must(&mut self, supported: u8, pcp: u8, input: &[u8], number: u8) {
        let model = self.compare(supported, pcp, input);
        self.same("the model's recognition", model, number, input);
    }

    /// Values that 01 and the sources print.
    fn printed(&mut self) {
        for (input, check) in [
            ("", 0),
            ("FFFE011300000000", 0x4C9A),
            ("1755", 0xA189), // the register at A189, from where 00 brings it to 0000
            ("175500", 0),
        ] {
            let bytes = from_hex(input);
            self.same("printed check", library::check(&bytes), check, &bytes);
            self.compare(1, 1, &bytes);
        }
        // Every whole message of sources 000, 001 and 003, but the one that 000 misprints.
        for message in "
            FFFE01134C9A0000
            FFFE01137AB300110056312E30000000000000000000000000
            FFFE01138DE300110056302E39000000000000000000000000
            FFFE011402F7001656312E3000000000000000000000000001F400011234
            FFFE01141019001656312E300000000000000000000000000100013D6534
            FFFE0114D768000100
            FFFE01155618001256312E300000000000000000000000000000
            FFFE0115E107001300000048454C4C4F2C20496F5420534F544121
            FFFE0116850E000100
            FFFE0117B725000100
            FFFE0117CF900000
            FFFE0118AFA1000100
            FFFE0118C7D200110056312E30000000000000000000000000"
            .split_whitespace()
        {
            self.must(1, 1, &from_hex(message), 0);
        }
        let misprint = from_hex("FFFE011402F7001656312E3000000000000000000000000001F400010000");
        self.same("misprint", library::message_check(&misprint), 0x3AE6, &misprint);
        self.must(1, 1, &misprint, 6);
    }

    /// All inputs of one and of two bytes: every table entry, and every step from an entry.
    fn all_short(&mut self) {
        for first in 0..=255 {
            self.compare(1, 1, &[first]);
            for second in 0..=255 {
                let start = [first, second] == [0xFF, 0xFE];
                self.must(1, 1, &[first, second], if start { 4 } else { 3 });
            }
        }
    }

    /// Every input of up to 100 bytes in which one bit is set: the check of any other is a sum of theirs. Short inputs and
    /// long ones go different ways.
    fn all_single_bits(&mut self) {
        for length in 0..=100 {
            for bit in 0..8 * length {
                let mut input = vec![0; length];
                input[bit / 8] = 1 << (bit % 8);
                self.compare(1, 1, &input);
            }
        }
    }

    /// 02, 2026-11: what the check does not see at a distance of thirteen bytes or a multiple of it, while a byte follows.
    fn unseen(&mut self) {
        for _ in 0..3_000 {
            let length = 21 + self.random.below(600);
            let bytes = self.random.bytes(length);
            let first = 6 + self.random.below(length - 20); // behind the check field, so that a message may be meant
            let second = first + 13 * (1 + self.random.below((length - 2 - first) / 13));
            let mut exchanged = bytes.clone();
            exchanged.swap(first, second);
            let mut xored = bytes.clone();
            let value = self.random.not_zero();
            xored[first] ^= value;
            xored[second] ^= value;
            let fill = [0x00, 0xFF][self.random.below(2)];
            let longer = [&bytes[..first], &[fill; 13], &bytes[first..]].concat();
            let [check, message_check] = [library::check(&bytes), library::message_check(&bytes)];
            for changed in [exchanged, xored, longer] {
                self.compare(1, 1, &changed);
                self.same("check of what is unseen", library::check(&changed), check, &changed);
                let changed_check = library::message_check(&changed);
                self.same("message check of what is unseen", changed_check, message_check, &changed);
            }
        }
    }

    /// Nor two fragments of an image that change places, but for the last: of any size thirteen indexes apart, of a size that
    /// is a multiple of thirteen any two.
    fn unseen_fragments(&mut self) {
        for (size, apart) in [(32, 13), (500, 13), (1_024, 26), (39, 1), (507, 4)] {
            let image = self.random.bytes(40 * size + 1);
            for index in 0..40 - apart {
                let mut exchanged = image.clone();
                let (before, behind) = exchanged.split_at_mut((index + apart) * size);
                before[index * size..][..size].swap_with_slice(&mut behind[..size]);
                self.compare(1, 1, &exchanged);
                self.same("check of fragments exchanged", library::check(&exchanged), library::check(&image), &image);
            }
        }
    }

    /// Every version byte, in a message and before further faults: the lower four bits must be 1, the others may be any.
    fn all_version_bytes(&mut self) {
        for code in 19..=24 {
            let mut message = self.model.message(code, &[0x5A; 20]);
            for version in 0..=255 {
                let [whole, bad_check, bad_code] = if version % 16 == 1 { [0, 6, 5] } else { [4; 3] };
                message[2] = version;
                self.model.seal(&mut message);
                self.must(1, 1, &message, whole);
                message[5] ^= 1;
                self.must(1, 1, &message, bad_check);
                message[3] = 25;
                self.must(1, 1, &message, bad_code);
                message[3] = code;
            }
        }
    }

    /// Every set of the seven faults: the first in 01's order gives the number.
    fn all_faults(&mut self) {
        for set in 0..1 << 7 {
            let has = |number: u8| set >> (number - 1) & 1 == 1;
            for _ in 0..100 {
                let length = self.random.below(40);
                let (code, data) = (self.random.code(), self.random.bytes(length));
                let mut message = self.model.message(code, &data);
                let which = self.random.below(2); // of the two bytes of a field
                let wrong = self.random.not_zero();
                message[2] ^= self.random.byte() & 0xF0; // reserved bits are no fault
                if has(3) {
                    message[which] ^= wrong;
                }
                if has(4) {
                    message[2] ^= 1 + wrong % 15;
                }
                if has(5) {
                    message[3] = 25u8.wrapping_add(wrong % 250); // 25 to 255, 0 to 18
                }
                if has(7) {
                    message[6 + which] ^= wrong;
                }
                self.model.seal(&mut message);
                if has(6) {
                    message[4 + which] ^= wrong;
                }
                let mut fact = |number| if has(number) { 0 } else { self.random.not_zero() };
                let (supported, pcp) = (fact(1), fact(2));
                let first = (1..=7).find(|&number| has(number));
                self.must(supported, pcp, &message, first.unwrap_or(0));
            }
        }
    }

    /// A message that ends in a field fails there, be its check right or not.
    fn cut_short(&mut self) {
        for code in 19..=24 {
            let data = self.random.bytes(1_024);
            let whole = self.model.message(code, &data);
            for length in 0..whole.len() {
                let mut message = whole[..length].to_vec();
                self.compare(1, 1, &message);
                self.model.seal(&mut message);
                let number = [3, 3, 4, 5, 6, 6, 6, 6].get(length).copied().unwrap_or(7);
                self.must(1, 1, &message, number);
            }
        }
    }

    fn damage(&mut self, message: &mut Vec<u8>) {
        let random = &mut self.random;
        let at = random.below(message.len());
        let next = (at + 1) % message.len();
        match random.below(8) {
            0 => message[at] ^= 1 << random.below(8),
            1 => message[at] = random.byte(),
            2 => message.swap(at, next),
            3 => message.insert(at, random.byte()),
            4 if message.len() > 1 => drop(message.remove(at)),
            5 => message.truncate(at + 1),
            6 => message.extend(random.bytes(at % 9)),
            _ => {
                message[at] ^= 0x0A; // no check sees these two
                message[next] ^= 0xC3;
            }
        }
    }

    fn damaged(&mut self) {
        for turn in 0..20_000 {
            let length = [0, 1, 17, 18, 19, 22, 1_027, 1_100][self.random.below(8)];
            let (code, data) = (self.random.code(), self.random.bytes(length));
            let mut message = self.model.message(code, &data);
            self.must(1, 255, &message, 0);
            for _ in 0..=turn % 3 {
                self.damage(&mut message);
            }
            self.compare(2, 128, &message);
            self.model.seal(&mut message);
            self.compare(255, 1, &message);
        }
    }

    fn random(&mut self) {
        for _ in 0..10_000 {
            let length = self.random.below(200);
            let bytes = self.random.bytes(length);
            let (supported, pcp) = (self.random.byte() % 4, self.random.byte() % 4);
            self.compare(supported, pcp, &bytes);
        }
    }

    /// The most data that a length field can state; then longer messages, whose length agrees with
    /// the field in its 16 bits alone; then plain bytes.
    fn long(&mut self) {
        for (length, number) in [(65_535, 0), (65_536, 7), (65_537, 7), (131_071, 7), (8 << 20, 7)]
        {
            let data = self.random.bytes(length);
            let message = self.model.message(21, &data);
            self.must(1, 1, &message, number);
            self.compare(1, 1, &data);
        }
    }
}

fn from_hex(text: &str) -> Vec<u8> {
    let digit = |c: u8| char::from(c).to_digit(16).expect("a hex digit") as u8;
    text.as_bytes().chunks(2).map(|pair| digit(pair[0]) << 4 | digit(pair[1])).collect()
}

fn main() -> ExitCode {
    let mut run = Run { model: Model::new(), random: Random(1), compared: 0, different: 0 };
    run.printed();
    run.all_short();
    run.all_single_bits();
    run.unseen();
    run.unseen_fragments();
    run.all_version_bytes();
    run.all_faults();
    run.cut_short();
    run.damaged();
    run.random();
    run.long();
    println!("rust host: {} compared, {} different", run.compared, run.different);
    ExitCode::from(u8::from(run.different != 0))
}
