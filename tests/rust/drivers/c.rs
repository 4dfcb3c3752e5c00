//! The drivers of `include/pcp_driver.h`, by the symbols of tests/c/driver_calls.c.

use super::{Action, DeviceEnd, GatewayEnd};
use pcp::driver::{device_state, Config, GATEWAY_STATE};
use pcp::{DEVICE_RECORD, DIGEST_LENGTH, GATEWAY_RECORD, VERSION_LENGTH};
use std::slice;

/// `pcp_driver_config`
#[repr(C)]
#[derive(Debug, Default, PartialEq, Eq)]
struct Settings {
    times: [u64; 6],
    gateway_limit: u32,
    words: [u16; 4],
    install_limit: u8,
    digest_version: [u8; VERSION_LENGTH],
    digest: [u8; DIGEST_LENGTH],
}

impl Settings {
    fn of(config: &Config) -> Settings {
        Settings {
            times: [
                config.retry,
                config.quiet,
                config.installation,
                config.later,
                config.linger,
                config.time_limit,
            ],
            gateway_limit: config.gateway_limit,
            words: [config.failure_limit, config.size, config.size_most, config.save_every],
            install_limit: config.install_limit,
            digest_version: config.digest.map_or([0; VERSION_LENGTH], |known| *known.version.as_bytes()),
            digest: config.digest.map_or([0; DIGEST_LENGTH], |known| known.digest),
        }
    }
}

/// `pcp_action`
#[repr(C)]
struct Told {
    kind: u8,
    slot: u8,
    bytes: *const u8,
    length: usize,
    at: usize,
    until: u64,
}

impl Told {
    const NOTHING: Told = Told { kind: 255, slot: 0, bytes: std::ptr::null(), length: 0, at: 0, until: 0 };

    /// SAFETY: the driver gave it, and is borrowed until the action is done with.
    unsafe fn action<'a>(&self, outcome: u32) -> Action<'a> {
        let bytes = if self.length == 0 { &[] } else { slice::from_raw_parts(self.bytes, self.length) };
        match self.kind {
            0 => Action::Wait(self.until),
            1 => Action::Write { at: self.at, bytes },
            2 => Action::Save { slot: self.slot.into(), bytes },
            4 => Action::Send(bytes),
            8 => Action::Install(bytes),
            16 => Action::End(outcome as u8),
            kind => panic!("the driver told {}", kind),
        }
    }
}

extern "C" {
    fn calls_defaults(config: *mut Settings, image_length: usize, lengths: *mut usize);
    fn calls_device_size() -> usize;
    fn calls_device_start(
        driver: *mut u64,
        config: *const Settings,
        version: *const u8,
        version_length: usize,
        image: *mut u8,
        image_length: usize,
        state: *mut u8,
        state_length: usize,
        slot0: *const u8,
        slot0_length: usize,
        slot1: *const u8,
        slot1_length: usize,
        now: u64,
    ) -> u8;
    fn calls_device_receive(
        driver: *mut u64,
        now: u64,
        condition: i32,
        message: *const u8,
        message_length: usize,
    ) -> u8;
    fn calls_device_installed(driver: *mut u64, code: i32);
    fn calls_device_poll(driver: *mut u64, now: u64, told: *mut Told);
    fn calls_device_record(driver: *const u64) -> *const u8;
    fn calls_device_fault(driver: *const u64) -> u8;
    fn calls_gateway_size() -> usize;
    fn calls_gateway_start(
        driver: *mut u64,
        config: *const Settings,
        version: *const u8,
        version_length: usize,
        package: *const u8,
        package_length: usize,
        slot0: *const u8,
        slot0_length: usize,
        slot1: *const u8,
        slot1_length: usize,
        now: u64,
    ) -> u8;
    fn calls_gateway_receive(driver: *mut u64, now: u64, message: *const u8, message_length: usize) -> u8;
    fn calls_gateway_poll(driver: *mut u64, now: u64, told: *mut Told);
    fn calls_gateway_record(driver: *const u64) -> *const u8;
    fn calls_gateway_look(driver: *const u64, look: *mut u32);
}

/// Memory for a driver of so many bytes, with the alignment of its largest fields.
fn memory(size: usize) -> Vec<u64> {
    vec![0xA5A5_A5A5_A5A5_A5A5; (size + 7) / 8]
}

// SAFETY, of each call below: the driver's memory has the size that C names, and was started; image, state and package
// stay where they are for as long as the driver is here, and nobody else uses them; all other pointers are those of
// slices, and used during the call only.

/// Whether C has the same defaults as Rust, and lengths of what is saved.
pub fn has_same_defaults(image_length: usize) -> bool {
    let (mut settings, mut lengths) = (Settings::default(), [0; 2]);
    // SAFETY: see above.
    unsafe { calls_defaults(&mut settings, image_length, lengths.as_mut_ptr()) };
    settings == Settings::of(&Config::default()) && lengths == [device_state(image_length), GATEWAY_STATE]
}

pub struct Device {
    driver: Vec<u64>,
    _memory: [Box<[u8]>; 2],
}

impl Device {
    pub fn start(
        config: &Config,
        version: &[u8],
        image: Vec<u8>,
        state_length: usize,
        slots: [&[u8]; 2],
        now: u64,
    ) -> Result<Box<dyn DeviceEnd>, u8> {
        let mut image = image.into_boxed_slice();
        let mut state = vec![0xA5; state_length].into_boxed_slice();
        // SAFETY: see above.
        let mut driver = memory(unsafe { calls_device_size() });
        // SAFETY: see above.
        let number = unsafe {
            calls_device_start(
                driver.as_mut_ptr(),
                &Settings::of(config),
                version.as_ptr(),
                version.len(),
                image.as_mut_ptr(),
                image.len(),
                state.as_mut_ptr(),
                state.len(),
                slots[0].as_ptr(),
                slots[0].len(),
                slots[1].as_ptr(),
                slots[1].len(),
                now,
            )
        };
        match number {
            0 => Ok(Box::new(Device { driver, _memory: [image, state] })),
            number => Err(number),
        }
    }
}

impl DeviceEnd for Device {
    fn receive(&mut self, now: u64, condition: u8, message: &[u8]) -> u8 {
        // SAFETY: see above.
        unsafe {
            calls_device_receive(
                self.driver.as_mut_ptr(),
                now,
                condition.into(),
                message.as_ptr(),
                message.len(),
            )
        }
    }

    fn installed(&mut self, code: u8) {
        // SAFETY: see above.
        unsafe { calls_device_installed(self.driver.as_mut_ptr(), code.into()) }
    }

    fn poll(&mut self, now: u64) -> Action<'_> {
        let mut told = Told::NOTHING;
        // SAFETY: see above.
        unsafe {
            calls_device_poll(self.driver.as_mut_ptr(), now, &mut told);
            told.action(0)
        }
    }

    fn record(&self) -> Vec<u8> {
        // SAFETY: see above.
        unsafe { slice::from_raw_parts(calls_device_record(self.driver.as_ptr()), DEVICE_RECORD).to_vec() }
    }

    fn look(&self) -> Vec<u32> {
        // SAFETY: see above.
        vec![unsafe { calls_device_fault(self.driver.as_ptr()) }.into()]
    }
}

pub struct Gateway<'p> {
    driver: Vec<u64>,
    _package: &'p [u8],
}

impl<'p> Gateway<'p> {
    pub fn start(
        config: &Config,
        version: &[u8],
        package: &'p [u8],
        slots: [&[u8]; 2],
        now: u64,
    ) -> Result<Box<dyn GatewayEnd + 'p>, u8> {
        // SAFETY: see above.
        let mut driver = memory(unsafe { calls_gateway_size() });
        // SAFETY: see above.
        let number = unsafe {
            calls_gateway_start(
                driver.as_mut_ptr(),
                &Settings::of(config),
                version.as_ptr(),
                version.len(),
                package.as_ptr(),
                package.len(),
                slots[0].as_ptr(),
                slots[0].len(),
                slots[1].as_ptr(),
                slots[1].len(),
                now,
            )
        };
        match number {
            0 => Ok(Box::new(Gateway { driver, _package: package })),
            number => Err(number),
        }
    }
}

impl GatewayEnd for Gateway<'_> {
    fn receive(&mut self, now: u64, message: &[u8]) -> u8 {
        // SAFETY: see above.
        unsafe { calls_gateway_receive(self.driver.as_mut_ptr(), now, message.as_ptr(), message.len()) }
    }

    fn poll(&mut self, now: u64) -> Action<'_> {
        let mut told = Told::NOTHING;
        let outcome;
        // SAFETY: see above.
        unsafe {
            calls_gateway_poll(self.driver.as_mut_ptr(), now, &mut told);
            outcome = self.look()[0];
            told.action(outcome)
        }
    }

    fn record(&self) -> Vec<u8> {
        // SAFETY: see above.
        unsafe { slice::from_raw_parts(calls_gateway_record(self.driver.as_ptr()), GATEWAY_RECORD).to_vec() }
    }

    fn look(&self) -> Vec<u32> {
        let mut look = vec![0; 6];
        // SAFETY: see above.
        unsafe { calls_gateway_look(self.driver.as_ptr(), look.as_mut_ptr()) };
        look
    }
}
