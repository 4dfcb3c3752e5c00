//! The drivers of `hosts/rust/driver.rs`.

use super::{Action, DeviceEnd, GatewayEnd};
use pcp::driver::{Config, DeviceAction, DeviceDriver, GatewayAction, GatewayDriver};
use pcp::{Condition, InstallCode, Refusal};

fn number(answer: Result<(), Refusal>) -> u8 {
    answer.err().map_or(0, u8::from)
}

pub struct Device {
    driver: DeviceDriver<Vec<u8>, Vec<u8>>,
}

impl Device {
    pub fn start(
        config: &Config,
        version: &[u8],
        image: Vec<u8>,
        state_length: usize,
        slots: [&[u8]; 2],
        now: u64,
    ) -> Result<Box<dyn DeviceEnd>, u8> {
        let state = vec![0xA5; state_length];
        let driver = DeviceDriver::start(config, version, image, state, slots, now).map_err(u8::from)?;
        Ok(Box::new(Device { driver }))
    }
}

impl DeviceEnd for Device {
    fn receive(&mut self, now: u64, condition: u8, message: &[u8]) -> u8 {
        let condition = Condition::try_from(condition).expect("a condition");
        number(self.driver.receive(now, condition, message))
    }

    fn installed(&mut self, code: u8) {
        self.driver.installed(InstallCode::try_from(code).expect("an installer's code"));
    }

    fn poll(&mut self, now: u64) -> Action<'_> {
        match self.driver.poll(now) {
            DeviceAction::Wait(until) => Action::Wait(until),
            DeviceAction::Write { at, bytes } => Action::Write { at, bytes },
            DeviceAction::Save { slot, bytes } => Action::Save { slot, bytes },
            DeviceAction::Send(bytes) => Action::Send(bytes),
            DeviceAction::Install(bytes) => Action::Install(bytes),
        }
    }

    fn record(&self) -> Vec<u8> {
        self.driver.device().record().to_vec()
    }

    fn look(&self) -> Vec<u32> {
        vec![self.driver.fault().map_or(0, |fault| u32::from(u8::from(fault)))]
    }
}

pub struct Gateway<'p> {
    driver: GatewayDriver<&'p [u8]>,
}

impl<'p> Gateway<'p> {
    pub fn start(
        config: &Config,
        version: &[u8],
        package: &'p [u8],
        slots: [&[u8]; 2],
        now: u64,
    ) -> Result<Box<dyn GatewayEnd + 'p>, u8> {
        let driver = GatewayDriver::start(config, version, package, slots, now).map_err(u8::from)?;
        Ok(Box::new(Gateway { driver }))
    }
}

impl GatewayEnd for Gateway<'_> {
    fn receive(&mut self, now: u64, message: &[u8]) -> u8 {
        number(self.driver.receive(now, message))
    }

    fn poll(&mut self, now: u64) -> Action<'_> {
        match self.driver.poll(now) {
            GatewayAction::Wait(until) => Action::Wait(until),
            GatewayAction::Save { slot, bytes } => Action::Save { slot, bytes },
            GatewayAction::Send(bytes) => Action::Send(bytes),
            GatewayAction::End(outcome) => Action::End(outcome as u8),
        }
    }

    fn record(&self) -> Vec<u8> {
        self.driver.gateway().record().to_vec()
    }

    fn look(&self) -> Vec<u32> {
        vec![
            self.driver.outcome().map_or(0, |outcome| outcome as u32),
            u32::from(self.driver.said()),
            self.driver.fault().map_or(0, |fault| u32::from(u8::from(fault))),
            self.driver.gateways(),
            u32::from(self.driver.served()),
            u32::from(self.driver.total()),
        ]
    }
}
