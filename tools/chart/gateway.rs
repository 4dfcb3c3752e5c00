//! What can be told of a gateway from outside: by what it sends, and by what is sent to it.

use super::fields::{text, Fields};
use pcp::{Code, Ending, GatewayPhase};

/// A gateway's phase, as far as it is known, and how it ended.
#[derive(Clone, Debug, Default, PartialEq, Eq)]
pub struct Inferred {
    pub phase: Option<GatewayPhase>,
    pub ending: Option<Ending>,
    /// The version that it announced.
    target: Option<String>,
}

impl Inferred {
    /// The gateway sends this, so it is in a phase that does. A query is a new gateway's, unless one asks already.
    pub fn sends(&mut self, message: &Fields) {
        match message {
            Fields::Query if self.phase != Some(GatewayPhase::Ask) => {
                *self = Inferred { phase: Some(GatewayPhase::Ask), ..Inferred::default() };
            }
            Fields::Announcement { version, .. } => {
                *self =
                    Inferred { phase: Some(GatewayPhase::Offer), ending: None, target: Some(text(version)) };
            }
            // 80 is what it answers in the other phases.
            Fields::Fragment { result: 0x00 | 0x81, .. } if self.phase != Some(GatewayPhase::Run) => {
                self.moves(GatewayPhase::Serve);
            }
            Fields::Execute => self.moves(GatewayPhase::Run),
            // Where the report itself is not in the capture.
            Fields::Result { code: Code::DownloadResult, result: 0x00 } if !self.has_ended() => {
                self.moves(GatewayPhase::Run);
            }
            Fields::Result { code: Code::UpgradeResult, result: 0x00 } => {
                self.phase = Some(GatewayPhase::Ended)
            }
            _ => {}
        }
    }

    /// The device sends this. That it arrives is supposed, until the gateway sends what does not fit.
    pub fn hears(&mut self, message: &Fields) {
        match (self.phase, message) {
            (Some(GatewayPhase::Ask), Fields::Running { .. }) => self.moves(GatewayPhase::Offer),
            (Some(GatewayPhase::Offer), Fields::Result { code: Code::Announce, result }) => {
                self.goes_on(*result == 0x00, GatewayPhase::Serve, Ending::NotAccepted);
            }
            (Some(GatewayPhase::Serve), Fields::Result { code: Code::DownloadResult, result }) => {
                self.goes_on(*result == 0x00, GatewayPhase::Run, Ending::DownloadFailed);
            }
            (Some(GatewayPhase::Run), Fields::Result { code: Code::Execute, result }) => {
                self.goes_on(*result == 0x00, GatewayPhase::Run, Ending::NotExecuted);
            }
            (Some(GatewayPhase::Run), Fields::UpgradeResult { result, version }) => {
                let success =
                    *result == 0x00 && self.target.as_ref().map_or(true, |target| *target == text(version));
                self.ends(if success { Ending::Success } else { Ending::UpgradeFailed });
            }
            _ => {}
        }
    }

    /// A query shows a new gateway where one has gone past Ask for certain, and not only by what it may have heard.
    pub fn is_followed_by(&self, other: &Inferred) -> bool {
        let went_on = self.target.is_some()
            || !matches!(self.phase, None | Some(GatewayPhase::Ask | GatewayPhase::Offer));
        went_on && other.phase == Some(GatewayPhase::Ask)
    }

    /// Whether there is no difference to be seen.
    pub fn is_as(&self, other: &Inferred) -> bool {
        (self.phase, self.ending) == (other.phase, other.ending)
    }

    fn has_ended(&self) -> bool {
        self.phase == Some(GatewayPhase::Ended)
    }

    fn goes_on(&mut self, accepted: bool, phase: GatewayPhase, ending: Ending) {
        if accepted {
            self.moves(phase);
        } else {
            self.ends(ending);
        }
    }

    fn moves(&mut self, phase: GatewayPhase) {
        self.phase = Some(phase);
        self.ending = None;
    }

    fn ends(&mut self, ending: Ending) {
        self.phase = Some(GatewayPhase::Ended);
        self.ending = Some(ending);
    }
}
