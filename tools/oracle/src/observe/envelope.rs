/// Beside the original envelope: its private state, read and built.
#[derive(Clone, Copy)]
pub struct State {
    pub volume: u8,
    pub rise_rate: u8,
    pub decay_rate: u8,
    pub hold_level: u8,
    pub fall_rate: u8,
    pub input: bool,
    pub stage_a: bool,
    pub stage_b: bool,
    /// The place in `EnvelopeMotion`, from 0.
    pub motion: u8,
    pub requested_motion: u8,
    pub motion_delay: u8,
    pub rate_phase: u16,
    pub rate_target_phase: u16,
    pub matched_rate: bool,
    pub amplitude_delay: u8,
    pub curve_delay: u8,
    pub curve_count: u8,
    pub curve_divisor: u8,
    pub queued_curve_divisor: u8,
    pub floor_hold: bool,
    pub readback: u8,
}

fn motion_at(place: u8) -> EnvelopeMotion {
    [
        EnvelopeMotion::Rising,
        EnvelopeMotion::FallingToSustain,
        EnvelopeMotion::FallingToZero,
    ][usize::from(place)]
}

impl Envelope {
    pub fn from_state(state: State) -> Self {
        Self {
            volume: state.volume,
            rise_rate: state.rise_rate,
            decay_rate: state.decay_rate,
            hold_level: state.hold_level,
            fall_rate: state.fall_rate,
            gate: GateHistory {
                input: state.input,
                stage_a: state.stage_a,
                stage_b: state.stage_b,
            },
            motion: motion_at(state.motion),
            requested_motion: motion_at(state.requested_motion),
            motion_delay: state.motion_delay,
            rate_phase: state.rate_phase,
            rate_target_phase: state.rate_target_phase,
            matched_rate: state.matched_rate,
            amplitude_delay: state.amplitude_delay,
            curve_delay: state.curve_delay,
            curve_count: state.curve_count,
            curve_divisor: state.curve_divisor,
            queued_curve_divisor: state.queued_curve_divisor,
            floor_hold: state.floor_hold,
            readback: state.readback,
        }
    }

    pub fn state(&self) -> State {
        State {
            volume: self.volume,
            rise_rate: self.rise_rate,
            decay_rate: self.decay_rate,
            hold_level: self.hold_level,
            fall_rate: self.fall_rate,
            input: self.gate_is_high(),
            stage_a: self.gate.stage_a,
            stage_b: self.gate.stage_b,
            motion: self.motion as u8,
            requested_motion: self.requested_motion as u8,
            motion_delay: self.motion_delay,
            rate_phase: self.rate_phase,
            rate_target_phase: self.rate_target_phase,
            matched_rate: self.matched_rate,
            amplitude_delay: self.amplitude_delay,
            curve_delay: self.curve_delay,
            curve_count: self.curve_count,
            curve_divisor: self.curve_divisor,
            queued_curve_divisor: self.queued_curve_divisor,
            floor_hold: self.floor_hold,
            readback: self.read_level(),
        }
    }
}
