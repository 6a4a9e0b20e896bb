/// Beside the original chip: its bus, a tick that tells what that loses, its oscillators' cycles,
/// whether their leaks come singly, its tables, which others may replace, and the chip made new
/// but for them.
impl Mos6581 {
    pub fn bus(&self) -> &InternalDataBus {
        &self.data_bus
    }

    /// The bits that the bus lost on this clock. A floating read changes nothing.
    pub fn tick_losing(&mut self) -> u8 {
        let before = self.data_bus.read_floating();
        self.tick();
        before & !self.data_bus.read_floating()
    }

    pub fn cycles(&self) -> [u64; 3] {
        std::array::from_fn(|voice| self.oscillators[voice].cycle_shown())
    }

    pub fn leaks_by_single_steps(&self) -> bool {
        self.oscillators
            .iter()
            .all(Oscillator::leaks_by_single_steps)
    }

    pub fn tables(&mut self) -> &mut GeneratedWaveShapes {
        &mut self.waveforms
    }

    pub fn renew(&mut self) {
        self.oscillators = std::array::from_fn(|_| Oscillator::new());
        self.envelopes = std::array::from_fn(|_| Envelope::new());
        self.filter = Filter::new();
        self.data_bus = InternalDataBus::new();
        self.last_sample = 0;
        self.pot_x = 0xff;
        self.pot_y = 0xff;
    }
}
