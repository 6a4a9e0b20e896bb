/// Beside the original bus: its private state, read and built, and a clock that tells its losses.
impl InternalDataBus {
    pub fn from_state(value: u8, age: u32, next_expiry: u32) -> Self {
        Self {
            value,
            age,
            next_expiry,
        }
    }

    /// Value, age and next expiry.
    pub fn state(&self) -> (u8, u32, u32) {
        (self.value, self.age, self.next_expiry)
    }

    /// The bits that were there before this clock and are not after it.
    pub fn clock_losing(&mut self) -> u8 {
        let before = self.value;
        self.clock();
        before & !self.value
    }
}
