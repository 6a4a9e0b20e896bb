/// Beside the original tables: what they hold, and tables that a pack fills in their place.
///
/// A pack has a block of entries for each selection that has a table, by the selection's number.
impl GeneratedWaveShapes {
    /// Codes are the entries cut to twelve bits.
    pub fn from_pack(pack: &[u16]) -> Self {
        let mut blocks = pack.chunks_exact(COMBINED_WAVEFORM_TABLE_SIZE);
        let mut block = || {
            let entries = blocks.next().expect("the pack has a block for each");
            entries.iter().map(|entry| entry & WAVEFORM_MASK).collect()
        };
        Self {
            loaded: std::array::from_fn(|selection| (selection.count_ones() > 1).then(&mut block)),
        }
    }

    pub fn pack(&self) -> Vec<u16> {
        self.loaded.iter().flatten().flatten().copied().collect()
    }

    /// The settled codes of a selection, if it has a table.
    pub fn table(&self, selection: u8) -> Option<&[u16]> {
        self.loaded.get(usize::from(selection))?.as_deref()
    }
}

/// Settles a value on a selection's lines under a static load that is so much larger.
pub fn settle_under(extra_load: f32, selection: u8, value: u16) -> u16 {
    let mut array = LineArray::new(selection);
    array.static_load += extra_load;
    array.settle(value)
}
