//! Runs of all three.

use super::dp::Rest;
use super::{Bank, Machine};

impl Machine {
    /// SP turn, fetch, consumer turn and so on, while the SP and another act; then the rest of
    /// those that are left. Gives the words moved and consumed.
    pub fn run(
        &mut self,
        [sp_budget, dp_budget, consumer_budget]: [u32; 3],
        rdram: &mut [u8],
        dmem: &mut Bank,
        imem: &mut Bank,
        out: &mut [u8],
    ) -> [u32; 2] {
        // Local copies, so that the loop can hold these registers in the processor's.
        let (mut sp, mut dp) = (self.sp, self.dp);
        let ring = &mut self.queue;
        let mut rest = Rest::new([dp_budget, consumer_budget], out);
        let mut moved = 0;
        let mut acted = true;
        while acted && moved < sp_budget && sp.turn(rdram, dmem, imem) == 1 {
            moved += 1;
            acted = dp.round(ring, &mut rest, rdram, dmem);
        }
        // The others act no more, or the SP does not.
        moved += sp.run(sp_budget - moved, rdram, dmem, imem);
        let words = dp.run(ring, rest, rdram, dmem);
        (self.sp, self.dp) = (sp, dp);
        [moved, words]
    }
}
