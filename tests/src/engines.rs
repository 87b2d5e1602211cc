//! The two engines of sight, asked as the second calculation is, in either direction.

use exports::{Direction, Refusal};

use crate::bare;
use crate::reference::sight::Look;
use crate::reference::Answer;

/// The proved function for one station, and that for the profile.
type Sight = fn(&[i32], Direction, u32, exports::Look) -> Result<u32, Refusal>;
type Profile = fn(&[i32], Direction, exports::Look, &mut [u16]) -> Result<u32, Refusal>;

/// An engine, by its name.
pub struct Engine {
    pub name: &'static str,
    sight: Sight,
    profile: Profile,
}

pub const QUICK: Engine = Engine { name: "quick", sight: exports::sight, profile: exports::sight_profile };
pub const SLOW: Engine = Engine { name: "slow", sight: exports::slow_sight, profile: exports::slow_sight_profile };
pub const ENGINES: [Engine; 2] = [QUICK, SLOW];

/// Both directions.
pub const DIRECTIONS: [Direction; 2] = [Direction::Rising, Direction::Falling];

impl Engine {
    pub fn sight(&self, heights: &[i32], direction: Direction, station: u32, look: Look) -> Answer {
        bare((self.sight)(heights, direction, station, asked(look)))
    }

    pub fn profile(&self, heights: &[i32], direction: Direction, look: Look, sights: &mut [u16]) -> Answer {
        bare((self.profile)(heights, direction, asked(look), sights))
    }
}

/// A look as the proved functions are asked.
pub fn asked(Look { eye, object, farthest }: Look) -> exports::Look {
    exports::Look { eye, object, farthest }
}
