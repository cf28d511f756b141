//! The racks of W-207 as requests name them: both in some order, and numbers of racks that there are
//! not.

use super::Random;

/// Numbers that are no rack's; some are 0 or 1 in their low eight, sixteen or thirty-one bits.
pub(super) const NO_RACKS: [u32; 11] = [
    2,
    3,
    4,
    32,
    255,
    256,
    257,
    65_536,
    65_537,
    1 << 31,
    u32::MAX,
];

/// Either rack.
pub(super) fn either(random: &mut Random) -> u32 {
    random.below(2) as u32
}

/// As many zeros and ones as `left` says, from one by one in turn to all of one rack and then all of
/// the other.
pub(super) fn in_turn(mut left: [usize; 2], random: &mut Random) -> Vec<u32> {
    let calm = random.pick(&[1, 2, 8, 64]);
    let mut rack = random.below(2);
    let mut racks = Vec::new();
    while left != [0, 0] {
        if left[rack] > 0 {
            left[rack] -= 1;
            racks.push(rack as u32);
        }
        if left[rack] == 0 || random.one_in(calm) {
            rack = 1 - rack;
        }
    }
    racks
}

#[cfg(test)]
mod tests {
    use super::*;

    #[test]
    fn the_racks_come_one_by_one_and_all_of_one_after_the_other() {
        let mut random = Random::new(1);
        let (mut alternating, mut apart) = (0, 0);
        for _ in 0..400 {
            let racks = in_turn([16, 16], &mut random);
            let ones: u32 = racks.iter().sum();
            assert_eq!((racks.len(), ones), (32, 16));
            let changes = racks.windows(2).filter(|pair| pair[0] != pair[1]);
            match changes.count() {
                31 => alternating += 1,
                1 => apart += 1,
                _ => {}
            }
        }
        assert!(alternating > 50 && apart > 50, "{alternating} {apart}");
        assert_eq!(in_turn([0, 0], &mut random), []);
        assert_eq!(in_turn([0, 2], &mut random), [1, 1]);
    }
}
