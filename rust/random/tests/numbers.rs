//! The numbers of some seeds, and the ranges of the methods.

use random::Random;

/// The first numbers of a seed, as they were when the shipped recordings were made.
#[test]
fn the_numbers_of_a_seed_do_not_change() {
    let numbers = |seed: u64| {
        let mut random = Random::new(seed);
        [(); 3].map(|_| random.next_u64())
    };
    let expected = [
        0x94F6_40E7_790E_27E3,
        0xA123_3B95_5020_EC36,
        0x1B5A_05C5_FA35_0BD4,
    ];
    assert_eq!(numbers(0), expected);
    let expected = [
        0x808F_3A17_91B2_2C83,
        0x167E_2C57_6D7F_79B7,
        0x5165_71EC_5411_07F8,
    ];
    assert_eq!(numbers(138), expected);
    let expected = [
        0x06F9_1CBE_974E_6570,
        0x3952_41BC_5105_3410,
        0x5ECB_1192_62F1_F646,
    ];
    assert_eq!(numbers(u64::MAX), expected);
}

/// Each method takes as many numbers as it makes choices, from the upper bits.
#[test]
fn methods_take_the_upper_bits() {
    let (mut random, mut numbers) = (Random::new(5), Random::new(5));
    let mut next = || numbers.next_u64();
    assert_eq!(u64::from(random.next_u32()), next() >> 32);
    assert_eq!(u64::from(random.byte()), next() >> 56);
    assert_eq!(u64::from(random.flag()), next() >> 56 & 1);
    assert_eq!(u64::from(random.below(1_000)), (next() >> 32) % 1_000);
    assert_eq!(random.index(300) as u64, (next() >> 32) % 300);
    assert_eq!(random.once_in(2), (next() >> 32) % 2 == 0);
    assert_eq!(random.pick(&[0, 1, 2]), (next() >> 32) % 3);
    assert_eq!(random.next_u64(), next());
}

#[test]
fn every_number_below_a_bound_comes_up() {
    let mut random = Random::new(6);
    let mut counts = [0; 10];
    for _ in 0..10_000 {
        counts[random.index(10)] += 1;
    }
    assert!(counts.iter().all(|count| (900..1_100).contains(count)));
    assert!((0..100).all(|_| random.below(1) == 0 && random.once_in(1)));
}

#[test]
fn a_shuffle_keeps_all_items() {
    let mut items: Vec<u32> = (0..64).collect();
    Random::new(7).shuffle(&mut items);
    assert!(!items.iter().copied().eq(0..64));
    items.sort();
    assert!(items.into_iter().eq(0..64));
}

/// Also where the length is no multiple of 8.
#[test]
fn every_byte_is_filled() {
    for length in 0..40 {
        let mut bytes = vec![0; length];
        let mut numbers = Random::new(8);
        Random::new(8).fill(&mut bytes);
        let expected: Vec<u8> = (0..5)
            .flat_map(|_| numbers.next_u64().to_be_bytes())
            .collect();
        assert_eq!(bytes, expected[..length]);
    }
}
