//! Document 01's bench marks M1, M2 and M4 to M10, on images. MAX 2, divide 1, two parties unless said.
use baseline::Answer::{self, Empty, Full, GoesOn, Popped, Pushed, Refused};
use baseline::{lay, start, step};

const RIGHT_PUSH: u32 = 0;
const RIGHT_POP: u32 = 1;
const LEFT_PUSH: u32 = 2;
const LEFT_POP: u32 = 3;

struct Bench {
    image: Vec<u8>,
}

impl Bench {
    fn laid(divide: u32) -> Bench {
        let mut image = vec![0xa5; 8 + 8 * 4 + 32 * 2];
        assert_eq!(lay(&mut image, 2, 2, divide), GoesOn);
        Bench { image }
    }

    /// After M1: 7 stands at place 2.
    fn pushed() -> Bench {
        let mut bench = Bench::laid(1);
        bench.starts(0, RIGHT_PUSH, 7);
        bench.steps(0, 2, &[GoesOn, GoesOn, GoesOn, Pushed]);
        bench
    }

    fn starts(&mut self, party: u32, operation: u32, order: u32) {
        assert_eq!(start(&mut self.image, party, operation, order), GoesOn);
    }

    fn steps(&mut self, party: u32, hint: u32, answers: &[Answer]) {
        for &answer in answers {
            assert_eq!(step(&mut self.image, party, hint), answer);
        }
    }

    fn stage(&self, party: usize) -> u8 {
        self.image[8 + 8 * 4 + 32 * party + 1]
    }

    fn set_word(&mut self, place: usize, value: u32, counter: u32) {
        let word = u64::from(counter) << 32 | u64::from(value);
        self.image[8 + 8 * place..16 + 8 * place].copy_from_slice(&word.to_le_bytes());
    }

    fn cells(&self) -> String {
        let cell = |bytes: &[u8]| {
            let word = u64::from_le_bytes(bytes.try_into().unwrap());
            format!("{}.{}", word as u32, word >> 32)
        };
        self.image[8..40]
            .chunks(8)
            .map(cell)
            .collect::<Vec<_>>()
            .join(" ")
    }
}

#[test]
fn m1_right_push() {
    assert_eq!(Bench::pushed().cells(), "0.0 0.1 7.1 1.0");
}

#[test]
fn m2_full_though_the_left_has_room() {
    let mut bench = Bench::pushed();
    bench.starts(0, RIGHT_PUSH, 8);
    bench.steps(0, 3, &[GoesOn, Full]);
    assert_eq!(bench.cells(), "0.0 0.1 7.1 1.0");
}

#[test]
fn m4_push_and_pop_both_lose() {
    let mut bench = Bench::laid(1);
    bench.starts(0, RIGHT_POP, 0);
    bench.starts(1, RIGHT_PUSH, 7);
    bench.steps(0, 2, &[GoesOn]);
    bench.steps(1, 2, &[GoesOn; 3]);
    bench.steps(0, 2, &[GoesOn; 3]);
    assert_eq!((bench.stage(0), bench.stage(1)), (5, 5));
    bench.steps(1, 2, &[GoesOn]);
    bench.steps(0, 2, &[GoesOn]);
    assert_eq!((bench.stage(0), bench.stage(1)), (1, 1));
    assert_eq!(bench.cells(), "0.0 0.1 1.1 1.0");
}

#[test]
fn m5_two_pops_for_one_order() {
    let mut bench = Bench::pushed();
    bench.starts(0, RIGHT_POP, 0);
    bench.starts(1, LEFT_POP, 0);
    bench.steps(0, 3, &[GoesOn; 3]);
    bench.steps(1, 1, &[GoesOn; 3]);
    assert_eq!((bench.stage(0), bench.stage(1)), (5, 5));
    bench.steps(0, 3, &[Popped(7)]);
    bench.steps(1, 1, &[GoesOn]);
    assert_eq!(bench.stage(1), 1);
    bench.steps(1, 1, &[GoesOn, GoesOn, Empty]);
}

#[test]
fn m6_a_wrong_hint_changes_nothing() {
    let mut bench = Bench::laid(1);
    bench.starts(0, RIGHT_PUSH, 7);
    bench.steps(0, 3, &[GoesOn; 2]);
    assert_eq!(bench.stage(0), 1);
    assert_eq!(bench.cells(), "0.0 0.0 1.0 1.0");
}

#[test]
fn m7_room_at_the_left_alone() {
    let mut bench = Bench::laid(2);
    bench.starts(0, RIGHT_PUSH, 8);
    bench.steps(0, 3, &[GoesOn, Full]);
    bench.starts(0, LEFT_PUSH, 9);
    bench.steps(0, 2, &[GoesOn, GoesOn, GoesOn, Pushed]);
    assert_eq!(bench.cells(), "0.0 0.0 9.1 1.1");
}

#[test]
fn m8_hints_at_the_ends() {
    let mut bench = Bench::laid(1);
    bench.starts(0, RIGHT_PUSH, 7);
    bench.starts(1, LEFT_PUSH, 7);
    bench.steps(0, 0, &[Refused(8)]);
    bench.steps(0, 3, &[GoesOn]);
    bench.steps(1, 3, &[Refused(8)]);
    bench.steps(1, 2, &[GoesOn]);
}

#[test]
fn m9_orders_begin_at_3() {
    let mut bench = Bench::laid(1);
    assert_eq!(start(&mut bench.image, 0, RIGHT_PUSH, 2), Refused(7));
    bench.starts(0, RIGHT_PUSH, 3);
}

#[test]
fn m10_a_counter_at_its_end() {
    for &(counter, answer, stage) in &[(u32::MAX - 1, GoesOn, 5), (u32::MAX, Refused(9), 4)] {
        let mut bench = Bench::laid(1);
        bench.set_word(1, 0, counter);
        bench.starts(0, RIGHT_PUSH, 7);
        bench.steps(0, 2, &[GoesOn, GoesOn, answer]);
        assert_eq!(bench.stage(0), stage);
        assert_eq!(bench.cells(), format!("0.0 0.{} 1.0 1.0", u32::MAX));
    }
}
