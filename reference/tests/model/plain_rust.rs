//! The plain Rust that `speed` measures does what the second program does.

use crate::helpers::*;
use crate::random_runs::Rng;
use reference::model::{self, *};
use reference::plain;

/// A controller with its image and buffer.
#[derive(Clone, PartialEq)]
struct Bench {
    c: Controller,
    image: Vec<u32>,
    buffer: Vec<u32>,
}

#[derive(Clone, Copy, Debug)]
enum Call {
    Start(Operation),
    Step,
    Push(u32),
    Pop,
    Whole(Operation),
    HostRead(u32),
    Round(Option<u32>, bool),
}

impl Call {
    fn random(rng: &mut Rng) -> Self {
        match rng.below(20) {
            0 => Call::Start(rng.operation()),
            1 | 2 => Call::Whole(rng.operation()),
            3 => Call::HostRead(rng.host_address()),
            4..=6 => Call::Push(rng.word()),
            7 | 8 => Call::Pop,
            9..=12 => {
                let host = rng.below(8) > 0;
                Call::Round(host.then(|| rng.host_address()), rng.below(8) > 0)
            }
            _ => Call::Step,
        }
    }

    fn on_second(self, bench: &mut Bench) -> String {
        let Bench { c, image, buffer } = bench;
        match self {
            Call::Start(operation) => format!("{:?}", model::start(c, operation)),
            Call::Step => format!("{:?}", model::step(c, image)),
            Call::Push(word) => format!("{:?}", model::push(c, word)),
            Call::Pop => format!("{:?}", model::pop(c)),
            Call::Whole(operation) => format!("{:?}", model::whole(c, operation, image, buffer)),
            Call::HostRead(address) => format!("{:?}", model::host_read(c, image, address)),
            Call::Round(host, steps) => format!("{:?}", model::round(c, image, host, steps)),
        }
    }

    fn on_plain(self, bench: &mut Bench) -> String {
        let Bench { c, image, buffer } = bench;
        match self {
            Call::Start(operation) => format!("{:?}", plain::start(c, operation)),
            Call::Step => format!("{:?}", plain::step(c, image)),
            Call::Push(word) => format!("{:?}", plain::push(c, word)),
            Call::Pop => format!("{:?}", plain::pop(c)),
            Call::Whole(operation) => format!("{:?}", plain::whole(c, operation, image, buffer)),
            Call::HostRead(address) => format!("{:?}", plain::host_read(c, image, address)),
            Call::Round(host, steps) => format!("{:?}", plain::round(c, image, host, steps)),
        }
    }
}

fn assert_alike(rng: &mut Rng, c: Controller, calls: u32) {
    let mut second = Bench {
        c,
        image: patterned(),
        buffer: (0..600).map(|_| rng.word()).collect(),
    };
    if rng.below(40) == 0 {
        second.image.pop();
    }
    let mut plain = second.clone();
    for _ in 0..calls {
        let call = Call::random(rng);
        assert_eq!(
            call.on_plain(&mut plain),
            call.on_second(&mut second),
            "{call:?}"
        );
        assert_eq!(plain.c, second.c, "{call:?}");
        assert!(plain == second, "{call:?}: image or buffer");
    }
}

#[test]
fn it_answers_every_state_alike() {
    let mut rng = Rng(0x0BAD_5EED_1234_5677);
    for _ in 0..4_000 {
        let c = rng.controller();
        assert_alike(&mut rng, c, 3);
    }
}

#[test]
fn it_goes_through_long_runs_alike() {
    let mut rng = Rng(0x0DD5_EED5_0F01_2345);
    for _ in 0..150 {
        let c = rng.with_mixed_rights();
        assert_alike(&mut rng, c, 400);
    }
}
