//! The three programs, by the calls that are measured.

use reference::interface::{calls as library, flat, from_reference};
use reference::model::{self, Controller, HostGiven, Operation, Progress, Stepped, WordGiven};
use reference::plain;

/// Each call gives its answer number first.
pub trait Program: Clone {
    fn start(&mut self, operation: Operation) -> u32;
    /// Also whether it finished, and the bits changed.
    fn step(&mut self, image: &mut [u32]) -> (u32, bool, u32);
    fn push(&mut self, word: u32) -> u32;
    fn pop(&mut self) -> (u32, u32);
    /// Also the bits changed.
    fn whole(&mut self, operation: Operation, image: &mut [u32], buffer: &mut [u32]) -> (u32, u32);
    fn host_read(&self, image: &[u32], address: u32) -> (u32, u32);
    /// A step is always asked for.
    fn round(&mut self, image: &mut [u32], host: Option<u32>) -> flat::Rounded;
    fn state(&self) -> flat::Controller;
}

#[derive(Clone)]
pub struct Model(pub flat::Controller);

impl Program for Model {
    fn start(&mut self, operation: Operation) -> u32 {
        library::start(&mut self.0, operation.into()).answer
    }

    fn step(&mut self, image: &mut [u32]) -> (u32, bool, u32) {
        let given = library::step(&mut self.0, image);
        let finished = given.movement == flat::MOVEMENT_FINISHED;
        (given.answer, finished, given.bits)
    }

    fn push(&mut self, word: u32) -> u32 {
        library::push(&mut self.0, word)
    }

    fn pop(&mut self) -> (u32, u32) {
        let given = library::pop(&mut self.0);
        (given.answer, given.word)
    }

    fn whole(&mut self, operation: Operation, image: &mut [u32], buffer: &mut [u32]) -> (u32, u32) {
        let given = library::run(&mut self.0, image, operation.into(), buffer);
        (given.answer, given.bits)
    }

    fn host_read(&self, image: &[u32], address: u32) -> (u32, u32) {
        let given = library::host_read(&self.0, image, address);
        (given.answer, given.word)
    }

    fn round(&mut self, image: &mut [u32], host: Option<u32>) -> flat::Rounded {
        let (asks, address) = (host.is_some().into(), host.unwrap_or(0));
        library::round(&mut self.0, image, asks, address, 1)
    }

    fn state(&self) -> flat::Controller {
        self.0
    }
}

fn stepped(given: Stepped) -> (u32, bool, u32) {
    let finished = given.progress == Some(Progress::Finished);
    (given.refusal.into(), finished, given.bits)
}

fn fetched(given: WordGiven) -> (u32, u32) {
    (given.refusal.into(), given.word)
}

fn host_fetched(given: HostGiven) -> (u32, u32) {
    (given.refusal.into(), given.word)
}

#[derive(Clone)]
pub struct Second(pub Controller);

impl Program for Second {
    fn start(&mut self, operation: Operation) -> u32 {
        model::start(&mut self.0, operation).refusal.into()
    }

    fn step(&mut self, image: &mut [u32]) -> (u32, bool, u32) {
        stepped(model::step(&mut self.0, image))
    }

    fn push(&mut self, word: u32) -> u32 {
        model::push(&mut self.0, word).into()
    }

    fn pop(&mut self) -> (u32, u32) {
        fetched(model::pop(&mut self.0))
    }

    fn whole(&mut self, operation: Operation, image: &mut [u32], buffer: &mut [u32]) -> (u32, u32) {
        let given = model::whole(&mut self.0, operation, image, buffer);
        (given.refusal.into(), given.bits)
    }

    fn host_read(&self, image: &[u32], address: u32) -> (u32, u32) {
        host_fetched(model::host_read(&self.0, image, address))
    }

    fn round(&mut self, image: &mut [u32], host: Option<u32>) -> flat::Rounded {
        model::round(&mut self.0, image, host, true).into()
    }

    fn state(&self) -> flat::Controller {
        from_reference(&self.0)
    }
}

#[derive(Clone)]
pub struct Plain(pub Controller);

impl Program for Plain {
    fn start(&mut self, operation: Operation) -> u32 {
        plain::start(&mut self.0, operation).refusal.into()
    }

    fn step(&mut self, image: &mut [u32]) -> (u32, bool, u32) {
        stepped(plain::step(&mut self.0, image))
    }

    fn push(&mut self, word: u32) -> u32 {
        plain::push(&mut self.0, word).into()
    }

    fn pop(&mut self) -> (u32, u32) {
        fetched(plain::pop(&mut self.0))
    }

    fn whole(&mut self, operation: Operation, image: &mut [u32], buffer: &mut [u32]) -> (u32, u32) {
        let given = plain::whole(&mut self.0, operation, image, buffer);
        (given.refusal.into(), given.bits)
    }

    fn host_read(&self, image: &[u32], address: u32) -> (u32, u32) {
        host_fetched(plain::host_read(&self.0, image, address))
    }

    fn round(&mut self, image: &mut [u32], host: Option<u32>) -> flat::Rounded {
        plain::round(&mut self.0, image, host, true).into()
    }

    fn state(&self) -> flat::Controller {
        from_reference(&self.0)
    }
}
