//! The proved library by its offered calls, which judge what they read, or the whole store.

use others::{run, History};

struct Host(Vec<u8>);

fn told(number: u32) -> Result<(), u32> {
    match number {
        0 => Ok(()),
        number => Err(number),
    }
}

impl History for Host {
    fn open(&mut self) -> Result<(), u32> {
        told(rcst::open(&mut self.0))
    }

    fn insert(&mut self, key: u32, value: u32) -> Result<(), u32> {
        told(rcst::insert(&mut self.0, key, value))
    }

    fn delete(&mut self, key: u32) -> Result<(), u32> {
        told(rcst::delete(&mut self.0, key))
    }

    fn commit(&mut self) -> Result<(), u32> {
        told(rcst::commit(&mut self.0))
    }

    fn abandon(&mut self) -> Result<(), u32> {
        told(rcst::abandon(&mut self.0))
    }

    fn get(&mut self, key: u32, version: u32) -> Result<Option<u32>, u32> {
        let (number, found, value) = rcst::lookup(&self.0, key, version);
        told(number).map(|()| found.then_some(value))
    }

    fn bytes(&self) -> usize {
        self.0.len()
    }
}

fn main() -> std::io::Result<()> {
    run(|pages| {
        let mut store = Host(vec![0; pages as usize * 256]);
        told(rcst::fresh(&mut store.0)).map(|()| store)
    })
}
