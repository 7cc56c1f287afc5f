//! camera.rs: the camera of camera.c in Rust: a ring of frames, found by time, on a chip whose power is lost now and then. The index is judged
//! once at each start; then every call goes by the record that `Index` keeps in RAM, and a crash takes it away with the image.
//!
//! usage: camera CHIP FRAMES        CHIP is 0 (small pages) or 1 (large pages)

mod mutree;

use mutree::{Chip, Geometry, Index, Refusal};

const SLOTS: usize = 600;
const BLOCKS: usize = 3;
const NO_POWER: i32 = 1;
const REFUSED: i32 = 2;

/// A chip in memory: a page is programmed only where it is erased, and power is lost after so many stores.
struct Flash {
    geometry: Geometry,
    bytes: Vec<u8>,
    power_after: Option<u32>,
}

impl Flash {
    fn page(&mut self, page: u32) -> &mut [u8] {
        let bytes = self.geometry.page_bytes();
        &mut self.bytes[page as usize * bytes..][..bytes]
    }

    /// Turns a bit of page 0 over, where the page is programmed.
    fn flip(&mut self) {
        let height = self.geometry.main_bytes() + 4;
        if self.page(0)[height] != 255 {
            self.page(0)[9] ^= 16;
        }
    }

    /// Whether there is power for one store more.
    fn powered(&mut self) -> Result<(), i32> {
        match &mut self.power_after {
            Some(0) => Err(NO_POWER),
            Some(stores) => {
                *stores -= 1;
                Ok(())
            }
            None => Ok(()),
        }
    }
}

impl Chip for Flash {
    fn program(&mut self, page: u32, main: &[u8], spare: &[u8]) -> Result<(), i32> {
        self.powered()?;
        if self.page(page).iter().any(|byte| *byte != 255) {
            return Err(REFUSED);
        }
        self.page(page)[..main.len()].copy_from_slice(main);
        self.page(page)[main.len()..].copy_from_slice(spare);
        Ok(())
    }

    fn erase(&mut self, block: u32) -> Result<(), i32> {
        self.powered()?;
        let bytes = self.geometry.block_bytes();
        self.bytes[block as usize * bytes..][..bytes].fill(255);
        Ok(())
    }

    fn read(&mut self, page: u32, main: &mut [u8], spare: &mut [u8]) -> Result<(), i32> {
        main.copy_from_slice(&self.page(page)[..main.len()]);
        spare.copy_from_slice(&self.page(page)[main.len()..]);
        Ok(())
    }
}

struct Camera {
    index: Index<Flash>,
    frames: Vec<u32>, // stands for the frames: the time of each, 0 for none
    next: usize,
    given_up: u32,
}

impl Camera {
    /// After the power came back: read the chip, which opens the index, and find where the ring stood. What a patrol mended has to be opened
    /// anew: until then every call is `Stale`. An index that stays damaged is to be made anew from the frames, as in camera.c.
    fn start(mut flash: Flash, frames: Vec<u32>, given_up: u32) -> Result<Camera, Refusal> {
        flash.power_after = None;
        let mut index = Index::new(flash.geometry, BLOCKS, flash);
        match index.read() {
            Err(Refusal::Damaged { rule: 1, .. }) => {
                index.patrol()?;
                assert_eq!(index.lookup(0), Err(Refusal::Stale));
                index.open()?;
            }
            read => {
                read?;
            }
        }
        let pairs = index.list(0..=u32::MAX)?;
        let next = pairs.last().map_or(0, |(_, slot)| (*slot as usize + 1) % SLOTS);
        Ok(Camera { index, frames, next, given_up })
    }

    /// First the key of the frame that gives way, then the frame, then the new key.
    fn put_frame(&mut self, time: u32) -> Result<(), Refusal> {
        if self.frames[self.next] != 0 {
            match self.index.delete(self.frames[self.next]) {
                Ok(_) | Err(Refusal::Absent) => {}
                Err(refused) => return Err(refused),
            }
        }
        self.frames[self.next] = time;
        while let Err(refused) = self.index.insert(time, self.next as u32) {
            match refused {
                Refusal::Room | Refusal::Height => self.give_up_oldest()?,
                refused => return Err(refused),
            }
        }
        self.next = (self.next + 1) % SLOTS;
        Ok(())
    }

    fn give_up_oldest(&mut self) -> Result<(), Refusal> {
        let oldest = self.index.list(0..=u32::MAX)?[0].0;
        self.index.delete(oldest)?;
        self.given_up += 1;
        Ok(())
    }

    /// Every key leads to the frame of its time.
    fn look_at_all(&self) {
        for (time, slot) in self.index.list(0..=u32::MAX).expect("the index is not sound") {
            assert_eq!(self.frames[slot as usize], time, "a key leads to another frame");
        }
        let newest = (self.next + SLOTS - 1) % SLOTS;
        if self.frames[newest] != 0 {
            assert_eq!(self.index.lookup(self.frames[newest]), Ok(Some(newest as u32)));
        }
    }
}

fn main() {
    let words: Vec<u32> = std::env::args().skip(1).map(|word| word.parse().expect("usage: camera CHIP FRAMES")).collect();
    let (geometry, frames) = match words[..] {
        [0, frames] => (Geometry::Small, frames),
        [1, frames] => (Geometry::Large, frames),
        _ => panic!("usage: camera CHIP FRAMES"),
    };
    let flash = Flash { geometry, bytes: vec![255; BLOCKS * geometry.block_bytes()], power_after: None };
    let mut index = Index::new(geometry, BLOCKS, flash);
    index.format().expect("the chip could not be formatted");
    let mut camera = Camera::start(index.into_chip(), vec![0; SLOTS], 0).expect("the chip could not be read");
    let mut crashes = 0;
    for time in 1..=frames {
        if time % 50 == 0 {
            camera.index.chip_mut().power_after = Some(time / 50 % 7);
        }
        match camera.put_frame(time) {
            Ok(()) => continue,
            Err(Refusal::Failed { failure: NO_POWER, .. }) => crashes += 1,
            Err(refused) => panic!("an update was refused: {refused:?}"),
        }
        camera.index.chip_mut().flip();
        camera = Camera::start(camera.index.into_chip(), camera.frames, camera.given_up).expect("the chip could not be read");
        camera.look_at_all();
    }
    camera.look_at_all();
    let held = camera.index.list(0..=u32::MAX).map_or(0, |pairs| pairs.len());
    println!(
        "camera: {geometry:?} pages: {frames} frames taken, {crashes} crashes, {} old frames given up for room; {held} keys, each with its own frame",
        camera.given_up
    );
}
