//! Calls that are asked for together.

use crate::arguments::Place;
use crate::asked::Asked;
use crate::function::Function;
use crate::maps::Drawn;

/// All that is asked about in a mode, or with a number that is none, in each of the rooms.
pub struct Calls {
    pub mode: u8,
    pub rooms: Vec<u8>,
    pub about: About,
}

pub enum About {
    Inputs(Inputs),
    Places(Places),
    Map(Drawn),
}

/// Inputs of one function that differ in their last bytes alone: the fixed bytes, then every choice of 0 to 2 free ones.
pub struct Inputs {
    pub function: Function,
    pub free: u8,
    pub fixed: Vec<u8>,
}

/// The numbers that the bridge knows `z80_row` and `z80_map_check` by, above those of a text with any choice.
const ROW: u16 = 257;
const MAP: u16 = 258;

/// So many zeros stand behind an image, the same on every machine: where they are read, a row is no longer Short.
const BEHIND: usize = 4;

/// Rows of one image: so many addresses from the first on, modulo 65,536.
pub struct Places {
    image_and_behind: Vec<u8>,
    origin: u16,
    first: u16,
    count: u32,
}

impl Calls {
    /// The check of a map, to which no buffer is lent.
    pub fn of_map(mode: u8, drawn: Drawn) -> Calls {
        Calls {
            mode,
            rooms: vec![0],
            about: About::Map(drawn),
        }
    }

    /// What is asked, in order.
    pub fn asked(&self) -> Box<dyn Iterator<Item = Asked<'_>> + '_> {
        match &self.about {
            About::Inputs(inputs) => Box::new(inputs.asked()),
            About::Places(places) => Box::new(places.asked()),
            About::Map(drawn) => Box::new([Asked::Map(drawn.map())].into_iter()),
        }
    }

    /// As the bridge reads them: the mode, the function, what is asked about, the rooms' count and the rooms.
    pub fn request(&self) -> Vec<u8> {
        let about = match &self.about {
            About::Inputs(inputs) => inputs.request(),
            About::Places(places) => places.request(),
            About::Map(drawn) => map_request(drawn),
        };
        let rooms = [&[self.rooms.len() as u8], &self.rooms[..]].concat();
        [&[self.mode], &about[..], &rooms].concat()
    }
}

impl Inputs {
    pub fn asked(&self) -> impl Iterator<Item = Asked<'_>> {
        (0..1usize << (8 * self.free)).map(|k| {
            let free = &(k as u16).to_be_bytes()[2 - self.free as usize..];
            Asked::Bytes(self.function, [&self.fixed, free].concat())
        })
    }

    /// Function, free bytes, the fixed bytes' count, those; numbers here and below low byte first.
    fn request(&self) -> Vec<u8> {
        let mut request = self.function.number().to_le_bytes().to_vec();
        request.push(self.free);
        request.extend((self.fixed.len() as u16).to_le_bytes());
        request.extend(&self.fixed);
        request
    }
}

impl Places {
    pub fn new(image: &[u8], origin: u16, first: u16, count: u32) -> Places {
        Places {
            image_and_behind: [image, &[0; BEHIND]].concat(),
            origin,
            first,
            count,
        }
    }

    fn image(&self) -> &[u8] {
        &self.image_and_behind[..self.image_and_behind.len() - BEHIND]
    }

    fn asked(&self) -> impl Iterator<Item = Asked<'_>> {
        (0..self.count).map(|k| {
            Asked::Row(Place {
                image: self.image(),
                origin: self.origin,
                address: self.first.wrapping_add(k as u16),
            })
        })
    }

    /// Function, origin, first address, how many, the image's count, and the image.
    fn request(&self) -> Vec<u8> {
        let image = self.image();
        let mut request = ROW.to_le_bytes().to_vec();
        request.extend(self.origin.to_le_bytes());
        request.extend(self.first.to_le_bytes());
        request.extend(self.count.to_le_bytes());
        request.extend((image.len() as u32).to_le_bytes());
        request.extend(image);
        request
    }
}

/// Function, origin, and each part of the map behind its count.
fn map_request(drawn: &Drawn) -> Vec<u8> {
    let mut request = MAP.to_le_bytes().to_vec();
    request.extend(drawn.origin.to_le_bytes());
    for part in [&drawn.image, &drawn.marks, &drawn.entries] {
        request.extend((part.len() as u32).to_le_bytes());
        request.extend(part);
    }
    request
}
