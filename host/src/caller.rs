//! Makes the calls of the comparison: with the feature `linked` in this process, else in a child process behind a bridge.

#[cfg(not(feature = "linked"))]
pub use bridge::Caller;
#[cfg(feature = "linked")]
pub use linked::Caller;

#[cfg(feature = "linked")]
mod linked {
    use crate::arguments::Map;
    use crate::asked::Asked;
    use crate::exported::{z80_map_check, z80_record, z80_row, z80_text};
    use crate::function::Function;
    use crate::laid::Laid;
    use crate::outcome::{Call, Lent, Outcome};
    use crate::runs::Run;
    use std::io;

    /// Checks a map; with it whether the map was altered.
    fn checked(mode: u8, map: &Map, address: &mut u32, altered: &mut bool) -> u8 {
        let laid = Laid::out(map);
        let number = z80_map_check(mode, &laid.map(), address);
        *altered = laid != Laid::out(map);
        number
    }

    pub struct Caller;

    impl Caller {
        /// No words are needed, and no calls ahead of time.
        pub fn start(_: &[String], _: impl FnOnce() -> Run) -> io::Result<Caller> {
            Ok(Caller)
        }

        pub fn call(&mut self, call: &Call) -> io::Result<Outcome> {
            let mut lent = call.before;
            let Lent {
                count,
                passed,
                address,
                missing,
                buffer,
            } = &mut lent;
            let out = &mut buffer[..call.room];
            let (mode, mut map_altered) = (call.mode, false);
            let number = match call.asked {
                Asked::Bytes(Function::Record, ins) => z80_record(mode, ins, out, missing),
                Asked::Bytes(Function::Text(choice), ins) => {
                    z80_text(mode, *choice, ins, out, count, missing)
                }
                Asked::Row(place) => z80_row(mode, place, out, count, passed),
                Asked::Map(map) => checked(mode, map, address, &mut map_altered),
            };
            Ok(Outcome {
                number,
                lent,
                map_altered,
            })
        }

        pub fn finish(self) -> io::Result<()> {
            Ok(())
        }
    }
}

#[cfg(not(feature = "linked"))]
mod bridge {
    use crate::outcome::{Call, Lent, Outcome};
    use crate::piped::Piped;
    use crate::runs::Run;
    use std::io;

    /// The bridge, with the outcomes of all calls that it was asked for to come from it.
    pub struct Caller {
        bridge: Piped,
    }

    impl Caller {
        /// The words are the command that runs the bridge.
        pub fn start<F>(words: &[String], calls: F) -> io::Result<Caller>
        where
            F: FnOnce() -> Run + Send + 'static,
        {
            let bridge = Piped::asked(words, || calls().map(|calls| calls.request()))?;
            Ok(Caller { bridge })
        }

        /// The outcome of the next call asked for, which is the one given: number, whether a map was altered, count, bytes
        /// passed, address and missing bytes, low byte first, buffer.
        pub fn call(&mut self, _: &Call) -> io::Result<Outcome> {
            let [number, altered] = self.bridge.read()?;
            let lent = Lent {
                count: u32::from_le_bytes(self.bridge.read()?),
                passed: u32::from_le_bytes(self.bridge.read()?),
                address: u32::from_le_bytes(self.bridge.read()?),
                missing: u32::from_le_bytes(self.bridge.read()?),
                buffer: self.bridge.read()?,
            };
            Ok(Outcome {
                number,
                lent,
                map_altered: altered != 0,
            })
        }

        pub fn finish(self) -> io::Result<()> {
            self.bridge.finish()
        }
    }
}
