//! Calls of the C port as `calls.c` reads them, with the model's answers.

use drive_model::count::{self, Uncounted};
use drive_model::image;
use drive_model::line;
use drive_model::ramp::{self, Figures, Length, RampRefusal};

/// The letters of all figures of a ramp.
pub const FIGURES: [u8; 6] = *b"cpdsat";

/// No count is so great: `DT_COUNT_REFUSED`.
pub const REFUSED: u64 = 1 << 63;

/// One call of `include/dt.h`.
#[derive(Clone, Debug, PartialEq, Eq)]
pub enum Call {
    Line(Vec<u8>),
    /// Where the fault of a line is.
    Place(Vec<u8>),
    Text(Vec<u8>),
    Image(Vec<u8>),
    /// How many commands a line takes.
    Count(Vec<u8>),
    /// A figure, by its letter, of V, L, endless and N.
    Ramp(u8, [u32; 4]),
}

impl Call {
    /// Adds the call to an input of `calls`.
    pub fn write(&self, input: &mut Vec<u8>) {
        match self {
            Call::Line(bytes) => write_slice(input, b'L', bytes),
            Call::Place(bytes) => write_slice(input, b'P', bytes),
            Call::Text(bytes) => write_slice(input, b'T', bytes),
            Call::Image(bytes) => write_slice(input, b'I', bytes),
            Call::Count(bytes) => write_slice(input, b'N', bytes),
            Call::Ramp(letter, numbers) => {
                input.push(*letter);
                numbers.iter().for_each(|number| input.extend(number.to_le_bytes()));
            }
        }
    }

    /// What the model answers, as 64 bits.
    pub fn answer(&self) -> u64 {
        match self {
            Call::Line(body) => line::check_idle(body).map_or_else(|fault| fault.code as u64, |()| 0),
            Call::Place(body) => line::check_idle(body).err().and_then(|fault| fault.place).map_or(0, u64::from),
            Call::Text(text) => u64::from(!line::is_stored_text(text)),
            Call::Image(bytes) => match bytes[..].try_into() {
                Ok(image) if image::is_good(image) => 0,
                Ok(_) => 2,
                Err(_) => 1,
            },
            Call::Count(body) => count::count(body).unwrap_or_else(|why| REFUSED + number_of(why)),
            &Call::Ramp(letter, [v, l, endless, n]) => {
                let length = if endless == 0 { Length::Finite(n) } else { Length::Endless };
                figure(letter, ramp::figures(v, l, length))
            }
        }
    }
}

/// What the header adds to `DT_COUNT_REFUSED`.
fn number_of(why: Uncounted) -> u64 {
    match why {
        Uncounted::Line(fault) => fault.code as u64,
        Uncounted::Letter => 4,
        Uncounted::Count => 5,
    }
}

fn write_slice(input: &mut Vec<u8>, letter: u8, bytes: &[u8]) {
    input.push(letter);
    input.extend((bytes.len() as u32).to_le_bytes());
    input.extend(bytes);
}

/// A figure of a ramp; of one that is refused the check alone is not 0.
fn figure(letter: u8, figures: Result<Figures, RampRefusal>) -> u64 {
    match (letter, figures) {
        (b'c', Err(RampRefusal::Speed)) => 1,
        (b'c', Err(RampRefusal::Slope)) => 2,
        (b'c', Err(RampRefusal::Length)) => 3,
        (b'c', Ok(_)) | (_, Err(_)) => 0,
        (b'p', Ok(figures)) => figures.peak.into(),
        (b'd', Ok(figures)) => figures.distance,
        (b's', Ok(figures)) => figures.ramp.speed.to_bits(),
        (b'a', Ok(figures)) => figures.ramp.acceleration.to_bits(),
        (_, Ok(figures)) => figures.ramp.time.to_bits(),
    }
}

/// The calls of an input; none where it cannot be read.
pub fn read(mut input: &[u8]) -> Option<Vec<Call>> {
    let mut calls = Vec::new();
    while let Some((&letter, rest)) = input.split_first() {
        input = rest;
        calls.push(match letter {
            b'L' => Call::Line(read_slice(&mut input)?),
            b'P' => Call::Place(read_slice(&mut input)?),
            b'T' => Call::Text(read_slice(&mut input)?),
            b'I' => Call::Image(read_slice(&mut input)?),
            b'N' => Call::Count(read_slice(&mut input)?),
            _ if FIGURES.contains(&letter) => {
                let mut number = || read_number(&mut input);
                Call::Ramp(letter, [number()?, number()?, number()?, number()?])
            }
            _ => return None,
        });
    }
    Some(calls)
}

fn read_number(input: &mut &[u8]) -> Option<u32> {
    let (number, rest) = input.split_first_chunk()?;
    *input = rest;
    Some(u32::from_le_bytes(*number))
}

fn read_slice(input: &mut &[u8]) -> Option<Vec<u8>> {
    let length = read_number(input)? as usize;
    let (slice, rest) = input.split_at_checked(length)?;
    *input = rest;
    Some(slice.to_vec())
}
