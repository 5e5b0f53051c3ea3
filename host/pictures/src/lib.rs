//! Pictures of the signal and of the code. Every point and every subcarrier is an answer of the core; bits on their way are the
//! second program's, drawn where the core's points agree with them; the layers are those of crates.txt.

mod chain;
mod constellation;
mod crates_list;
mod frame;
mod label_points;
mod labels;
mod layers;
mod modulations;
mod panel;
mod subcarriers;
mod svg;
mod worked;

use std::error::Error;

/// A picture and the name of its file.
pub struct Picture {
    pub file: &'static str,
    pub svg: String,
}

/// All pictures by the names of their files, the same bytes at every call.
pub fn draw_all() -> Result<[Picture; 6], Box<dyn Error>> {
    Ok([
        Picture {
            file: "constellation.svg",
            svg: constellation::draw()?,
        },
        Picture {
            file: "labels.svg",
            svg: label_points::draw()?,
        },
        Picture {
            file: "layers.svg",
            svg: layers::draw()?,
        },
        Picture {
            file: "modulations.svg",
            svg: modulations::draw()?,
        },
        Picture {
            file: "steps.svg",
            svg: chain::draw()?,
        },
        Picture {
            file: "subcarriers.svg",
            svg: subcarriers::draw()?,
        },
    ])
}
