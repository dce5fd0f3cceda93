//! Reads a listing from standard input with the proved crates, assembles it from 0, or from 0x8000000 with an argument, and writes its image to
//! standard output.
//! Prints on standard error: the microseconds of assembling, those of reading, laying out and assembling, and the number of lines; or what is refused.
#![tactic(auto, using(thumb_assembler::proofs::Fairness::of_its_text))]

ghost use Rattle.std.specs.Prelude.{◌≡◌, ◌%◌};

use label_layout::layout;
use listing_parser::parse;
use std::env;
use std::io::{Read, Write};
use std::time::Instant;
use thumb_assembler::assemble;

/// Where the image begins.
fn base(rt: &HostRuntime) -> u32
    ensures { result % 2 ≡ 0 }
{
    let Ok(mut words) = env::args(rt) else {
        return 0;
    };
    let _name = words.next();
    if words.next().is_some() {
        0x0800_0000
    } else {
        0
    }
}

fn main(rt: HostRuntime) -> anyhow::Result<()> {
    let mut text = Vec::new(rt.alloc());
    rt.stdin().read_to_end(&mut text)?;
    let base = base(&rt);
    let start = Instant::now(&rt)?;
    match parse(rt.alloc(), &text) {
        Err(error) => eprintln!(rt; "refused {error}")?,
        Ok(listing) => match layout(rt.alloc(), &listing, base) {
            Err(error) => eprintln!(rt; "refused {error}")?,
            Ok(laid) => {
                let begun = Instant::now(&rt)?;
                match assemble(rt.alloc(), &listing, &laid) {
                    Err(error) => eprintln!(rt; "refused {error}")?,
                    Ok(image) => {
                        let assembling = begun.elapsed(&rt)?.as_micros();
                        let all = start.elapsed(&rt)?.as_micros();
                        rt.stdout().write_all(&image)?;
                        eprintln!(rt; "{assembling} {all} {}", listing.lines().len())?;
                    }
                }
            }
        },
    }
    Ok(())
}
