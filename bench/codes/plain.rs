// The same in plain Rust, appended to the crates' code without contracts. codes.sh appends sum.rs.
use thumb_table::{Code, decode, encode};

fn main() {
    println!("{}", sum_of_codes());
}
