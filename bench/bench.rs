//! Our functions and quotes beside the Rust's in one process, and what they take of the machine.
//! Columns: ns a call of ours, of the Rust with the stand-ins of docs/REQUIREMENTS.md, of the Rust with the platform's exp and ln, and two
//! ratios. Of ladders: ns a place by a call for the ladder, by a call for each quote, by the Rust, and two ratios. Of sheets: ns a quote by a
//! call for each line of their text, by a call for each quote, by the Rust, and two ratios.
//!
//! usage: bench ROOT [PICTURE.svg]     ROOT: the folder with crates/exports/out/libexports.a and crates/sheet/out/sheet
//!        bench --run ours|rust|platform      desk quotes of one of them alone, for callgrind
//!        bench --run discounted              discounted desk quotes of ours
//!        bench --run window                  desk quotes through the cable window
//!        bench --run ladder|quotes           desk ladders, by calls for ladders or by calls for quotes

mod footprint;
mod ladder;
mod ours;
mod plot;
mod sheet;
mod timing;

use std::path::Path;

fn main() {
    let words: Vec<String> = std::env::args().skip(1).collect();
    match words.iter().map(String::as_str).collect::<Vec<_>>()[..] {
        ["--run", which] => footprint::run(which),
        [root] => report(Path::new(root)),
        [root, picture] => {
            report(Path::new(root));
            std::fs::write(picture, plot::svg()).expect("the picture can be written");
        }
        _ => {
            eprintln!("usage: bench ROOT [PICTURE.svg]");
            std::process::exit(2)
        }
    }
}

fn report(root: &Path) {
    timing::table();
    println!();
    ladder::table();
    println!();
    sheet::table();
    println!();
    footprint::table(root);
}
