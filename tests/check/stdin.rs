//! check_stdin: reads at most 65,536 bytes from standard input and prints the library's check of them, as the
//! program sfs_check does. With it the examples are put to the library where that program is not at hand.

mod library;

use std::io::Read;

fn main() {
    let mut image = Vec::new();
    if let Err(error) = std::io::stdin().take(65_536).read_to_end(&mut image) {
        eprintln!("check_stdin: {}", error);
        std::process::exit(1);
    }
    let mut scratch = vec![u32::MAX; 4 * 16];
    let (status, blocks, unused) = library::check(&image, &mut scratch);
    println!("status {} blocks {} free {}", status, blocks, unused);
}
