//! Prints the table of `bench/README.md` that says how many interrupts a megabyte takes.

mod counting;

fn main() {
    for row in counting::rows() {
        println!("{row}");
    }
}
