//! Puts counters in the places of malloc, calloc, realloc and free.
fn main() {
    println!("cargo:rustc-link-arg=-Wl,--wrap=malloc,--wrap=calloc,--wrap=realloc,--wrap=free");
}
