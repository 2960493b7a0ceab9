//! A stand-in for `clean`, the reference itself, with which the harness is tried.

fn main() -> std::io::Result<()> {
    harness::input::stand_in(reference::clean::output)
}
