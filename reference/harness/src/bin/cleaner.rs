//! Generated jobs, dirty and damaged ones, through `clean`.

fn main() {
    harness::stored::CLEAN.main()
}
