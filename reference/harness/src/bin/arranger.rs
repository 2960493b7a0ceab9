//! Generated jobs, shuffled and damaged ones, through `arrange`.

fn main() {
    harness::stored::ARRANGE.main()
}
