mod turn;
pub use turn::past_limit;
