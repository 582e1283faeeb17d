//! The page, the draw, the same verdict and the route made for speed, for the benchmark alone: digits
//! written one by one, nothing on the heap, actors asked again only where something can have changed, and
//! the pair that ends the search for one in opposite orders found without comparing all before it. They
//! answer as [`crate::page()`], [`crate::draw()`], [`crate::same()`], [`crate::prefix()`] and
//! [`crate::route()`] do.

mod draw;
mod page;
mod same;
mod steps;

pub use draw::draw;
pub use page::page;
pub use same::{prefix, route, same};
