//! What the test programs share: servers, generators, the independent view of what is shown.

pub mod aliases;
pub mod cases;
pub mod damage;
pub mod explicit;
pub mod lent;
pub mod limits;
pub mod pairs;
pub mod random;
pub mod report;
pub mod requests;
pub mod server;
pub mod shown;
pub mod values;
pub mod world;
pub mod written;
