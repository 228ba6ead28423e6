//! The independent second program of the timing desk: what document 01 and request A1 say, found by listing whole.
//!
//! It exists to disagree. The proved code works with sets, rows built on rows, and closed forms; nothing of that is
//! here. Every answer below comes from the document's own sentence, tried on everything there is to try:
//!
//! - `form`: a record's faults are rules in a table, in the document's order, each asked by itself; the writer lays
//!   out bytes and has them judged;
//! - `counter`: the loop is stepped; a long one is searched by halving, and the definition is asked at what was found;
//! - `conflict`: two conditions are tried on the whole numbers near both constants; a route's conflicts are looked for
//!   among all pairs of its events; the list comes from every path, listed whole;
//! - `ways`: all ways from a block to the end, one after the other, as an odometer turns: no recursion, no pruning,
//!   nothing remembered from one way to the next;
//! - `routes` and `rows`: routes, beginnings and tails are such ways, each judged alone; of all that are conflict-free
//!   the most and the least that they weigh, and then the first of that weight;
//! - `calls`: the desk's calls on bytes with lent memory, with their refusals in order; `report`: the program's text.
//!
//! Listing takes time that doubles with each branch. It is meant for small bodies; `ways::ways_to_list` says
//! beforehand how much there is, and `calls` gives no answer (rather than a guess) past `calls::MOST_WAYS`.
//!
//! `generate` makes inputs from a seed, `made` bodies at limits, `example` has the trainer's body; `shapes` says what a body
//! has that a run is to meet, `tally` counts what passed. The comparison drivers share `served` and `memory`, the questions
//! that the proved code is asked; `second`, what the second program answers to the same; and `driver`, the run.

pub mod calls;
pub mod conflict;
pub mod counter;
pub mod driver;
pub mod example;
pub mod form;
pub mod generate;
pub mod made;
pub mod memory;
pub mod random;
pub mod report;
pub mod routes;
pub mod rows;
pub mod second;
pub mod served;
pub mod shapes;
pub mod tally;
pub mod ways;
