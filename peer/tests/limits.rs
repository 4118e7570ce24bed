//! Every limit, met exactly and passed by one.

use peer::edges::{answer, edges};
use peer::trial::{run, Peer};

#[test]
fn each_limit_is_where_the_papers_have_it() {
    for edge in edges() {
        let sample = (edge.sample)();
        for (call, rooms, wanted) in edge.asked {
            assert_eq!(
                answer(&run(&Peer, call, &sample, rooms)),
                wanted,
                "{}, {call:?}",
                edge.name
            );
        }
    }
}
