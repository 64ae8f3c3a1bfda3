//! The check of the peer finds what makes a record ill formed.

use peer::net::{MARK, OUT};
use peer::open::open;
use peer::{Flight, Net, Outcome, Row};

const D1: &[u8] = &[3, 0, 3, 1, 2, 1, 0, 2, 0];

fn some() -> Net<Row> {
    let mut net: Net<Row> = open(D1).ok().expect("a good header").0;
    assert_eq!(net.apply::<true>(1, 1), Outcome::Lane(0, 0));
    assert_eq!(net.apply::<true>(1, 2), Outcome::Lane(1, 4));
    net
}

#[test]
fn each_spoilt_field_is_refused() {
    let spoils: [(&str, fn(&mut Net<Row>)); 16] = [
        ("no node", |net| net.nodes = 0),
        ("65 nodes", |net| net.nodes = 65),
        ("destination", |net| net.destination = 3),
        ("links", |net| net.links = 257),
        ("node out of range", |net| net.node[257] = 3),
        ("self link", |net| net.node[1] = net.node[257]),
        ("marked Out end", |net| net.flags[0] |= MARK),
        ("marked end of a dead link", |net| {
            assert_eq!(net.apply::<true>(4, 2), Outcome::Failed);
            net.flags[258] |= MARK;
        }),
        ("turns", |net| net.turns[2] = 3),
        ("events", |net| net.events = 1_000_001),
        ("admitted", |net| net.admitted += 1),
        ("delivered", |net| net.delivered += 1),
        ("events below admitted", |net| net.events = 1),
        ("lane out of range", |net| net.flight.push(6, 0, false)),
        ("packet's number", |net| {
            net.flight.push(0, 3, false);
            net.admitted += 1;
            net.events += 1;
        }),
        ("packet on a dead link", |net| {
            assert_eq!(net.apply::<true>(4, 2), Outcome::Failed);
            net.flight.push(4, 0, false);
            net.admitted += 1;
        }),
    ];
    for (name, spoil) in spoils {
        let mut net = some();
        spoil(&mut net);
        assert_eq!(net.apply::<true>(1, 0), Outcome::Refused(1), "{name}");
    }
    assert_eq!(some().apply::<true>(1, 0), Outcome::Delivered(2));
    assert_eq!(some().flags[0] & OUT, OUT);
}
