//! Peers that a listener cannot name by where their datagrams come from, in one process: of IPv6, and through a router that translates
//! addresses.

use dccp::{Cause, Change, Config, Connection, Event, Listener, Phase};
use std::collections::BTreeMap;
use std::error::Error;
use std::net::{Ipv6Addr, SocketAddr, SocketAddrV4};
use std::time::Instant;

type Outcome = Result<(), Box<dyn Error>>;

const SERVICE: u32 = 42;

fn here() -> SocketAddrV4 {
    SocketAddrV4::new([192, 0, 2, 2].into(), 5_001)
}

fn here_v6() -> Ipv6Addr {
    Ipv6Addr::new(0x2001, 0xdb8, 0, 0, 0, 0, 0, 2)
}

/// A router: each inner address has its own outer port.
#[derive(Default)]
struct Router {
    outer: BTreeMap<SocketAddr, SocketAddr>,
}

impl Router {
    fn translate(&mut self, inner: SocketAddr) -> SocketAddr {
        let next = 61_000 + self.outer.len() as u16;
        *self
            .outer
            .entry(inner)
            .or_insert_with(|| SocketAddr::from(([203, 0, 113, 9], next)))
    }
}

/// Frames go to and fro until there are no more; the server sees clients where the translation says.
fn exchange(
    server: &mut Listener,
    clients: &mut [(SocketAddr, Connection)],
    mut translate: impl FnMut(SocketAddr) -> SocketAddr,
    now: Instant,
) -> Outcome {
    let mut is_quiet = false;
    while !is_quiet {
        is_quiet = true;
        for (own, client) in clients.iter_mut() {
            while let Some(frame) = client.poll_transmit() {
                is_quiet = false;
                server.handle_datagram(translate(*own), 2_000, &frame.bytes, now)?;
            }
        }
        while let Some((peer, frame)) = server.poll_transmit() {
            is_quiet = false;
            for (own, client) in clients.iter_mut() {
                if translate(*own) == peer {
                    client.handle_datagram(&frame.bytes, now);
                }
            }
        }
    }
    Ok(())
}

/// Each peer sends its number, and gets it back.
fn echo(
    server: &mut Listener,
    clients: &mut [(SocketAddr, Connection)],
    mut translate: impl FnMut(SocketAddr) -> SocketAddr,
    now: Instant,
) -> Outcome {
    for (number, (_, client)) in clients.iter_mut().enumerate() {
        client.send(&[number as u8], now)?;
    }
    exchange(server, clients, &mut translate, now)?;
    while let Some((peer, change)) = server.poll_change() {
        if let Change::Data { data, .. } = change {
            server.send(peer, &data, now)?;
        }
    }
    exchange(server, clients, &mut translate, now)?;
    for (number, (_, client)) in clients.iter_mut().enumerate() {
        assert_eq!(client.poll_event(), Some(Event::Data(vec![number as u8])));
    }
    Ok(())
}

#[test]
fn one_listener_serves_both_families() -> Outcome {
    let now = Instant::now();
    let mut server = Listener::new(&Config::listener(here(), SERVICE).also_at(here_v6()), 8)?;
    let there_v6 = SocketAddr::new(here_v6().into(), here().port());
    let mut clients = Vec::new();
    // Two of IPv6 have one port, and addresses of one sum.
    for (own, there) in [
        ("[2001:db8::1]:40000", there_v6),
        ("[2001:db8:1::]:40000", there_v6),
        ("192.0.2.1:40000", SocketAddr::from(here())),
    ] {
        let own = own.parse()?;
        let mut client = Connection::new(&Config::client(own, there, SERVICE, 1_000))?;
        client.open(now)?;
        clients.push((own, client));
    }
    exchange(&mut server, &mut clients, |it| it, now)?;
    assert!(clients.iter().all(|it| it.1.phase() == Phase::Open));
    echo(&mut server, &mut clients, |it| it, now)?;
    let mut peers = server.peers();
    peers.sort();
    let mut wanted: Vec<_> = clients.iter().map(|it| it.0).collect();
    wanted.sort();
    assert_eq!(peers, wanted);
    for own in &wanted {
        assert_eq!(server.phase(*own), Some(Phase::Open));
        server.set_user(*own, u64::from(own.is_ipv6()))?;
    }
    // One closes, and is known by where it comes from, with its number.
    while server.poll_change().is_some() {}
    clients[0].1.close(now)?;
    exchange(&mut server, &mut clients, |it| it, now)?;
    let (cause, code, user) = (Cause::Peer, 1, 1);
    assert_eq!(
        server.poll_change(),
        Some((clients[0].0, Change::Ended { cause, code, user }))
    );
    Ok(())
}

#[test]
fn a_listener_serves_peers_through_a_router_that_translates() -> Outcome {
    let now = Instant::now();
    let zero = SocketAddr::from(([0, 0, 0, 0], 0));
    let config = Config::listener(here(), SERVICE).agreed(zero, zero);
    let (mut server, mut router) = (Listener::new(&config, 64)?, Router::default());
    let mut clients = Vec::new();
    for last in 1..=40 {
        let own = SocketAddr::from(([10, 0, 0, last], 40_000));
        let mut client = Connection::new(&Config::client(zero, zero, SERVICE, 1_000))?;
        client.open(now)?;
        clients.push((own, client));
    }
    exchange(&mut server, &mut clients, |it| router.translate(it), now)?;
    assert!(clients.iter().all(|it| it.1.phase() == Phase::Open));
    echo(&mut server, &mut clients, |it| router.translate(it), now)?;
    assert_eq!(server.peers().len(), 40);
    assert!(
        server
            .peers()
            .iter()
            .all(|it| it.ip() == router.translate(clients[0].0).ip())
    );
    // A client that names its own addresses is not heard.
    let own = SocketAddr::from(([10, 0, 0, 99], 40_000));
    let mut other = Connection::new(&Config::client(own, here().into(), SERVICE, 1_000))?;
    other.open(now)?;
    let request = other.poll_transmit().ok_or("a Request")?;
    server.handle_datagram(router.translate(own), 2_000, &request.bytes, now)?;
    assert_eq!(server.poll_transmit(), None);
    Ok(())
}
