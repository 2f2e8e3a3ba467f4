//! Connections in one process, whose time is counted on and whose frames are lost by number.

use dccp::{
    AcceptOutcome, ArriveError, Cause, Change, Config, Connection, DropCode, Endpoint, Event, Fate,
    Feature, FlowError, ListenError, Listener, MOST_FRAME_BYTES, Phase, Place, SendError,
    StopError, Timer, Transmit,
};
use std::error::Error;
use std::net::{SocketAddr, SocketAddrV4};
use std::time::{Duration, Instant};

const SERVICE: u32 = 42;

fn addresses() -> (SocketAddr, SocketAddr) {
    (
        SocketAddr::from(([10, 0, 0, 1], 40_000)),
        SocketAddr::from(([10, 0, 0, 2], 5_001)),
    )
}

fn client() -> Config {
    let (here, there) = addresses();
    Config::client(here, there, SERVICE, 1_000)
}

fn server() -> Config {
    let (here, there) = addresses();
    Config::server(there, here, SERVICE, 2_000)
}

/// A packet's type (RFC 4340, section 5.1).
fn kind(frame: &Transmit) -> u8 {
    (frame.bytes[8] >> 1) & 15
}

/// A client and a server that are open, and the time.
fn open_pair() -> Result<(Connection, Connection, Instant), Box<dyn Error>> {
    open_pair_with(&server())
}

/// The same with this server.
fn open_pair_with(server: &Config) -> Result<(Connection, Connection, Instant), Box<dyn Error>> {
    let now = Instant::now();
    let mut one = Connection::new(&client())?;
    one.open(now)?;
    let request = one.poll_transmit().ok_or("a Request")?;
    let AcceptOutcome::Connection(mut other) = Connection::accept(server, &request.bytes, now)?
    else {
        return Err("a Request is accepted".into());
    };
    while one.phase() != Phase::Open || other.phase() != Phase::Open {
        let frame = other.poll_transmit().ok_or("a frame of the server")?;
        one.handle_datagram(&frame.bytes, now);
        while let Some(frame) = one.poll_transmit() {
            other.handle_datagram(&frame.bytes, now);
        }
    }
    Ok((one, *other, now))
}

/// Hands all frames of an end to the other, but each twentieth.
fn hand(from: &mut Connection, to: &mut Connection, count: &mut u32, now: Instant) {
    while let Some(frame) = from.poll_transmit() {
        *count += 1;
        if !count.is_multiple_of(20) {
            to.handle_datagram(&frame.bytes, now);
        }
    }
}

/// The data that an end was given, and the code with which it ended.
fn events(connection: &mut Connection, data: &mut Vec<Vec<u8>>) -> Option<u8> {
    let mut ended = None;
    while let Some(event) = connection.poll_event() {
        match event {
            Event::Data(bytes) => data.push(bytes),
            Event::Ended { code } => ended = Some(code),
            other => panic!("{other:?}"),
        }
    }
    ended
}

#[test]
fn a_request_waits_twice_as_long_each_time() -> Result<(), Box<dyn Error>> {
    let mut now = Instant::now();
    let mut one = Connection::new(&client())?;
    one.open(now)?;
    // After three minutes, 53 seconds after the seventh, a client gives up.
    for seconds in [1, 2, 4, 8, 16, 32, 64, 53] {
        assert!(one.poll_transmit().is_some_and(|it| kind(&it) == 0));
        let due = one.poll_timeout().ok_or("a timer")?;
        assert_eq!(due - now, Duration::from_secs(seconds));
        one.handle_timeout(due - Duration::from_millis(1));
        assert_eq!(one.poll_transmit(), None);
        now = due;
        one.handle_timeout(now);
    }
    assert_eq!(one.phase(), Phase::Closed);
    Ok(())
}

/// Four packets, of which the first is lost and the others arrive; RFC 4341, section 5, takes the first for lost once three later ones
/// were reported. A fifth is on its way until a timeout, which takes it for lost.
#[test]
fn what_became_of_packets_is_told() -> Result<(), Box<dyn Error>> {
    let (mut one, mut other, now) = open_pair()?;
    while one.poll_transmit().is_some() {}
    let numbers = [0; 4].map(|_| one.send(b"x", now));
    let numbers: Vec<u64> = numbers.into_iter().collect::<Result<_, _>>()?;
    assert!(one.poll_transmit().is_some());
    while let Some(frame) = one.poll_transmit() {
        other.handle_datagram(&frame.bytes, now);
    }
    assert!(numbers.iter().all(|it| one.fate(*it) == Fate::InFlight));
    // What is not acknowledged at once is after a while.
    other.handle_timeout(now + Duration::from_secs(1));
    while let Some(frame) = other.poll_transmit() {
        one.handle_datagram(&frame.bytes, now);
    }
    let fates: Vec<Fate> = numbers.iter().map(|it| one.fate(*it)).collect();
    assert_eq!(fates[0], Fate::Lost);
    assert_eq!(fates[1..], [Fate::Delivered; 3]);
    assert_eq!((one.statistics().lost, one.in_flight()), (1, 0));
    let fifth = one.send(b"x", now)?;
    assert_eq!(one.fate(fifth), Fate::InFlight);
    assert!(one.handle_timer(Timer::Rto, now));
    assert_eq!((one.fate(fifth), one.statistics().lost), (Fate::Unknown, 2));
    // Nothing more is heard of a sixth once the connection has ended.
    while one.poll_transmit().is_some() {}
    let sixth = one.send(b"x", now)?;
    assert_eq!(one.fate(sixth), Fate::InFlight);
    other.abort(now)?;
    while let Some(frame) = other.poll_transmit() {
        one.handle_datagram(&frame.bytes, now);
    }
    assert_eq!(
        (one.phase(), one.fate(sixth)),
        (Phase::TimeWait, Fate::Unknown)
    );
    Ok(())
}

/// The server holds one packet, which its owner does not read. Of four that come the first is kept, and the others are dropped for want of
/// room (RFC 4340, section 11.7): so the client's window of four is down to one (RFC 4341, section 5.2). Once the owner reads no more, the
/// next that comes is the last that goes out.
#[test]
fn a_client_heeds_what_its_server_drops() -> Result<(), Box<dyn Error>> {
    let (mut one, mut other, now) = open_pair_with(&server().holding(1))?;
    while one.poll_transmit().is_some() {}
    let numbers = [0; 4].map(|_| one.send(b"x", now));
    let numbers: Vec<u64> = numbers.into_iter().collect::<Result<_, _>>()?;
    let later = now + Duration::from_secs(1);
    exchange(&mut one, &mut other, now);
    let fates: Vec<Fate> = numbers.iter().map(|it| one.fate(*it)).collect();
    assert_eq!(fates[0], Fate::Delivered);
    assert_eq!(fates[1..], [Fate::Dropped(DropCode::BufferFull); 3]);
    assert_eq!((one.in_flight(), one.statistics().lost), (0, 0));
    assert_eq!(one.window(), 1);
    let counted = other.statistics();
    let received = (counted.received.data, counted.received.data_bytes);
    assert_eq!((received, counted.unread_dropped), ((4, 4), 3));
    let fifth = one.send(b"x", later)?;
    assert_eq!(one.send(b"x", later), Err(SendError::WindowFull));
    assert!(other.stop_reading());
    exchange(&mut one, &mut other, later);
    assert_eq!(one.fate(fifth), Fate::Dropped(DropCode::NotListening));
    assert_eq!(one.send(b"x", later), Err(SendError::NotListening));
    Ok(())
}

/// All frames of both get through, and what is not acknowledged at once is after a while.
fn exchange(one: &mut Connection, other: &mut Connection, now: Instant) {
    while let Some(frame) = one.poll_transmit() {
        other.handle_datagram(&frame.bytes, now);
    }
    other.handle_timeout(now + Duration::from_secs(1));
    while let Some(frame) = other.poll_transmit() {
        one.handle_datagram(&frame.bytes, now);
    }
}

/// Frames of one length are written one after another, and a shorter one ends them; each is taken by the other end, where its data
/// are in the datagram.
#[test]
fn frames_are_written_into_a_buffer() -> Result<(), Box<dyn Error>> {
    let (mut one, mut other, now) = open_pair()?;
    // What is owed is acknowledged first, so that all that follow are Data, with headers of 16 bytes (RFC 4340, section 5.2).
    one.handle_timer(Timer::Ack, now);
    while one.poll_transmit().is_some() {}
    for length in [100, 100, 100, 7] {
        one.send(&vec![length as u8; length], now)?;
    }
    let mut buffer = [0; 4_096];
    assert_eq!(one.poll_transmit_into(&mut buffer[..115], 64), None);
    let two = one.poll_transmit_into(&mut buffer, 2).ok_or("two")?;
    assert_eq!((two.length, two.segment, two.is_answer), (232, 116, false));
    let rest = one
        .poll_transmit_into(&mut buffer[232..], 64)
        .ok_or("two")?;
    assert_eq!((rest.length, rest.segment), (116 + 23, 116));
    assert_eq!(one.poll_transmit_into(&mut buffer, 64), None);
    let frames = buffer[..232 + 139].chunks(116);
    let lengths: Vec<usize> = frames
        .map(|it| other.receive(it, now).map_or(0, <[u8]>::len))
        .collect();
    assert_eq!(
        (lengths, other.poll_event()),
        (vec![100, 100, 100, 7], None)
    );
    Ok(())
}

/// Data that should fit frames of 180 bytes do, also after losses: every third frame goes one way, and two in three the other, so that Ack
/// Vectors grow.
#[test]
fn data_of_the_longest_length_fit_their_frames() -> Result<(), Box<dyn Error>> {
    const MOST: usize = 180;
    let (mut one, mut other, mut now) = open_pair()?;
    let (mut count, mut least, mut sent) = (0_u32, MOST, 0);
    for _ in 0..400 {
        for every in [3, 2] {
            one.handle_timeout(now);
            let length = one.longest_data(MOST);
            least = least.min(length);
            sent += u32::from(one.send(&vec![0; length], now).is_ok());
            while let Some(frame) = one.poll_transmit() {
                count += 1;
                assert!(![2, 4].contains(&kind(&frame)) || frame.bytes.len() <= MOST);
                if count.is_multiple_of(every) {
                    other.handle_datagram(&frame.bytes, now);
                }
            }
            while other.poll_event().is_some() {}
            std::mem::swap(&mut one, &mut other);
        }
        now += Duration::from_millis(100);
    }
    assert!(100 < sent && least <= MOST - 40, "{sent} {least}");
    Ok(())
}

#[test]
fn a_client_speaks_first_to_a_server_that_never_does() -> Result<(), Box<dyn Error>> {
    let now = Instant::now();
    let mut one = Connection::new(&client())?;
    one.open(now)?;
    let request = one.poll_transmit().ok_or("a Request")?;
    let AcceptOutcome::Connection(mut other) = Connection::accept(&server(), &request.bytes, now)?
    else {
        return Err("a Request is accepted".into());
    };
    let response = other.poll_transmit().ok_or("a Response")?;
    one.handle_datagram(&response.bytes, now);
    let ack = one.poll_transmit().ok_or("an Ack")?;
    other.handle_datagram(&ack.bytes, now);
    // What the server says to the Ack is held back: of other servers nothing would come.
    while other.poll_transmit().is_some() {}
    assert_eq!((one.phase(), other.phase()), (Phase::PartOpen, Phase::Open));
    for word in [b"one", b"two"] {
        one.send(word, now)?;
        let data = one.poll_transmit().ok_or("data")?;
        assert_eq!(kind(&data), 4);
        other.handle_datagram(&data.bytes, now);
    }
    assert_eq!((one.phase(), one.in_flight()), (Phase::PartOpen, 2));
    let mut got = Vec::new();
    assert_eq!(events(&mut other, &mut got), None);
    assert_eq!(got, [b"one", b"two"]);
    let ack = other.poll_transmit().ok_or("an Ack")?;
    one.handle_datagram(&ack.bytes, now);
    assert_eq!((one.phase(), one.in_flight()), (Phase::Open, 0));
    Ok(())
}

#[test]
fn a_stranger_is_answered_by_a_reset_and_makes_no_connection() -> Result<(), Box<dyn Error>> {
    let (mut one, _, now) = open_pair()?;
    one.send(b"stray", now)?;
    let stray = one.poll_transmit().ok_or("data")?;
    let AcceptOutcome::Answer(answer) = Connection::accept(&server(), &stray.bytes, now)? else {
        return Err("it is answered".into());
    };
    assert_eq!((kind(&answer), answer.is_answer), (7, true));
    Ok(())
}

#[test]
fn a_connection_that_was_not_opened_is_not_told_that_it_has_ended() -> Result<(), Box<dyn Error>> {
    let (_, mut other, now) = open_pair()?;
    other.send(b"stray", now)?;
    let stray = other.poll_transmit().ok_or("data")?;
    let mut fresh = Connection::new(&client())?;
    fresh.handle_datagram(&stray.bytes, now);
    let answer = fresh.poll_transmit().ok_or("a Reset")?;
    assert_eq!((kind(&answer), fresh.phase()), (7, Phase::Closed));
    assert_eq!(fresh.poll_event(), None);
    Ok(())
}

#[test]
fn data_come_once_and_a_window_is_settled_where_frames_are_lost() -> Result<(), Box<dyn Error>> {
    let (mut one, mut other, mut now) = open_pair()?;
    let (mut counts, mut got) = ([0; 2], [const { Vec::new() }; 2]);
    let mut sent = [0_u8; 2];
    one.prefer(Feature::SequenceWindow, Place::Here, &[700], now)?;
    for _ in 0..1_000 {
        for (end, sent) in [&mut one, &mut other].into_iter().zip(&mut sent) {
            while *sent < 200 && end.send(&[*sent; 16], now).is_ok() {
                *sent += 1;
            }
        }
        hand(&mut one, &mut other, &mut counts[0], now);
        hand(&mut other, &mut one, &mut counts[1], now);
        assert_eq!(events(&mut one, &mut got[0]), None);
        assert_eq!(events(&mut other, &mut got[1]), None);
        now += Duration::from_millis(20);
        one.handle_timeout(now);
        other.handle_timeout(now);
    }
    assert_eq!((sent, one.in_flight(), other.in_flight()), ([200; 2], 0, 0));
    for data in &got {
        // In the order in which they were sent, since the frames that arrive keep theirs.
        assert!(data.is_sorted_by(|a, b| a < b) && data.iter().all(|it| *it == [it[0]; 16]));
        assert!((180..200).contains(&data.len()), "{}", data.len());
    }
    let held = one.feature(Feature::SequenceWindow, Place::Here);
    assert_eq!((held.value, held.is_stable), (700, true));
    assert_eq!(
        other.feature(Feature::SequenceWindow, Place::There).value,
        700
    );
    Ok(())
}

#[test]
fn a_server_closes_and_both_are_told_once() -> Result<(), Box<dyn Error>> {
    let (mut one, mut other, now) = open_pair()?;
    other.close(now)?;
    let mut none = Vec::new();
    let mut codes = Vec::new();
    for _ in 0..4 {
        hand(&mut other, &mut one, &mut 0, now);
        hand(&mut one, &mut other, &mut 0, now);
        codes.extend(events(&mut one, &mut none));
        codes.extend(events(&mut other, &mut none));
    }
    assert_eq!(codes, [1, 1]);
    // The server's end may go; the client waits for late packets, four minutes (RFC 4340, section 8.3).
    assert_eq!(
        (other.phase(), one.phase()),
        (Phase::Closed, Phase::TimeWait)
    );
    one.handle_timeout(now + Duration::from_secs(240));
    assert_eq!((one.phase(), one.poll_timeout()), (Phase::Closed, None));
    Ok(())
}

/// Clients at several addresses, and a server of at most two peers.
struct Many {
    server: Endpoint,
    clients: Vec<(SocketAddr, Connection)>,
    now: Instant,
}

impl Many {
    fn new(clients: u8) -> Result<Many, Box<dyn Error>> {
        let (_, there) = addresses();
        let now = Instant::now();
        let server = Endpoint::new(2, move |peer| Config::server(there, peer, SERVICE, 2_000));
        let clients = (1..=clients).map(|it| {
            let here = SocketAddr::from(([10, 0, 1, it], 40_000));
            let mut client = Connection::new(&Config::client(here, there, SERVICE, 1_000))?;
            client.open(now)?;
            Ok((here, client))
        });
        let clients = clients.collect::<Result<_, Box<dyn Error>>>()?;
        Ok(Many {
            server,
            clients,
            now,
        })
    }

    /// Frames arrive until there are no more.
    fn exchange(&mut self) -> Result<(), Box<dyn Error>> {
        let mut is_quiet = false;
        while !is_quiet {
            is_quiet = true;
            for (here, client) in &mut self.clients {
                while let Some(frame) = client.poll_transmit() {
                    is_quiet = false;
                    self.server.handle_datagram(*here, &frame.bytes, self.now)?;
                }
            }
            while let Some((peer, frame)) = self.server.poll_transmit() {
                is_quiet = false;
                for (here, client) in &mut self.clients {
                    if *here == peer {
                        client.handle_datagram(&frame.bytes, self.now);
                    }
                }
            }
        }
        Ok(())
    }

    fn phases(&self) -> Vec<Phase> {
        self.clients.iter().map(|(_, it)| it.phase()).collect()
    }
}

#[test]
fn a_server_has_a_connection_for_each_peer_and_no_more_than_it_may() -> Result<(), Box<dyn Error>> {
    let mut many = Many::new(3)?;
    many.exchange()?;
    assert_eq!(
        many.phases(),
        [Phase::Open, Phase::Open, Phase::TimeWait],
        "the third is told that there is no room"
    );
    // Too Busy (RFC 4340, section 5.6).
    let told = many.clients[2].1.poll_event();
    assert_eq!(told, Some(Event::Ended { code: 9 }));
    let peers: Vec<SocketAddr> = many.clients.iter().map(|(here, _)| *here).collect();
    assert_eq!(
        [many.server.poll_accept(), many.server.poll_accept()],
        [Some(peers[0]), Some(peers[1])]
    );
    for (number, (_, client)) in many.clients.iter_mut().take(2).enumerate() {
        client.send(&[number as u8], many.now)?;
    }
    many.exchange()?;
    for (number, peer) in peers.iter().enumerate().take(2) {
        let wanted = (*peer, Event::Data(vec![number as u8]));
        assert_eq!(many.server.poll_event(), Some(wanted));
    }
    // Once one has gone there is room for the third, if it asks anew.
    assert_eq!(
        many.server.call(peers[0], |it| it.abort(many.now)),
        Some(Ok(()))
    );
    assert_eq!(many.server.connections().count(), 1);
    many.clients[2].1 = Connection::new(&Config::client(peers[2], addresses().1, SERVICE, 9_000))?;
    many.clients[2].1.open(many.now)?;
    many.exchange()?;
    assert_eq!(many.phases(), [Phase::TimeWait, Phase::Open, Phase::Open]);
    assert_eq!(many.server.poll_accept(), Some(peers[2]));
    Ok(())
}

/// A client that was killed asks again from its port. By RFC 4340, section 8.5, its old connection's end answers with a Sync, which the client,
/// in REQUEST, answers with a Reset. That end is over then, and the next Request, after a second, opens another.
#[test]
fn a_client_begins_anew_from_its_port() -> Result<(), Box<dyn Error>> {
    let mut many = Many::new(1)?;
    many.exchange()?;
    let peer = many.clients[0].0;
    let again = Config::client(peer, addresses().1, SERVICE, 1 << 40);
    many.clients[0].1 = Connection::new(&again)?;
    many.clients[0].1.open(many.now)?;
    many.exchange()?;
    assert_eq!(many.server.poll_event(), Some((peer, Event::Anew)));
    assert_eq!(many.server.connections().count(), 0);
    assert_eq!(many.phases(), [Phase::Request]);
    many.now += Duration::from_secs(1);
    many.clients[0].1.handle_timeout(many.now);
    many.exchange()?;
    assert_eq!(many.phases(), [Phase::Open]);
    let opened = [(); 3].map(|()| many.server.poll_accept());
    assert_eq!(opened, [Some(peer), Some(peer), None]);
    assert_eq!(many.server.poll_event(), None);
    Ok(())
}

#[test]
fn a_request_with_a_fault_in_its_options_takes_no_place() -> Result<(), Box<dyn Error>> {
    let mut many = Many::new(1)?;
    let peer = many.clients[0].0;
    let (_, there) = addresses();
    let config = Config::client(peer, there, SERVICE, 1_000).plain();
    let mut faulty = Connection::new(&config.insist(Feature::SequenceWindow, Place::Here, &[500]))?;
    faulty.open(many.now)?;
    let mut request = faulty.poll_transmit().ok_or("a Request")?.bytes;
    // Mandatory, and Change L of feature 3 with the value 500 (RFC 4340, sections 5.8.2 and 6.1).
    assert_eq!(request[20..30], [1, 32, 9, 3, 0, 0, 0, 0, 1, 0xf4]);
    // No feature has the number 10. The value is less by as much, so that the checksum still fits.
    request[23] += 7;
    request[29] -= 7;
    many.server.handle_datagram(peer, &request, many.now)?;
    let (to, answer) = many.server.poll_transmit().ok_or("a Reset")?;
    assert_eq!((to, kind(&answer), answer.is_answer), (peer, 7, true));
    // Mandatory Error, with the option and the first two bytes of its data (RFC 4340, section 5.6).
    assert_eq!(answer.bytes[24..28], [6, 32, 10, 0]);
    assert_eq!(many.server.connections().count(), 0);
    assert_eq!(
        (many.server.poll_accept(), many.server.poll_event()),
        (None, None)
    );
    // A Request without a fault finds the server as it was.
    many.exchange()?;
    assert_eq!(many.phases(), [Phase::Open]);
    assert_eq!(many.server.poll_accept(), Some(peer));
    Ok(())
}

#[test]
fn a_server_tells_the_timers_of_all_its_peers() -> Result<(), Box<dyn Error>> {
    let mut many = Many::new(2)?;
    many.exchange()?;
    let due = many.server.poll_timeout().ok_or("a timer")?;
    // The timer Ack waits for 50 milliseconds at first (own; RFC 4340, section 8.1.5, has 200).
    assert_eq!(due - many.now, Duration::from_millis(50));
    many.server.handle_timeout(due - Duration::from_millis(1));
    assert_eq!(many.server.poll_transmit(), None);
    many.server.handle_timeout(due);
    let told: Vec<_> = std::iter::from_fn(|| many.server.poll_transmit()).collect();
    assert_eq!(told.len(), 2);
    assert!(told.iter().all(|(_, frame)| kind(frame) == 3));
    Ok(())
}

/// Frames arrive at a listener and at a client until there are no more.
fn settle(
    server: &mut Listener,
    here: SocketAddr,
    client: &mut Connection,
    now: Instant,
) -> Result<(), ArriveError> {
    loop {
        while let Some(frame) = client.poll_transmit() {
            server.handle_datagram(here, 2_000, &frame.bytes, now)?;
        }
        let Some((peer, frame)) = server.poll_transmit() else {
            return Ok(());
        };
        assert_eq!(peer, here);
        client.handle_datagram(&frame.bytes, now);
    }
}

/// Four packets of a listener, of which the first is lost (RFC 4341, section 5), and what is counted of its peer.
#[test]
fn what_became_of_packets_of_a_listener_is_told() -> Result<(), Box<dyn Error>> {
    let there = SocketAddrV4::new([10, 0, 0, 2].into(), 5_001);
    let peer = SocketAddr::new([10, 0, 1, 1].into(), 40_000);
    let (now, mut server) = (
        Instant::now(),
        Listener::new(&Config::listener(there, SERVICE), 1)?,
    );
    let mut client = Connection::new(&Config::client(peer, there.into(), SERVICE, 1_000))?;
    client.open(now)?;
    settle(&mut server, peer, &mut client, now)?;
    client.send(b"speaks first", now)?;
    settle(&mut server, peer, &mut client, now)?;
    let numbers = [0; 4].map(|_| server.send(peer, b"xyz", now));
    let numbers: Vec<u64> = numbers.into_iter().collect::<Result<_, _>>()?;
    assert!(server.poll_transmit().is_some());
    settle(&mut server, peer, &mut client, now)?;
    client.handle_timeout(now + Duration::from_secs(1));
    settle(&mut server, peer, &mut client, now)?;
    let fates: Vec<Fate> = numbers.iter().map(|it| server.fate(peer, *it)).collect();
    assert_eq!(fates[0], Fate::Lost);
    assert_eq!(fates[1..], [Fate::Delivered; 3]);
    let counted = server.statistics(peer).ok_or("a flow")?;
    assert_eq!((counted.lost, counted.in_flight), (1, 0));
    assert_eq!((counted.sent.data, counted.sent.data_bytes), (4, 12));
    assert_eq!(
        (counted.received.data, counted.received.data_bytes),
        (1, 12)
    );
    assert_eq!(server.longest_data(peer, 2_044), 1_024);
    server.forget(peer, now)?;
    assert_eq!(server.statistics(peer), None);
    assert_eq!(server.fate(peer, numbers[1]), Fate::Unknown);
    Ok(())
}

/// The other way round: of four packets of a listener its peer holds the first, and drops the others. So there is room for one, in place of four,
/// and once that one is reported, the listener is told that there is room again, since its peer reads.
#[test]
fn a_listener_heeds_what_its_peer_drops() -> Result<(), Box<dyn Error>> {
    let there = SocketAddrV4::new([10, 0, 0, 2].into(), 5_001);
    let peer = SocketAddr::new([10, 0, 1, 1].into(), 40_000);
    let (now, mut server) = (
        Instant::now(),
        Listener::new(&Config::listener(there, SERVICE), 1)?,
    );
    let config = Config::client(peer, there.into(), SERVICE, 1_000);
    let mut client = Connection::new(&config.holding(1))?;
    client.open(now)?;
    settle(&mut server, peer, &mut client, now)?;
    client.send(b"speaks first", now)?;
    settle(&mut server, peer, &mut client, now)?;
    let after = |server: &mut Listener, client: &mut Connection, seconds| {
        let later = now + Duration::from_secs(seconds);
        settle(server, peer, client, later)?;
        // What is not acknowledged at once is after a while.
        let later = later + Duration::from_secs(1);
        client.handle_timeout(later);
        settle(server, peer, client, later).map(|()| later)
    };
    for _ in 0..4 {
        server.send(peer, b"x", now)?;
    }
    let later = after(&mut server, &mut client, 1)?;
    assert_eq!((client.held(), client.read()), (1, Some(b"x".to_vec())));
    assert_eq!(
        (server.window(peer), server.in_flight(peer)),
        (Some(1), Some(0))
    );
    while server.poll_change().is_some() {}
    server.send(peer, b"y", later)?;
    assert_eq!(server.send(peer, b"y", later), Err(FlowError::WindowFull));
    let later = after(&mut server, &mut client, 3)?;
    assert_eq!((client.held(), client.read()), (1, Some(b"y".to_vec())));
    assert_eq!(server.poll_change(), Some((peer, Change::Room { user: 0 })));
    server.send(peer, b"z", later)?;
    assert!(client.stop_reading());
    let later = after(&mut server, &mut client, 5)?;
    assert_eq!(server.send(peer, b"z", later), Err(FlowError::NotListening));
    Ok(())
}

/// A flow holds one packet. The first of two waits, and the other is dropped with the Drop Code 2; what waits is read after the connection has
/// ended, and lost with the next one.
#[test]
fn what_waits_at_a_listener_outlives_its_flow() -> Result<(), Box<dyn Error>> {
    let there = SocketAddrV4::new([10, 0, 0, 2].into(), 5_001);
    let peer = SocketAddr::new([10, 0, 1, 1].into(), 40_000);
    let config = Config::listener(there, SERVICE).holding(1);
    let (now, mut server) = (Instant::now(), Listener::new(&config, 2)?);
    assert_eq!(server.stop_reading(peer), Err(StopError::NoFlow));
    for data in [b"a", b"b"] {
        let mut client = Connection::new(&Config::client(peer, there.into(), SERVICE, 1_000))?;
        client.open(now)?;
        settle(&mut server, peer, &mut client, now)?;
        client.send(data, now)?;
        client.send(b"c", now)?;
        settle(&mut server, peer, &mut client, now)?;
        client.close(now)?;
        settle(&mut server, peer, &mut client, now)?;
        let changes = std::iter::from_fn(|| server.poll_change()).map(|(_, it)| it);
        let told: Vec<Change> = changes
            .filter(|it| !matches!(it, Change::Opened { .. } | Change::Room { .. }))
            .collect();
        let ended = Change::Ended {
            cause: Cause::Peer,
            code: 1,
            user: 0,
        };
        let dropped = Change::Dropped { code: 2, user: 0 };
        assert_eq!(told, [Change::Waits { user: 0 }, dropped, ended]);
        assert_eq!((server.phase(peer), server.held(peer)), (None, 1));
    }
    assert_eq!(server.read(peer), Some(b"b".to_vec()));
    assert_eq!((server.held(peer), server.read(peer)), (0, None));
    Ok(())
}

#[test]
fn a_listener_keeps_its_flows_until_they_end() -> Result<(), Box<dyn Error>> {
    let there = SocketAddrV4::new([10, 0, 0, 2].into(), 5_001);
    let peers = [1, 2].map(|it| SocketAddr::new([10, 0, 1, it].into(), 40_000));
    let mut server = Listener::new(&Config::listener(there, SERVICE), 2)?;
    let (now, mut clients) = (Instant::now(), Vec::new());
    for peer in peers {
        let config = Config::client(peer, there.into(), SERVICE, 1_000);
        let mut client = Connection::new(&config)?;
        client.open(now)?;
        settle(&mut server, peer, &mut client, now)?;
        assert_eq!(server.poll_accept(), Some(peer));
        clients.push(client);
    }
    assert_eq!(server.peers(), peers);
    // The timer Ack waits for 50 milliseconds at first, by the rules of the path (own; RFC 4340, section 8.1.5, has 200).
    let due = server.poll_timeout().ok_or("a timer")?;
    assert_eq!(due - now, Duration::from_millis(50));
    server.handle_timeout(due - Duration::from_millis(1));
    assert_eq!(server.poll_transmit(), None);
    server.handle_timeout(due);
    let told: Vec<_> = std::iter::from_fn(|| server.poll_transmit()).collect();
    assert_eq!(told.iter().map(|it| it.0).collect::<Vec<_>>(), peers);
    assert!(told.iter().all(|(_, frame)| kind(frame) == 3));
    assert_eq!(server.flows(), 2);
    while server.poll_change().is_some() {}
    // The server is asked to close, and answers by a Reset: its flow ends with that.
    clients[0].close(due)?;
    settle(&mut server, peers[0], &mut clients[0], due)?;
    let ended = Change::Ended {
        cause: Cause::Peer,
        code: 1,
        user: 0,
    };
    assert_eq!(
        (server.poll_change(), server.phase(peers[0])),
        (Some((peers[0], ended)), None)
    );
    server.abort(peers[1], due)?;
    assert_eq!((server.peers(), server.flows()), (vec![], 0));
    let aborted = Change::Ended {
        cause: Cause::Own,
        code: 2,
        user: 0,
    };
    assert_eq!(
        (server.poll_change(), server.poll_timeout()),
        (Some((peers[1], aborted)), None)
    );
    assert_eq!(server.abort(peers[1], due), Err(FlowError::NoFlow));
    Ok(())
}

#[test]
fn a_listener_has_limits() {
    let there = SocketAddrV4::new([10, 0, 0, 2].into(), 5_001);
    let config = Config::listener(there, SERVICE);
    for most in [0, 1_025] {
        assert_eq!(Listener::new(&config, most).err(), Some(ListenError::Limit));
    }
    let narrow = config.wish(Feature::SequenceWindow, Place::Here, &[31]);
    assert_eq!(Listener::new(&narrow, 1).err(), Some(ListenError::BadList));
}

/// Three packets of five bytes and a Close, which its Reset answers; by the types of RFC 4340, section 5.1.
#[test]
fn what_goes_and_comes_is_counted() -> Result<(), Box<dyn Error>> {
    let (mut one, mut other, now) = open_pair()?;
    let (before, begun) = (one.statistics(), other.statistics());
    assert_eq!((before.sent.others, begun.received.others), (1, 1));
    assert_eq!((begun.sent.others, before.received.others), (1, 1));
    for _ in 0..3 {
        one.send(b"hello", now)?;
    }
    one.close(now)?;
    while let Some(frame) = one.poll_transmit() {
        other.handle_datagram(&frame.bytes, now);
    }
    while let Some(frame) = other.poll_transmit() {
        one.handle_datagram(&frame.bytes, now);
    }
    other.handle_datagram(&[0; MOST_FRAME_BYTES + 1], now);
    other.handle_datagram(b"no packet", now);
    let (last, end) = (one.statistics(), other.statistics());
    assert_eq!((last.sent.data, last.sent.data_bytes), (3, 15));
    assert_eq!((end.received.data, end.received.data_bytes), (3, 15));
    assert_eq!((last.sent.others, end.received.others), (2, 2));
    assert_eq!((end.sent.resets, last.received.resets), (1, 1));
    assert_eq!(
        (end.sent.syncs, end.received.syncs, end.not_taken),
        (0, 0, 2)
    );
    Ok(())
}
