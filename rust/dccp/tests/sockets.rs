//! Sockets over the system's UDP on this machine: what a client and a server see, and how connections end.

use dccp::net::{End, Error, Listener, Options, Sender, Socket};
use dccp::{
    AcceptOutcome, Config, Connection, DropCode, Event, Fate, Feature, MOST_DATA_BYTES, Phase,
    Place,
};
use std::net::{SocketAddr, UdpSocket};
use std::sync::Arc;
use std::sync::atomic::{AtomicBool, Ordering};
use std::thread;
use std::time::{Duration, Instant};

const SERVICE: u32 = 42;
const LONG: Duration = Duration::from_secs(20);

type Outcome = Result<(), Box<dyn std::error::Error>>;

/// A client and a server's end of one connection over this address of the machine.
fn pair(options: &Options, address: &str) -> Result<(Socket, Socket), Error> {
    let listener = options.bind(address, &[7, SERVICE])?;
    let client = options.connect(listener.local_addr()?, SERVICE)?;
    // The client speaks first, so that the server knows that it is heard.
    client.send(b"first")?;
    let server = listener.accept_timeout(LONG)?;
    assert_eq!(server.recv_timeout(LONG)?, b"first");
    Ok((client, server))
}

/// A client of this address without a socket of the crate, so that it can be gone without a word.
struct Bare {
    udp: UdpSocket,
    connection: Connection,
}

impl Bare {
    /// It asks for the service by a packet with this number.
    fn ask(udp: UdpSocket, first: u64) -> Result<Bare, Box<dyn std::error::Error>> {
        udp.set_read_timeout(Some(Duration::from_millis(5)))?;
        let config = Config::client(udp.local_addr()?, udp.peer_addr()?, SERVICE, first);
        let mut connection = Connection::new(&config)?;
        connection.open(Instant::now())?;
        Ok(Bare { udp, connection })
    }

    /// Sends what is due, and hears what has come.
    fn turn(&mut self) {
        self.connection.handle_timeout(Instant::now());
        while let Some(frame) = self.connection.poll_transmit() {
            let _ = self.udp.send(&frame.bytes);
        }
        let mut room = [0; 2_048];
        if let Ok(length) = self.udp.recv(&mut room) {
            self.connection
                .handle_datagram(&room[..length], Instant::now());
        }
    }

    /// Sends data, once it is open.
    fn speak(&mut self, data: &[u8]) {
        let begun = Instant::now();
        while self.connection.send(data, Instant::now()).is_err() {
            assert!(begun.elapsed() < LONG, "{:?}", self.connection.poll_event());
            self.turn();
        }
        self.turn();
    }
}

/// The socket of the system of a client at this address.
fn bare_socket(own: &str, listener: &Listener) -> Result<UdpSocket, Box<dyn std::error::Error>> {
    let udp = UdpSocket::bind(own)?;
    udp.connect(listener.local_addr()?)?;
    Ok(udp)
}

#[test]
fn packets_come_whole_and_once() -> Outcome {
    let (client, server) = pair(&Options::new(), "127.0.0.1:0")?;
    let (sender, receiver) = client.split();
    let sending = thread::spawn(move || -> Result<Sender, Error> {
        for number in 0..5_000_u32 {
            sender.send_timeout(&number.to_be_bytes(), LONG)?;
        }
        sender.send_timeout(b"last", LONG)?;
        Ok(sender)
    });
    let mut seen = vec![false; 5_000];
    // The last one may be lost; then nothing more comes.
    while let Ok(data) = server.recv_timeout(Duration::from_secs(2)) {
        match <[u8; 4]>::try_from(&data[..])?.map(u32::from) {
            [108, 97, 115, 116] => break,
            bytes => {
                let number = bytes.iter().fold(0, |all, it| all * 256 + it) as usize;
                assert!(
                    !std::mem::replace(&mut seen[number], true),
                    "twice: {number}"
                );
            }
        }
    }
    let sender = sending.join().unwrap()?;
    assert!(4_000 < seen.iter().filter(|it| **it).count());
    assert_eq!(sender.statistics().sent.data, 5_002);
    assert!(matches!(receiver.try_recv(), Err(Error::WouldBlock)));
    // The halves are of one connection.
    assert_eq!(sender.peer_addr(), receiver.peer_addr());
    assert_eq!(sender.feature(Feature::Ccid, Place::Here).value, 2);
    assert_eq!((sender.end(), sender.longest_data(24)), (None, 0));
    receiver.abort();
    assert_eq!(sender.end(), Some(End::Aborted));
    Ok(())
}

#[test]
fn batches_go_both_ways() -> Outcome {
    let (client, server) = pair(&Options::new(), "127.0.0.1:0")?;
    let packets = vec![[9_u8; MOST_DATA_BYTES]; 100];
    let mut numbers = Vec::new();
    let mut found = vec![b"old".to_vec()];
    while numbers.len() < packets.len() {
        let sent = client.send_batch(&packets[numbers.len()..])?;
        numbers.extend(sent.numbers());
        assert_eq!(server.recv_batch(&mut found)?, found.len());
        assert!(found.iter().all(|it| it.len() == MOST_DATA_BYTES));
    }
    assert!(client.send_batch::<[u8; 1]>(&[])?.numbers().eq([]));
    // Each packet came, so the fate of each number is that.
    let begun = Instant::now();
    while client.statistics().in_flight != 0 && begun.elapsed() < LONG {
        thread::sleep(Duration::from_millis(5));
    }
    assert!(numbers.iter().all(|it| client.fate(*it) == Fate::Delivered));
    assert_eq!(client.statistics().sent.data, 101);
    server.send(b"back")?;
    assert_eq!(client.recv_timeout(LONG)?, b"back");
    Ok(())
}

#[test]
fn a_close_is_heard_at_both_ends() -> Outcome {
    let (client, server) = pair(&Options::new(), "127.0.0.1:0")?;
    let end = client.close(LONG)?;
    assert!(end.is_orderly(), "{end}");
    match server.recv_timeout(LONG) {
        Err(Error::Ended(end)) => assert!(end.is_orderly(), "{end}"),
        other => panic!("{other:?}"),
    }
    assert!(matches!(server.send(b"late"), Err(Error::Ended(_))));
    Ok(())
}

#[test]
fn what_is_dropped_closes_in_the_background() -> Outcome {
    let (client, server) = pair(&Options::new(), "127.0.0.1:0")?;
    server.send(b"word")?;
    drop(server);
    assert_eq!(client.recv_timeout(LONG)?, b"word");
    assert!(matches!(client.recv_timeout(LONG), Err(Error::Ended(end)) if end.is_orderly()));
    Ok(())
}

#[test]
fn sockets_of_ipv6_do_the_same() -> Outcome {
    if UdpSocket::bind("[::1]:0").is_err() {
        return Ok(());
    }
    let (client, server) = pair(&Options::new(), "[::1]:0")?;
    server.send(b"six")?;
    assert_eq!(client.recv_timeout(LONG)?, b"six");
    Ok(())
}

#[test]
fn a_listener_on_any_address_serves() -> Outcome {
    let listener = Listener::bind("0.0.0.0:0", &[SERVICE])?;
    let port = listener.local_addr()?.port();
    let client = Socket::connect(("127.0.0.1", port), SERVICE)?;
    client.send(b"first")?;
    assert_eq!(listener.accept_timeout(LONG)?.recv_timeout(LONG)?, b"first");
    Ok(())
}

/// RFC 4340, section 5.6: code 8 is Bad Service Code.
#[test]
fn a_service_that_is_not_served_is_refused() -> Outcome {
    let listener = Listener::bind("127.0.0.1:0", &[SERVICE])?;
    let refused = Socket::connect(listener.local_addr()?, 43);
    assert!(
        matches!(refused, Err(Error::Ended(End::Reset { code: 8 }))),
        "{refused:?}"
    );
    Ok(())
}

#[test]
fn who_is_not_answered_gives_up_in_time() -> Outcome {
    let silent = UdpSocket::bind("127.0.0.1:0")?;
    let begun = Instant::now();
    let options = Options::new().patience(Duration::from_millis(300));
    let refused = options.connect(silent.local_addr()?, SERVICE);
    assert!(matches!(refused, Err(Error::TimedOut)), "{refused:?}");
    assert!(begun.elapsed() < Duration::from_secs(5));
    Ok(())
}

#[test]
fn calls_that_do_not_wait_say_so() -> Outcome {
    let (client, server) = pair(&Options::new(), "127.0.0.1:0")?;
    assert!(matches!(server.try_recv(), Err(Error::WouldBlock)));
    assert!(matches!(
        server.recv_timeout(Duration::from_millis(20)),
        Err(Error::TimedOut)
    ));
    assert!(matches!(
        client.send(&[0; MOST_DATA_BYTES + 1]),
        Err(Error::TooLong)
    ));
    // The fixed window of CCID 248 is eight packets: the ninth waits for an answer.
    Ok(())
}

#[test]
fn features_are_asked_for() -> Outcome {
    let options = Options::new().offer(Feature::SequenceWindow, Place::Here, &[700]);
    let (client, server) = pair(&options, "127.0.0.1:0")?;
    assert_eq!(
        client.feature(Feature::SequenceWindow, Place::Here).value,
        700
    );
    assert_eq!(
        server.feature(Feature::SequenceWindow, Place::There).value,
        700
    );
    server.prefer(Feature::SequenceWindow, Place::Here, &[900])?;
    let begun = Instant::now();
    while client.feature(Feature::SequenceWindow, Place::There).value != 900 {
        assert!(begun.elapsed() < LONG);
        thread::sleep(Duration::from_millis(5));
    }
    Ok(())
}

/// Two clients of one listener do not hear each other's data.
#[test]
fn each_client_has_its_connection() -> Outcome {
    let listener = Listener::bind("127.0.0.1:0", &[SERVICE])?;
    let address = listener.local_addr()?;
    let serving = thread::spawn(move || -> Result<(), Error> {
        for _ in 0..2 {
            let socket = listener.accept_timeout(LONG)?;
            thread::spawn(move || {
                while let Ok(data) = socket.recv() {
                    let _ = socket.send(&data);
                }
            });
        }
        Ok(())
    });
    let clients = [
        Socket::connect(address, SERVICE)?,
        Socket::connect(address, SERVICE)?,
    ];
    for (word, client) in [b"one", b"two"].iter().zip(&clients) {
        client.send(*word)?;
    }
    for (word, client) in [b"one", b"two"].iter().zip(&clients) {
        assert_eq!(client.recv_timeout(LONG)?, *word);
    }
    serving.join().unwrap()?;
    Ok(())
}

/// A client that asks and is silent has the one place; another gets it when it asks again.
#[test]
fn who_does_not_open_makes_room() -> Outcome {
    let options = Options::new().most_connections(1);
    let listener = options.bind("127.0.0.1:0", &[SERVICE])?;
    let address = listener.local_addr()?;
    let silent = UdpSocket::bind("127.0.0.1:0")?;
    let config = Config::client(silent.local_addr()?, address, SERVICE, 1_000);
    let mut asking = Connection::new(&config)?;
    asking.open(Instant::now())?;
    let request = asking.poll_transmit().ok_or("a Request")?;
    silent.send_to(&request.bytes, address)?;
    silent.recv(&mut [0; 2_048])?;
    let client = options.connect(address, SERVICE)?;
    client.send(b"first")?;
    let server = listener.accept_timeout(LONG)?;
    assert_eq!(server.recv_timeout(LONG)?, b"first");
    // One that is open keeps its place, and others are told so: 9 is Too Busy (RFC 4340, section 5.6).
    let late = options.connect(address, SERVICE);
    assert!(
        matches!(late, Err(Error::Ended(End::Reset { code: 9 }))),
        "{late:?}"
    );
    Ok(())
}

/// Where more than half of the places are taken by Requests alone, others are answered by Init Cookies.
#[test]
fn a_crowd_that_only_asks_keeps_nobody_out() -> Outcome {
    let listener = Options::new()
        .most_connections(4)
        .bind("127.0.0.1:0", &[SERVICE])?;
    let address = listener.local_addr()?;
    let mut silent = Vec::new();
    for _ in 0..10 {
        let socket = UdpSocket::bind("127.0.0.1:0")?;
        let config = Config::client(socket.local_addr()?, address, SERVICE, 1_000);
        let mut asking = Connection::new(&config)?;
        asking.open(Instant::now())?;
        let request = asking.poll_transmit().ok_or("a Request")?;
        socket.send_to(&request.bytes, address)?;
        // Each is answered by a Response.
        let mut room = [0; 2_048];
        socket.recv(&mut room)?;
        assert_eq!((room[8] >> 1) & 15, 1);
        silent.push(socket);
    }
    let begun = Instant::now();
    let client = Options::new().connect(address, SERVICE)?;
    client.send(b"first")?;
    let server = listener.accept_timeout(LONG)?;
    assert_eq!(server.recv_timeout(LONG)?, b"first");
    assert!(begun.elapsed() < Duration::from_secs(1));
    Ok(())
}

/// What became of packets is found by their numbers, and no number is given twice.
#[test]
fn what_became_of_a_packet_is_told() -> Outcome {
    let (client, server) = pair(&Options::new(), "127.0.0.1:0")?;
    let numbers = [client.send(b"one")?, client.send(b"two")?];
    assert!(numbers[0] < numbers[1]);
    assert_eq!(server.recv_timeout(LONG)?, b"one");
    let until = Instant::now() + LONG;
    while client.fate(numbers[1]) == Fate::InFlight && Instant::now() < until {
        thread::sleep(Duration::from_millis(10));
    }
    assert_eq!(numbers.map(|it| client.fate(it)), [Fate::Delivered; 2]);
    assert_eq!(client.fate(numbers[1] + 1), Fate::Unknown);
    assert_eq!(client.longest_data(1_232), MOST_DATA_BYTES);
    assert_eq!(client.statistics().lost, 0);
    Ok(())
}

/// A relay gives each client another port, as routers do; once it stops, both ends hear nothing and give up.
#[test]
fn agreed_names_pass_a_translation_and_silence_ends() -> Outcome {
    let names: (SocketAddr, SocketAddr) = ("192.0.2.1:1".parse()?, "192.0.2.2:2".parse()?);
    let options = Options::new()
        .names(names.0, names.1)
        .idle(Duration::from_millis(600));
    let listener = options.bind("127.0.0.1:0", &[SERVICE])?;
    let (front, back) = (
        UdpSocket::bind("127.0.0.1:0")?,
        UdpSocket::bind("127.0.0.1:0")?,
    );
    back.connect(listener.local_addr()?)?;
    let address = front.local_addr()?;
    let goes = Arc::new(AtomicBool::new(true));
    let relay = thread::spawn({
        let goes = Arc::clone(&goes);
        move || relay(&front, &back, &goes)
    });
    let client = options.connect(address, SERVICE)?;
    client.send(b"through")?;
    let server = listener.accept_timeout(LONG)?;
    assert_eq!(server.recv_timeout(LONG)?, b"through");
    goes.store(false, Ordering::Relaxed);
    relay.join().unwrap();
    for end in [&client, &server] {
        assert!(matches!(
            end.recv_timeout(LONG),
            Err(Error::Ended(End::Silent))
        ));
    }
    Ok(())
}

/// Carries datagrams of one client to a server and back, under its own port.
fn relay(front: &UdpSocket, back: &UdpSocket, goes: &AtomicBool) {
    let (mut room, mut client) = ([0; 2_048], None);
    for socket in [front, back] {
        socket
            .set_read_timeout(Some(Duration::from_millis(1)))
            .unwrap();
    }
    while goes.load(Ordering::Relaxed) {
        if let Ok((length, from)) = front.recv_from(&mut room) {
            client = Some(from);
            let _ = back.send(&room[..length]);
        }
        if let (Ok(length), Some(client)) = (back.recv(&mut room), client) {
            let _ = front.send_to(&room[..length], client);
        }
    }
}

/// The end that answers a Close last stays until the peer has repeated it twice, since that answer may be lost: after 100 ms, and 200 more.
#[test]
fn a_close_stays_for_what_the_peer_repeats() -> Outcome {
    let (client, server) = pair(&Options::new(), "127.0.0.1:0")?;
    let begun = Instant::now();
    assert_eq!(client.close(LONG)?, End::Reset { code: 1 });
    let first = begun.elapsed();
    assert_eq!(server.close(LONG)?, End::Reset { code: 1 });
    assert!(first < Duration::from_millis(300), "{first:?}");
    assert!(Duration::from_millis(300) <= begun.elapsed());
    Ok(())
}

/// A listener that is gone leaves its connections, and turns others away while one is there (Reset Code 7, Connection Refused: RFC 4340,
/// section 5.6).
#[test]
fn a_listener_that_is_gone_refuses() -> Outcome {
    let (client, server) = pair(&Options::new(), "127.0.0.1:0")?;
    let other = Socket::connect(server.local_addr()?, SERVICE);
    assert!(matches!(other, Err(Error::Ended(End::Reset { code: 7 }))));
    server.send(b"still here")?;
    assert_eq!(client.recv_timeout(LONG)?, b"still here");
    Ok(())
}

/// A client is killed, and comes back from its port, while the server still sends to it. By RFC 4340, section 8.5, it answers the Sync of its
/// old connection's end with a Reset, which ends that end, and its next Request, after a second, opens another.
#[test]
fn a_client_comes_back_from_its_port() -> Outcome {
    let listener = Listener::bind("127.0.0.1:0", &[SERVICE])?;
    let udp = bare_socket("127.0.0.1:0", &listener)?;
    let mut client = Bare::ask(udp.try_clone()?, 1_000)?;
    client.speak(b"first");
    let old = listener.accept_timeout(LONG)?;
    assert_eq!(old.recv_timeout(LONG)?, b"first");
    drop(client);
    old.send(b"to nobody")?;
    let begun = Instant::now();
    let mut client = Bare::ask(udp, 1 << 40)?;
    client.speak(b"again");
    assert!(
        begun.elapsed() < Duration::from_secs(8),
        "{:?}",
        begun.elapsed()
    );
    let new = listener.accept_timeout(LONG)?;
    assert_eq!(new.recv_timeout(LONG)?, b"again");
    assert_eq!(new.peer_addr(), old.peer_addr());
    let over = old.recv_timeout(LONG);
    assert!(matches!(over, Err(Error::Ended(End::Anew))), "{over:?}");
    assert!(matches!(old.send(b"late"), Err(Error::Ended(End::Anew))));
    drop(old);
    new.send(b"answer")?;
    let begun = Instant::now();
    while client.connection.poll_event() != Some(Event::Data(b"answer".to_vec())) {
        assert!(begun.elapsed() < LONG);
        client.turn();
    }
    Ok(())
}

/// The same of a server that has one place.
#[test]
fn a_client_comes_back_to_the_one_place() -> Outcome {
    let listener = Options::new()
        .most_connections(1)
        .bind("127.0.0.1:0", &[SERVICE])?;
    let udp = bare_socket("127.0.0.1:0", &listener)?;
    Bare::ask(udp.try_clone()?, 1_000)?.speak(b"first");
    let old = listener.accept_timeout(LONG)?;
    Bare::ask(udp, 1 << 40)?.speak(b"again");
    let new = listener.accept_timeout(LONG)?;
    assert_eq!(new.recv_timeout(LONG)?, b"again");
    assert_eq!(old.recv_timeout(LONG)?, b"first");
    assert!(matches!(old.recv(), Err(Error::Ended(End::Anew))));
    Ok(())
}

/// A server that was started again knows nothing of its clients, and says so by a Reset with code 3 (RFC 4340, section 5.6). That is
/// orderly only for an end that had closed.
#[test]
fn a_server_that_was_started_again_has_forgotten() -> Outcome {
    for closes in [false, true] {
        let udp = UdpSocket::bind("127.0.0.1:0")?;
        let address = udp.local_addr()?;
        let serving = thread::spawn(move || {
            let mut room = [0; 2_048];
            let (length, peer) = udp.recv_from(&mut room).unwrap();
            let config = Config::server(address, peer, SERVICE, 2_000);
            let accepted = Connection::accept(&config, &room[..length], Instant::now());
            let Ok(AcceptOutcome::Connection(mut connection)) = accepted else {
                panic!("{accepted:?}");
            };
            while let Some(frame) = connection.poll_transmit() {
                udp.send_to(&frame.bytes, peer).unwrap();
            }
        });
        let client = Socket::connect(address, SERVICE)?;
        serving.join().unwrap();
        let _listener = Listener::bind(address, &[SERVICE])?;
        if closes {
            let end = client.close(LONG)?;
            assert_eq!((end, end.is_orderly()), (End::Reset { code: 3 }, true));
        } else {
            client.send(b"are you there?")?;
            let over = client.recv_timeout(LONG);
            assert!(
                matches!(over, Err(Error::Ended(End::Forgotten))),
                "{over:?}"
            );
            assert!(!End::Forgotten.is_orderly());
        }
    }
    Ok(())
}

/// One host may have one connection, and another host has its own. 9 is Too Busy (RFC 4340, section 5.6).
#[test]
fn a_host_has_its_share() -> Outcome {
    let options = Options::new().most_per_host(1);
    let listener = options.bind("127.0.0.1:0", &[7, SERVICE])?;
    let address = listener.local_addr()?;
    let first = Socket::connect(address, 7)?;
    first.send(b"first")?;
    let held = listener.accept_timeout(LONG)?;
    assert_eq!((held.service(), first.service()), (7, 7));
    let second = Socket::connect(address, SERVICE);
    assert!(
        matches!(second, Err(Error::Ended(End::Reset { code: 9 }))),
        "{second:?}"
    );
    Bare::ask(bare_socket("127.0.0.2:0", &listener)?, 1_000)?.speak(b"other");
    let other = listener.accept_timeout(LONG)?;
    assert_eq!(
        (other.service(), other.recv_timeout(LONG)?),
        (SERVICE, b"other".to_vec())
    );
    assert!(first.close(LONG)?.is_orderly());
    // Its place is free as soon as the connection has ended.
    let third = Socket::connect(address, SERVICE)?;
    third.send(b"third")?;
    assert_eq!(listener.accept_timeout(LONG)?.recv_timeout(LONG)?, b"third");
    Ok(())
}

/// Of two clients of a host that ask at a time, one has its share when the other opens: that one is aborted (Reset Code 2).
#[test]
fn a_host_has_its_share_although_it_asks_twice_at_a_time() -> Outcome {
    let options = Options::new().most_per_host(1);
    let listener = options.bind("127.0.0.1:0", &[SERVICE])?;
    let address = listener.local_addr()?;
    // Both are half open: a client that says nothing after the Response has not shown that it hears.
    let mut clients = [
        Bare::ask(bare_socket("127.0.0.1:0", &listener)?, 1_000)?,
        Bare::ask(bare_socket("127.0.0.1:0", &listener)?, 1_000)?,
    ];
    let mut responses = Vec::new();
    for client in &mut clients {
        while let Some(frame) = client.connection.poll_transmit() {
            client.udp.send(&frame.bytes)?;
        }
        client.udp.set_read_timeout(Some(LONG))?;
        let mut room = [0; 2_048];
        let length = client.udp.recv(&mut room)?;
        responses.push(room[..length].to_vec());
        client
            .udp
            .set_read_timeout(Some(Duration::from_millis(5)))?;
    }
    for (client, response) in clients.iter_mut().zip(responses) {
        client.connection.handle_datagram(&response, Instant::now());
        client.turn();
    }
    let _held = listener.accept_timeout(LONG)?;
    let begun = Instant::now();
    while clients[1].connection.poll_event() != Some(Event::Ended { code: 2 }) {
        assert!(begun.elapsed() < LONG);
        clients.iter_mut().for_each(Bare::turn);
    }
    assert!(matches!(listener.try_accept(), Err(Error::WouldBlock)));
    assert_eq!(clients[0].connection.phase(), Phase::Open);
    assert_eq!(listener.local_addr()?, address);
    Ok(())
}

/// Of six packets to a socket that keeps two for its owner, and is not read, four are dropped, and the sender is told of each: so RFC 4340,
/// section 11.7, has Drop Code 2.
#[test]
fn a_sender_is_told_what_a_full_socket_drops() -> Outcome {
    let (client, server) = pair(&Options::new().holding(2), "127.0.0.1:0")?;
    let numbers = [0; 6].map(|_| client.send(b"x"));
    let fates = || numbers.iter().flatten().map(|it| client.fate(*it));
    let begun = Instant::now();
    while fates().any(|it| it == Fate::InFlight) && begun.elapsed() < LONG {
        thread::sleep(Duration::from_millis(5));
    }
    let dropped = fates().filter(|it| *it == Fate::Dropped(DropCode::BufferFull));
    assert_eq!(dropped.count(), 4);
    assert_eq!(server.statistics().unread_dropped, 4);
    assert_eq!(
        (server.try_recv()?, server.try_recv()?),
        (b"x".to_vec(), b"x".to_vec())
    );
    assert!(matches!(server.try_recv(), Err(Error::WouldBlock)));
    Ok(())
}
