//! Document 01's example, limits and refusals, through the crate's public calls.

use mqtt_acl::{
    check_rule, expired, identity, is_document, is_document_within, plain_match, plain_name, templates,
    tree_match, valid_filter, version, AuthInfo, Client, ClientPublish, ClientSubscribe, Connect, Counts,
    Earlier, EarlierConnect, Identity, LineRefusal, Publish, Refusal, Store, Subscribe, Time,
};

const EXAMPLE: &[u8] = br#"["allow",{"user":"bo"},"publish",["bench/%c/set"]]
["deny","all","pubsub"]
"#;

const G7: Client<'static> = who(b"g7", Some(b"bo"));
const G8: Client<'static> = who(b"g8", Some(b"cy"));
const A: Client<'static> = who(b"a", None);

/// A client with this id and this name, and nothing else.
const fn who<'a>(id: &'a [u8], name: Option<&'a [u8]>) -> Client<'a> {
    Client { id, name, password: None, address: None }
}

/// A store of the counts of `decide`.
fn opened(rules: &[u8]) -> Store {
    Store::open(Counts::new(2048, 64, 32, 64).unwrap(), rules).unwrap()
}

fn at(refusal: Refusal, line: u16) -> LineRefusal {
    LineRefusal { refusal, line }
}

#[test]
fn document_01_s_example() {
    let mut store = opened(EXAMPLE);
    assert_eq!(store.as_bytes().len(), 47_888);
    let publish = |store: &Store| store.publish(Earlier::None, G7, Some(4), b"bench/g7/set", true);
    let dropped = Ok(Publish::Refuse { rule: 2, disconnect: true });

    assert_eq!(store.connect(EarlierConnect::None, G7, 4), Ok(Connect::Refuse { rule: 0 }));
    assert_eq!(publish(&store), dropped);
    assert_eq!(store.connected(1, G7), Ok(()));
    assert_eq!(publish(&store), Ok(Publish::Allow { rule: 1 }));
    assert_eq!(store.disconnected(1, G7), Ok(()));
    assert_eq!(publish(&store), dropped);

    // The note of the session is left; with its end the store is as opened.
    assert_ne!(store, opened(EXAMPLE));
    assert_eq!(store.ended(1), Ok(()));
    assert_eq!(store, opened(EXAMPLE));
}

#[test]
fn every_answer_of_a_question() {
    let store = opened(
        br#"["allow",{"user":"root","superuser":true},"connect"]
["allow",{"clientid":"g7"}]
"#,
    );
    let root = Client { id: b"r", name: Some(b"root"), ..Client::default() };
    let nobody = Client { id: b"n", ..Client::default() };
    assert_eq!(store.connect(EarlierConnect::None, root, 4), Ok(Connect::Allow { rule: 1, superuser: true }));
    assert_eq!(store.connect(EarlierConnect::Allow, G7, 4), Ok(Connect::Allow { rule: 2, superuser: false }));
    assert_eq!(store.connect(EarlierConnect::NotFound, nobody, 4), Ok(Connect::Refuse { rule: 0 }));
    assert_eq!(store.connect(EarlierConnect::BadLogin, G7, 4), Ok(Connect::Kept(EarlierConnect::BadLogin)));
    assert_eq!(
        store.connect(EarlierConnect::NotAuthorized, G7, 4),
        Ok(Connect::Kept(EarlierConnect::NotAuthorized))
    );

    for qos in 0..=2u8 {
        let answer = store.subscribe(Earlier::None, G7, None, b"a", qos.into());
        assert_eq!(answer, Ok(Subscribe::Allow { rule: 2, qos }));
    }
    assert_eq!(store.subscribe(Earlier::Allow, root, None, b"a", 0), Ok(Subscribe::Refuse { rule: 0 }));
    assert_eq!(store.subscribe(Earlier::Rejected, G7, None, b"a", 0), Ok(Subscribe::Kept(Earlier::Rejected)));

    assert_eq!(store.publish(Earlier::Allow, G7, None, b"a", true), Ok(Publish::Allow { rule: 2 }));
    for disconnect in [false, true] {
        let answer = store.publish(Earlier::None, nobody, None, b"a", disconnect);
        assert_eq!(answer, Ok(Publish::Refuse { rule: 0, disconnect }));
    }
    assert_eq!(store.publish(Earlier::Rejected, G7, None, b"a", true), Ok(Publish::Kept(Earlier::Rejected)));
}

/// Each text, and the protocol, goes to its own place in each of the four calls that take a client.
#[test]
fn each_text_to_its_place() {
    let lines: [&[u8]; 4] = [
        br#"["allow",{"clientid":"x"}]"#,
        br#"["allow",{"user":"x","password":"y"}]"#,
        br#"["allow",{"ipaddr":"x"}]"#,
        br#"["allow",{"protocol":4}]"#,
    ];
    let none = Client { id: b"-", ..Client::default() };
    let clients = [
        (Client { id: b"x", ..none }, 3),
        (Client { name: Some(b"x"), password: Some(b"y"), ..none }, 3),
        (Client { address: Some(b"x"), ..none }, 3),
        (none, 4),
    ];
    for (asked, (client, protocol)) in clients.into_iter().enumerate() {
        for (line, rule) in lines.into_iter().enumerate() {
            let agrees = asked == line;
            let store = opened(rule);
            let expected = if agrees { Identity::Agrees { superuser: false } } else { Identity::Differs };
            assert_eq!(identity(rule, client, Some(protocol)), expected);
            let connected = store.connect(EarlierConnect::None, client, protocol).unwrap();
            assert_eq!(connected == Connect::Allow { rule: 1, superuser: false }, agrees);
            let subscribed = store.subscribe(Earlier::None, client, Some(protocol), b"t", 1).unwrap();
            assert_eq!(subscribed == Subscribe::Allow { rule: 1, qos: 1 }, agrees);
            let published = store.publish(Earlier::None, client, Some(protocol), b"t", false).unwrap();
            assert_eq!(published == Publish::Allow { rule: 1 }, agrees);
        }
    }
    let root = br#"["allow",{"user":"x","superuser":true}]"#;
    let named = Client { name: Some(b"x"), ..none };
    assert_eq!(identity(root, named, None), Identity::Agrees { superuser: true });
    assert_eq!(identity(b"[]", none, None), Identity::NoRule);
    // An identity has no lengths to refuse; the whole text counts.
    let long = [br#"["allow",{"user":""#.as_slice(), &[b'a'; 64], br#""}]"#].concat();
    let of = |length: usize| identity(&long, Client { name: Some(&[b'a'; 129][..length]), ..none }, None);
    assert_eq!(of(64), Identity::Agrees { superuser: false });
    assert_eq!([63, 65, 129].map(of), [Identity::Differs; 3]);
}

/// An absent text is not an empty one, an absent protocol not 0, whatever else is given.
#[test]
fn absent_is_not_empty() {
    let all = Client { id: b"-", name: Some(b"x"), password: Some(b"y"), address: Some(b"z") };
    let empty = |given: bool| -> Option<&[u8]> { given.then_some(b"") };
    for given in [false, true] {
        let cases: [(&[u8], Client<'_>, Option<u8>); 4] = [
            (br#"["allow",{"user":""}]"#, Client { name: empty(given), ..all }, Some(3)),
            (br#"["allow",{"user":"x","password":""}]"#, Client { password: empty(given), ..all }, Some(3)),
            (br#"["allow",{"ipaddr":""}]"#, Client { address: empty(given), ..all }, Some(3)),
            (br#"["allow",{"protocol":256}]"#, all, given.then_some(0)),
        ];
        for (rule, client, protocol) in cases {
            let store = opened(rule);
            assert_eq!(identity(rule, client, protocol) == Identity::Agrees { superuser: false }, given);
            let connected = store.connect(EarlierConnect::None, client, protocol.unwrap_or(3)).unwrap();
            assert_eq!(connected == Connect::Allow { rule: 1, superuser: false }, given);
            let subscribed = store.subscribe(Earlier::None, client, protocol, b"t", 1).unwrap();
            assert_eq!(subscribed == Subscribe::Allow { rule: 1, qos: 1 }, given);
            let published = store.publish(Earlier::None, client, protocol, b"t", false).unwrap();
            assert_eq!(published == Publish::Allow { rule: 1 }, given);
        }
    }
}

/// 1 to 10, each once, and the store as it was.
#[test]
fn refusals_by_number() {
    let small = |rules: &[u8]| Store::open(Counts::new(256, 2, 1, 1).unwrap(), rules).unwrap();
    let connected = |rules: &[u8], session: u64, id: &[u8]| {
        let mut store = small(rules);
        let before = store.clone();
        let answer = store.connected(session, who(id, None));
        assert!(answer.is_ok() || store == before);
        answer.map_err(Refusal::number)
    };
    assert_eq!(connected(b"", 0, &[b'a'; 65]), Err(1));
    assert_eq!(connected(b"", 256, b"a"), Err(2));
    assert_eq!(Store::from_bytes(vec![0; 16]).connected(0, A).map_err(Refusal::number), Err(3));
    assert_eq!(Counts::new(0, 1, 1, 1).map_err(Refusal::number), Err(4));
    assert_eq!(check_rule(b"[").map_err(Refusal::number), Err(5));
    assert_eq!(check_rule(b"[]").map_err(Refusal::number), Err(6));
    assert_eq!(connected(br#"["allow","all","all",["%c%c%c%c/"]]"#, 0, &[b'a'; 64]), Err(7));
    assert_eq!(connected(br#"["allow","all","all",["%c/1","%c/2","%c/3"]]"#, 0, b"a"), Err(8));
    assert_eq!(connected(br#"["allow","all","all",[{"eq":"%c1"},{"eq":"%c2"}]]"#, 0, b"a"), Err(9));
    assert_eq!(connected(br#"["allow","all","all",["%c/1","%c/2"]]"#, 0, b"a"), Err(10));
    assert_eq!(connected(br#"["allow","all","all",["%c/1",{"eq":"%c"}]]"#, 255, &[b'a'; 64]), Ok(()));
}

#[test]
fn refusals_of_opening_have_a_line() {
    let counts = Counts::new(4096, 1, 1, 1).unwrap();
    let open = |rules: &[u8]| Store::open(counts, rules).map(drop);
    let rule = |n: usize| {
        br#"["deny","all"]
"#
        .repeat(n)
    };
    assert_eq!(open(&rule(256)), Ok(()));
    assert_eq!(open(&rule(257)), Err(at(Refusal::TooLong, 257)));
    assert_eq!(open(&[b' '; 4097]), Err(at(Refusal::TooLong, 0)));
    assert_eq!(open(&[b' '; 2049]), Err(at(Refusal::TooLong, 1)));
    assert_eq!(open(&[rule(2), b"[".to_vec()].concat()), Err(at(Refusal::NotJson, 3)));
    assert_eq!(open(&[rule(255), b"[]\n".to_vec()].concat()), Err(at(Refusal::NotARule, 256)));
    let mut store = opened(EXAMPLE);
    assert_eq!(store.reopen(Counts::new(2048, 64, 32, 64).unwrap(), b"[]"), Err(at(Refusal::NotARule, 1)));
    assert_eq!(store, opened(EXAMPLE));
}

#[test]
fn a_store_of_another_length() {
    let counts = Counts::new(2048, 64, 32, 64).unwrap();
    let whole = opened(EXAMPLE).into_bytes();
    for length in [0, 1, 15, 16, 17, whole.len() - 1] {
        let mut store = Store::from_bytes(whole[..length].to_vec());
        let before = store.clone();
        assert_eq!(store.reopen(counts, EXAMPLE), Err(at(Refusal::Counts, 0)));
        assert_eq!(store.connected(0, A), Err(Refusal::Malformed));
        assert_eq!(store.disconnected(0, A), Err(Refusal::Malformed));
        assert_eq!(store.ended(0), Err(Refusal::Malformed));
        assert_eq!(store.connect(EarlierConnect::NotAuthorized, G7, 4), Err(Refusal::Malformed));
        assert_eq!(store.subscribe(Earlier::None, G7, None, b"a", 0), Err(Refusal::Malformed));
        assert_eq!(store.publish(Earlier::None, G7, None, b"a", true), Err(Refusal::Malformed));
        assert_eq!(store, before);
    }
    let mut longer = Store::from_bytes([whole.as_slice(), b"\0"].concat());
    assert_eq!(longer.ended(0), Err(Refusal::Malformed));
    assert_eq!(longer.reopen(counts, EXAMPLE), Err(at(Refusal::Counts, 0)));
    assert_eq!(
        Store::from_bytes(whole).connect(EarlierConnect::NotAuthorized, G7, 4),
        Ok(Connect::Kept(EarlierConnect::NotAuthorized))
    );
}

/// Each length at its limit and one past it, in each call that takes the text.
#[test]
fn lengths() {
    let mut store = opened(EXAMPLE);
    let long = [b'a'; 257];
    let none = Client { id: b"a", ..Client::default() };
    let with = |length: usize, place: usize| {
        let text = &long[..length];
        match place {
            0 => Client { id: text, ..none },
            1 => Client { name: Some(text), ..none },
            2 => Client { password: Some(text), ..none },
            _ => Client { address: Some(text), ..none },
        }
    };
    for (place, most) in [64, 64, 128, 45].into_iter().enumerate() {
        for (length, fits) in [(0, true), (most, true), (most + 1, false), (257, false)] {
            let client = with(length, place);
            let judge = |refusal: Option<Refusal>| {
                assert_eq!(refusal, if fits { None } else { Some(Refusal::TooLong) }, "{place} {length}")
            };
            judge(store.connect(EarlierConnect::None, client, 4).err());
            judge(store.subscribe(Earlier::None, client, None, b"a", 0).err());
            judge(store.publish(Earlier::None, client, None, b"a", true).err());
            // Events look at the id, connected at the name too, and at nothing else.
            let (left, came) = (store.disconnected(1, client).err(), store.connected(1, client).err());
            match place {
                0 => judge(left),
                _ => assert_eq!(left, None),
            }
            match place {
                0 | 1 => judge(came),
                _ => assert_eq!(came, None),
            }
            if place < 2 {
                let own = AuthInfo { id: client.id, name: client.name, ..AuthInfo::default() };
                judge(own.subscribe(b"a", 0).err().map(|r| r.refusal));
                judge(own.publish(b"a", 0, false, false).err().map(|r| r.refusal));
            }
        }
    }
    let own = AuthInfo { id: b"a", ..AuthInfo::default() };
    assert!(store.subscribe(Earlier::None, none, None, &long[..256], 0).is_ok());
    assert_eq!(store.subscribe(Earlier::None, none, None, &long, 0), Err(Refusal::TooLong));
    assert!(store.publish(Earlier::None, none, None, &long[..256], true).is_ok());
    assert_eq!(store.publish(Earlier::None, none, None, &long, true), Err(Refusal::TooLong));
    assert_eq!(own.subscribe(&long[..256], 0), Ok(ClientSubscribe::NoDecision));
    assert_eq!(own.subscribe(&long, 0), Err(at(Refusal::TooLong, 0)));
    assert_eq!(own.publish(&long[..256], 0, false, false), Ok(ClientPublish::NoDecision));
    assert_eq!(own.publish(&long, 0, false, false), Err(at(Refusal::TooLong, 0)));
}

/// Each number that can be refused: its last good value, the next, and the largest.
#[test]
fn numbers() {
    let mut store = opened(EXAMPLE);
    let own = AuthInfo { id: b"a", ..AuthInfo::default() };
    let ok_then_2 = |most: u64, call: &mut dyn FnMut(u64) -> Option<Refusal>| {
        assert_eq!(call(most), None);
        for over in [most + 1, most + (1 << 8), most + (1 << 16), most + (1 << 32), u64::MAX - 1, u64::MAX] {
            assert_eq!(call(over), Some(Refusal::OutOfRange), "{over}");
        }
    };
    ok_then_2(255, &mut |n| store.connected(n, A).err());
    ok_then_2(255, &mut |n| store.disconnected(n, A).err());
    ok_then_2(255, &mut |n| store.ended(n).err());
    ok_then_2(2, &mut |n| store.subscribe(Earlier::None, G7, None, b"a", n).err());
    ok_then_2(2, &mut |n| own.subscribe(b"a", n).err().map(|r| r.refusal));
    ok_then_2(2, &mut |n| own.publish(b"a", n, true, true).err().map(|r| r.refusal));
    let time = |nanoseconds| Time { seconds: u64::MAX, nanoseconds };
    ok_then_2(999_999_999, &mut |n| expired(Some(time(n)), time(0)).err());
    ok_then_2(999_999_999, &mut |n| expired(Some(time(0)), time(n)).err());
    ok_then_2(999_999_999, &mut |n| expired(None, time(n)).err());
    for past in [[0, 1, 1, 1], [1, 0, 1, 1], [1, 1, 0, 1], [1, 1, 1, 0], [32_769, 1, 1, 1], [1, 4_097, 1, 1]]
    {
        assert_eq!(Counts::new(past[0], past[1], past[2], past[3]), Err(Refusal::Counts));
    }
    assert_eq!(Counts::new(u64::MAX, u64::MAX, u64::MAX, u64::MAX), Err(Refusal::Counts));
    let most = Counts::new(32_768, 4_096, 4_096, 4_096).unwrap();
    assert_eq!(most.length(), 16 + 32_768 + 4_096 * (326 + 260 + 260));
    assert_eq!(Store::open(most, EXAMPLE).unwrap().as_bytes().len(), most.length());
}

#[test]
fn empty_slices() {
    assert!(valid_filter(b""));
    assert!(tree_match(b"", b"") && plain_match(b"", b""));
    assert!(tree_match(b"#", b"") && !tree_match(b"", b"a"));
    assert!(!is_document(b"") && !is_document_within(b"", 0));
    assert_eq!(check_rule(b""), Err(Refusal::NotJson));
    assert_eq!(identity(b"", Client::default(), None), Identity::NoRule);

    let mut store = opened(b"");
    assert_eq!(store.connected(0, who(b"", Some(b""))), Ok(()));
    assert_eq!(store.disconnected(0, Client::default()), Ok(()));
    assert_eq!(store.connect(EarlierConnect::None, Client::default(), 0), Ok(Connect::Refuse { rule: 0 }));
    let refused = Publish::Refuse { rule: 0, disconnect: false };
    assert_eq!(store.publish(Earlier::None, Client::default(), None, b"", false), Ok(refused));
    assert_eq!(
        store.subscribe(Earlier::None, Client::default(), None, b"", 0),
        Ok(Subscribe::Refuse { rule: 0 })
    );
    let all = opened(br#"["allow","all","all",[""]]"#);
    assert_eq!(
        all.publish(Earlier::None, Client::default(), None, b"", false),
        Ok(Publish::Allow { rule: 1 })
    );

    assert_eq!(AuthInfo::default().subscribe(b"", 0), Ok(ClientSubscribe::NoDecision));
    let root = AuthInfo { superuser: true, ..AuthInfo::default() };
    assert_eq!(root.publish(b"", 0, false, false), Ok(ClientPublish::Allow { rule: 0 }));
}

/// Document 01's marked examples of matching, P's as request b) of document 02 has them; and texts of which T and P part.
#[test]
fn matching() {
    assert!(!tree_match(b"#", b"$SYS/a"));
    assert!(tree_match(b"a/#", b"a/$b") && plain_match(b"a/#", b"a/$b"));
    assert!(!plain_match(b"+", b"$SYS/a/b") && !tree_match(b"+", b"$SYS/a/b"));
    assert!(!plain_match(b"+/b", b"$SYS/b"));
    assert!(plain_match(b"+", b"a+") && !tree_match(b"+", b"a+"));
    assert!(!plain_match(b"#", b"$a+") && tree_match(b"#", b"$a+"));
    assert!(tree_match(b"a/+", b"a/#") && tree_match(b"a/+", b"a/") && !tree_match(b"a/+", b"a"));
    assert!(valid_filter(b"a/+/#") && !valid_filter(b"a/#/b") && !valid_filter(b"a+"));
    assert!(is_document(br#"{"a":[1]}"#) && !is_document(b"-1"));
    assert!(is_document_within(br#""ab""#, 2) && !is_document_within(br#""ab""#, 1));
    assert!(is_document_within(br#""ab""#, usize::MAX));
}

#[test]
fn a_client_s_own_rules() {
    let rules = br##"{"permission":"allow","action":"publish","qos":[0,1],"retain":false,"topic":"bench/${clientid}/#"}
{"permission":"deny","action":"publish","topic":"eq ${username}"}
{"permission":"deny","action":"subscribe","qos":2,"topic":"#"}
{"permission":"allow","action":"subscribe","topic":"#"}
"##;
    let g7 = AuthInfo { superuser: false, id: b"g7", name: Some(b"bo"), rules };
    let publish = |qos, retain, topic: &[u8]| g7.publish(topic, qos, retain, true);
    assert_eq!(publish(0, false, b"bench/g7/set"), Ok(ClientPublish::Allow { rule: 1 }));
    assert_eq!(publish(0, true, b"bench/g7/set"), Ok(ClientPublish::NoDecision));
    assert_eq!(publish(2, false, b"bench/g7/set"), Ok(ClientPublish::NoDecision));
    assert_eq!(publish(0, false, b"bench/g7/$step"), Ok(ClientPublish::Allow { rule: 1 }));
    assert_eq!(publish(0, false, b"bo"), Ok(ClientPublish::Refuse { rule: 2, disconnect: true }));
    assert_eq!(g7.publish(b"bo", 0, false, false), Ok(ClientPublish::Refuse { rule: 2, disconnect: false }));
    assert_eq!(g7.subscribe(b"a", 2), Ok(ClientSubscribe::Refuse { rule: 3 }));
    assert_eq!(g7.subscribe(b"a", 1), Ok(ClientSubscribe::Allow { rule: 4, qos: 1 }));
    let root = AuthInfo { superuser: true, ..g7 };
    assert_eq!(root.subscribe(b"a", 2), Ok(ClientSubscribe::Allow { rule: 0, qos: 2 }));

    // Refusals of a line come before the superuser.
    let with = |rules| AuthInfo { rules, ..root }.subscribe(b"a", 0);
    let nameless = AuthInfo { name: None, ..root };
    assert_eq!(nameless.subscribe(b"a", 0), Err(at(Refusal::NotARule, 2)));
    assert_eq!(nameless.publish(b"a", 0, false, true), Err(at(Refusal::NotARule, 2)));
    assert_eq!(with(b"\n"), Err(at(Refusal::NotJson, 1)));
    assert_eq!(with(&[b' '; 2_049]), Err(at(Refusal::TooLong, 1)));
    assert_eq!(with(&[b' '; 32_769]), Err(at(Refusal::TooLong, 0)));
    assert_eq!(with(&[b'\n'; 257]), Err(at(Refusal::TooLong, 257)));
    let long = [
        br#"{"permission":"allow","action":"all","topic":"eq ${clientid}"#.as_slice(),
        &[b'a'; 200],
        br#""}"#,
    ];
    let rules = [rules.as_slice(), &long.concat()].concat();
    let filled = |id| AuthInfo { id, rules: &rules, ..g7 }.publish(b"a", 0, false, false);
    assert_eq!(filled(&[b'a'; 56]), Ok(ClientPublish::NoDecision));
    assert_eq!(filled(&[b'a'; 57]), Err(at(Refusal::FilledTooLong, 5)));
}

#[test]
fn expiry() {
    let time = |seconds, nanoseconds| Time { seconds, nanoseconds };
    assert_eq!(expired(None, time(u64::MAX, 999_999_999)), Ok(false));
    assert_eq!(expired(Some(time(9, 5)), time(9, 5)), Ok(false));
    assert_eq!(expired(Some(time(9, 5)), time(9, 6)), Ok(true));
    assert_eq!(expired(Some(time(9, 5)), time(9, 4)), Ok(false));
    assert_eq!(expired(Some(time(9, 999_999_999)), time(10, 0)), Ok(true));
    assert_eq!(expired(Some(time(u64::MAX, 0)), time(0, 0)), Ok(false));
}

/// Every byte, first, in the middle and last in a name, and alone.
#[test]
fn plain_names() {
    assert!(plain_name(b""));
    for b in 0..=255u8 {
        let special = b"+#/".contains(&b);
        assert_eq!(plain_name(&[b]), !special && b != b'$', "{b}");
        assert_eq!(plain_name(&[b, b'b', b'c']), !special && b != b'$', "{b}");
        assert_eq!(plain_name(&[b'a', b, b'c']), !special, "{b}");
        assert_eq!(plain_name(&[b'a', b'b', b]), !special, "{b}");
    }
}

/// Two filter templates and one under eq.
const TWO_AND_ONE: &[u8] = br##"["allow",{"user":"%u"},"publish",["bench/%c/#","lab/+","%u"]]
["deny","all","all",[{"eq":"%c"},{"eq":"lab"}]]
"##;

#[test]
fn templates_of_a_text() {
    let asks = |rules: &[u8]| (templates(rules).filters, templates(rules).eqs);
    assert_eq!(asks(b""), (0, 0));
    assert_eq!(asks(br#"["allow","all","all",["a",{"eq":"b"}]]"#), (0, 0));
    assert_eq!(asks(TWO_AND_ONE), (2, 1));
    assert_eq!(asks(&TWO_AND_ONE.repeat(9)), (18, 9));
    assert_eq!(asks(&[b"[\n[\"perhaps\",\"all\",\"all\",[\"%c\"]]\n", TWO_AND_ONE].concat()), (2, 1));
}

/// Rows come and go with the events; n times the templates is room for n clients and for no more.
#[test]
fn used_rows() {
    let (clients, asks) = (2, templates(TWO_AND_ONE));
    let counts =
        Counts::new(512, clients * asks.filters, clients * asks.eqs, clients * asks.filters).unwrap();
    let mut store = Store::open(counts, TWO_AND_ONE).unwrap();
    let used = |store: &Store| store.used_rows().map(|rows| (rows.filters, rows.eqs, rows.notes));
    assert_eq!(used(&store), Some((0, 0, 0)));
    assert_eq!(store.connected(1, G7), Ok(()));
    assert_eq!(used(&store), Some((2, 1, 2)));
    assert_eq!(store.connected(2, G8), Ok(()));
    assert_eq!(used(&store), Some((4, 2, 4)));
    assert_eq!(store.connected(3, who(b"g9", Some(b"di"))), Err(Refusal::FiltersFull));
    assert_eq!(store.disconnected(1, G7), Ok(()));
    assert_eq!(used(&store), Some((2, 2, 4)));
    assert_eq!(store.ended(1), Ok(()));
    assert_eq!(used(&store), Some((2, 2, 2)));

    let whole = store.into_bytes();
    assert_eq!(Store::from_bytes(whole[1..].to_vec()).used_rows(), None);
    assert_eq!(Store::from_bytes(Vec::new()).used_rows(), None);
    let damaged = whole.iter().map(|byte| byte ^ 1).collect();
    assert_eq!(Store::from_bytes(damaged).used_rows(), None);
    assert_eq!(used(&Store::from_bytes(whole)), Some((2, 2, 2)));
}

/// Two hosts, one with a number for each client, one with a number for all: after every coming and going their
/// stores have the same bytes, but for the notes, and the shared number has none.
#[test]
fn two_hosts() {
    let clients =
        [G7, G8, who(b"+", Some(b"#")), who(b"", Some(b"")), who(b"$g", None), who(b"%u", Some(b"a+"))];
    let (mut own, mut shared) = (opened(TWO_AND_ONE), opened(TWO_AND_ONE));
    let notes = own.as_bytes().len() - 260 * 64;
    let same_but_notes = |own: &Store, shared: &Store| {
        let (own, shared) = (own.as_bytes(), shared.as_bytes());
        own[..14] == shared[..14] && own[16..notes] == shared[16..notes]
    };
    let enter = |store: &mut Store, client| store.connected(0, client).and_then(|()| store.ended(0));
    let leave = |store: &mut Store, client| {
        store.connected(0, client)?;
        store.disconnected(0, client)?;
        store.ended(0)
    };
    let (mut present, mut turn) = ([false; 6], 1u32);
    for _ in 0..500 {
        turn = turn.wrapping_mul(1_103_515_245).wrapping_add(12_345);
        let at = (turn >> 16) as usize % clients.len();
        let (client, number) = (clients[at], 1 + at as u64);
        if present[at] {
            assert_eq!((own.disconnected(number, client), leave(&mut shared, client)), (Ok(()), Ok(())));
            assert!(same_but_notes(&own, &shared));
            assert_eq!(own.ended(number), Ok(()));
        } else {
            assert_eq!((own.connected(number, client), enter(&mut shared, client)), (Ok(()), Ok(())));
        }
        present[at] = !present[at];
        assert!(same_but_notes(&own, &shared));
        assert_eq!(shared.used_rows().unwrap().notes, 0);
    }
    // Without the connected before it, disconnected under the shared number clears nothing.
    let mut store = opened(EXAMPLE);
    let published = |store: &Store| store.publish(Earlier::None, G7, None, b"bench/g7/set", false);
    assert_eq!(enter(&mut store, G7), Ok(()));
    assert_eq!((store.disconnected(0, G7), store.ended(0)), (Ok(()), Ok(())));
    assert_eq!(published(&store), Ok(Publish::Allow { rule: 1 }));
    assert_eq!(leave(&mut store, G7), Ok(()));
    assert_eq!(published(&store), Ok(Publish::Refuse { rule: 2, disconnect: false }));
}

/// Ids that widen a rule, and plain ones that take the user name in.
#[test]
fn widening() {
    let may = |topic: &str, client: Client<'_>, asked: &[u8]| {
        let mut store = opened(format!(r#"["allow","all","all",["{topic}"]]"#).as_bytes());
        store.connected(0, client).unwrap();
        store.publish(Earlier::None, client, None, asked, false) == Ok(Publish::Allow { rule: 1 })
    };
    assert!(may("bench/%c/#", who(b"+", None), b"bench/g7/a") && !may("bench/%c/#", G8, b"bench/g7/a"));
    let named = |id| who(id, Some(b"g8"));
    assert!(plain_name(b"%u") && plain_name(b"%"));
    assert!(may("bench/%c/#", named(b"%u"), b"bench/g8/a") && !may("bench/%c/#", named(b"%"), b"bench/g8/a"));
    assert!(may("bench/%cu/#", named(b"%"), b"bench/g8/a"));
    assert!(may("bench/%%c/#", named(b"u"), b"bench/g8/a"));
}

/// `?` takes a refusal without a line for one with.
#[test]
fn one_error_for_all() {
    fn entered(counts: [u64; 4], rules: &[u8], client: Client<'_>) -> Result<Store, LineRefusal> {
        let [bytes, filters, eqs, notes] = counts;
        let mut store = Store::open(Counts::new(bytes, filters, eqs, notes)?, rules)?;
        store.connected(0, client)?;
        Ok(store)
    }
    let one = [64, 1, 1, 1];
    assert!(entered([128, 1, 1, 1], EXAMPLE, G7).is_ok());
    assert_eq!(entered(one, EXAMPLE, G7).err(), Some(at(Refusal::TooLong, 0)));
    assert_eq!(entered([0, 1, 1, 1], EXAMPLE, G7).err(), Some(at(Refusal::Counts, 0)));
    assert_eq!(entered(one, b"[]", G7).err(), Some(at(Refusal::NotARule, 1)));
    assert_eq!(entered(one, b"", who(&[b'a'; 65], None)).err(), Some(at(Refusal::TooLong, 0)));
    assert_eq!(LineRefusal::from(Refusal::Unknown(11)), at(Refusal::Unknown(11), 0));
}

#[test]
fn refusals_are_told_in_words() {
    assert_eq!(Refusal::NotARule.to_string(), "error 6: not a rule");
    assert_eq!(at(Refusal::NotARule, 3).to_string(), "error 6: not a rule, line 3");
    assert_eq!(at(Refusal::Counts, 0).to_string(), "error 4: a count or the store's length is out of range");
    assert_eq!(Refusal::Unknown(11).to_string(), "error 11: not known to this crate");
    assert_eq!(at(Refusal::Unknown(11), 3).to_string(), "error 11: not known to this crate, line 3");
    assert_eq!(Refusal::Unknown(0).to_string(), "what the library says is no answer");
    let secret = Client { password: Some(b"pw"), ..G7 };
    assert!(!format!("{secret:?}").contains("password"));
    assert_eq!(format!("{:?}", opened(EXAMPLE)), "Store { length: 47888, .. }");
}

#[test]
fn a_time_from_a_clock() {
    let time = Time::from(std::time::Duration::new(7, 999_999_999));
    assert_eq!((time.seconds, time.nanoseconds), (7, 999_999_999));
}

/// The crate's version is that of the library.
#[test]
fn one_version() {
    let parts = env!("CARGO_PKG_VERSION").split('.').map(|part| part.parse::<u32>().unwrap());
    assert_eq!(version(), parts.fold(0, |number, part| 100 * number + part));
}
