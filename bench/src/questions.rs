//! The three questions: the port's call on a store, and the plugin's hook.

use std::future::Future;
use std::pin::pin;
use std::sync::Arc;
use std::task::{Context, Poll, Waker};

use oracle::decide::{Answer, Kind, Question};
use rmqtt::hook::{Handler, Parameter, Type};
use rmqtt::session::Session;
use rmqtt::types::{ClientId, ConnectInfo, Id, Publish, QoS, Subscribe, UserName};

use crate::clients::Templates;
use crate::inputs;
use crate::lists::{List, TOPIC};
use crate::measure::{repeat, Row};

/// The questions of a row.
pub struct Questions {
    asked: Vec<Asked>,
    counted: usize,
}

/// A question on a list: for the port its texts, for the plugin the hook's parameters.
struct Asked {
    list: List,
    /// The rule that decides, from 1, or 0.
    rule: usize,
    question: Question,
    handler: Arc<dyn Handler>,
    info: ConnectInfo,
    session: Session,
    subscribe: Subscribe,
    publish: Publish,
}

impl Questions {
    /// On two rules: the second decides or none, with filters of each size.
    pub fn by_size(size: &str, yes: bool) -> Questions {
        let asked = |[filter, matched, other]: [String; 3]| {
            let (name, topic, rule) = if yes { ("bo", matched, 2) } else { ("al", other, 0) };
            Asked::new(List::two(&filter), rule, question(Kind::Publish, "g7", name, &topic))
        };
        Questions { asked: inputs::texts(size).into_iter().map(asked).collect(), counted: 120 }
    }

    /// On a list without rows: the first rule decides, the last, or none.
    pub fn by_rule(kind: Kind, name: &str, decides: &str) -> Questions {
        let list = List::named(name);
        let n = number(decides, list.rules());
        let topic = match name {
            "10" => TOPIC.into(),
            "256u" => "s/i/j".into(),
            _ => format!("s{n:03}/i/j"),
        };
        let rule = (n + 1) % (list.rules() + 1);
        let question = question(kind, "g7", &format!("u{n}"), &topic);
        let counted = if list.rules() == 256 { 10 } else { 120 };
        Questions { asked: vec![Asked::new(list, rule, question)], counted }
    }

    /// On a list with the rows of so many clients, which belong to its last rule:
    /// that of the first client decides, of the last, or none.
    pub fn by_row(name: &str, clients: usize, decides: &str) -> Questions {
        let list = List::named(name);
        let n = number(decides, clients);
        let rule = if n < clients { list.rules() } else { 0 };
        let id = format!("g{n}");
        let question = question(Kind::Publish, &id, "bo", &Templates::of(name).filter(&id));
        let counted = if clients > 64 { 1 } else { 10 };
        Questions { asked: vec![Asked::new(list, rule, question)], counted }
    }
}

/// The first of so many, the last, or one more.
fn number(which: &str, of: usize) -> usize {
    match which {
        "first" => 0,
        "last" => of - 1,
        "none" => of,
        other => panic!("not first, last or none: {other}"),
    }
}

fn question(kind: Kind, id: &str, name: &str, topic: &str) -> Question {
    Question {
        kind,
        earlier: 0,
        id: Id::new(None, ClientId::from(id), Some(UserName::from(name))),
        password: None,
        protocol: Some(4),
        topic: topic.into(),
        qos: QoS::AtMostOnce,
    }
}

impl Asked {
    fn new(list: List, rule: usize, question: Question) -> Asked {
        let hook = match question.kind {
            Kind::Connect => Type::ClientAuthenticate,
            Kind::Subscribe => Type::ClientSubscribeCheckAcl,
            Kind::Publish => Type::MessagePublishCheckAcl,
        };
        Asked {
            handler: list.plugin.handler(hook),
            info: question.connect_info(),
            session: question.session(),
            subscribe: question.subscribe(),
            publish: question.publish(),
            list,
            rule,
            question,
        }
    }

    /// The packed answer.
    fn port(&self) -> u32 {
        let none: (bool, &[u8]) = (false, &[]);
        let id = &self.question.id;
        let client = port::Client {
            earlier: 0,
            id: id.client_id.as_bytes(),
            name: (true, id.username.as_ref().map_or(&[], |name| name.as_bytes())),
            password: none,
            address: none,
            protocol: (true, 4),
        };
        let (store, topic) = (&self.list.store, self.question.topic.as_bytes());
        match self.question.kind {
            Kind::Connect => port::connect(store, client),
            Kind::Subscribe => port::subscribe(store, client, topic, 0),
            Kind::Publish => port::publish(store, client, topic, true),
        }
    }

    /// Is it that a rule allows?
    fn port_allows(&self) -> bool {
        let what = match self.question.kind {
            Kind::Connect => 2,
            Kind::Subscribe => 4,
            Kind::Publish => 7,
        };
        self.port() % 16 == what
    }

    fn rust_allows(&self) -> bool {
        let parameter = match self.question.kind {
            Kind::Connect => Parameter::ClientAuthenticate(&self.info),
            Kind::Subscribe => Parameter::ClientSubscribeCheckAcl(&self.session, &self.subscribe),
            Kind::Publish => Parameter::MessagePublishCheckAcl(&self.session, &self.publish),
        };
        let (_, result) = ready(self.handler.hook(&parameter, None));
        self.question.answer(result) == Answer::Allow
    }
}

/// The future's result; it waits for nothing.
pub fn ready<T>(future: impl Future<Output = T>) -> T {
    match pin!(future).poll(&mut Context::from_waker(Waker::noop())) {
        Poll::Ready(result) => result,
        Poll::Pending => panic!("it waits"),
    }
}

impl Row for Questions {
    fn run(&mut self, side: &str, n: usize) -> usize {
        match side {
            "none" => repeat(&self.asked, n, |_| true),
            "port" => repeat(&self.asked, n, Asked::port_allows),
            "rust" => repeat(&self.asked, n, Asked::rust_allows),
            "floor" => repeat(&self.asked, n, |asked| asked.list.floor()),
            other => panic!("no side {other}"),
        }
    }

    fn sides(&self) -> &'static [&'static str] {
        &["port", "rust", "floor"]
    }

    fn check(&mut self, yes: bool) {
        for asked in &self.asked {
            let topic = &asked.question.topic;
            assert_eq!(asked.port() as usize / 16, asked.rule, "the rule that decides on {topic}");
            assert_eq!((asked.port_allows(), asked.rust_allows()), (yes, yes), "{topic}");
            assert!(asked.list.floor());
            asked.list.check();
        }
    }

    fn counted(&self) -> usize {
        self.counted
    }
}
