//! oracle-config-probe
//!
//! What the original's configuration makes of `rules` absent, not an array, or
//! an array: the number of rules and what they are.

use rmqtt_acl::exposed::PluginConfig;

const CONFIGS: &[&str] = &[
    r#"{}"#,
    r#"{"rules":[]}"#,
    r#"{"rules":5}"#,
    r#"{"rules":{"a":1}}"#,
    r#"{"rules":null}"#,
    r#"{"rules":["x"]}"#,
    r#"{"rules":[["allow","all"],["deny"]]}"#,
];

fn main() {
    for text in CONFIGS {
        let Ok(config) = serde_json::from_str::<PluginConfig>(text) else {
            println!("{text}: refused");
            continue;
        };
        let (disconnect, priority) = (config.disconnect_if_pub_rejected, config.priority);
        println!("{text}: {} rules, disconnect {disconnect}, priority {priority}", config.rules().len());
        for rule in config.rules() {
            println!("    {:?} {:?} {:?} all={}", rule.access, rule.users, rule.control, rule.topics.all);
        }
    }
}
