//! Reads an export into structs by serde's derives and answers whether a user may do something: the program that
//! bench/ holds `rbacaudit can-i` against. It knows roles and bindings that name a user; it refuses nothing by the
//! table of refusals, and knows no aggregated roles, groups, accounts or object names.
//!
//! typed_reader FILE USER NAMESPACE VERB RESOURCE: `yes` or `no`

use serde::Deserialize;
use std::collections::HashMap;
use std::{env, fs};

#[derive(Deserialize)]
struct List {
    items: Vec<Item>,
}

#[derive(Deserialize)]
#[serde(tag = "kind")]
enum Item {
    Role(Role),
    ClusterRole(Role),
    RoleBinding(Binding),
    ClusterRoleBinding(Binding),
    #[serde(other)]
    Other,
}

#[derive(Deserialize)]
struct Role {
    metadata: Metadata,
    rules: Option<Vec<Rule>>,
}

#[derive(Deserialize)]
#[serde(rename_all = "camelCase")]
struct Binding {
    metadata: Metadata,
    role_ref: RoleRef,
    subjects: Option<Vec<Subject>>,
}

#[derive(Deserialize)]
struct Metadata {
    name: String,
    namespace: Option<String>,
}

#[derive(Deserialize)]
#[serde(rename_all = "camelCase")]
struct Rule {
    #[serde(default)]
    verbs: Vec<String>,
    #[serde(default)]
    api_groups: Vec<String>,
    #[serde(default)]
    resources: Vec<String>,
    #[serde(default)]
    resource_names: Vec<String>,
    #[serde(default, rename = "nonResourceURLs")]
    urls: Vec<String>,
}

#[derive(Deserialize)]
struct RoleRef {
    kind: String,
    name: String,
}

#[derive(Deserialize)]
struct Subject {
    kind: String,
    name: String,
}

fn has(words: &[String], word: &str) -> bool {
    words.iter().any(|given| given == "*" || given == word)
}

impl Rule {
    fn allows(&self, verb: &str, resource: &str) -> bool {
        has(&self.verbs, verb)
            && has(&self.api_groups, "")
            && has(&self.resources, resource)
            && self.resource_names.is_empty()
            && self.urls.is_empty()
    }
}

impl Metadata {
    fn namespace(&self) -> String {
        self.namespace.clone().unwrap_or_else(|| "default".into())
    }
}

fn main() {
    let words: Vec<String> = env::args().collect();
    let bytes = fs::read(&words[1]).unwrap();
    let (user, namespace, verb, resource) = (&words[2], &words[3], &words[4], &words[5]);
    let list: List = serde_json::from_slice(&bytes).unwrap();
    // A cluster role has the empty namespace.
    let mut roles: HashMap<(String, String), Vec<Rule>> = HashMap::new();
    let mut bindings: Vec<(String, Binding)> = Vec::new();
    for item in list.items {
        match item {
            Item::Role(role) => {
                let at = role.metadata.namespace();
                roles.insert((at, role.metadata.name), role.rules.unwrap_or_default());
            }
            Item::ClusterRole(role) => {
                roles.insert((String::new(), role.metadata.name), role.rules.unwrap_or_default());
            }
            Item::RoleBinding(binding) => bindings.push((binding.metadata.namespace(), binding)),
            Item::ClusterRoleBinding(binding) => bindings.push((String::new(), binding)),
            Item::Other => {}
        }
    }
    bindings.sort_by(|a, b| (&a.0, &a.1.metadata.name).cmp(&(&b.0, &b.1.metadata.name)));
    let names_user = |binding: &Binding| {
        let subjects = binding.subjects.as_deref().unwrap_or_default();
        subjects.iter().any(|subject| subject.kind == "User" && &subject.name == user)
    };
    let allowed = bindings.iter().any(|(at, binding)| {
        let role_at = if binding.role_ref.kind == "Role" { at.clone() } else { String::new() };
        (at.is_empty() || at == namespace)
            && names_user(binding)
            && roles
                .get(&(role_at, binding.role_ref.name.clone()))
                .is_some_and(|rules| rules.iter().any(|rule| rule.allows(verb, resource)))
    });
    println!("{}", if allowed { "yes" } else { "no" });
}
