//! Holds graphs to a part of Graphviz's grammar: `dot GRAPH..`. Node and edge statements, attribute lists, quoted names and
//! plain words; no subgraphs, ports, HTML or comments. Beyond the grammar: every node is declared, once and before its edges,
//! and all but roles are reached by one edge. Prints how many nodes and edges there are. Built by tests/inspect.sh.
use std::collections::BTreeMap;

#[derive(Clone, Debug, PartialEq)]
enum Token {
    /// A name: a word, a numeral, or a string in quotation marks.
    Name(String),
    /// digraph, graph, node, edge: no names unless they are quoted.
    Keyword(String),
    Mark(&'static str),
}

const MARKS: [&str; 8] = ["->", "{", "}", "[", "]", "=", ";", ","];
const KEYWORDS: [&str; 6] = ["strict", "graph", "digraph", "subgraph", "node", "edge"];
/// The keywords that attributes may follow.
const DEFAULTS: [&str; 3] = ["graph", "node", "edge"];

/// The token at the front and the rest after it.
fn token(text: &str) -> Option<(Token, &str)> {
    let text = text.trim_start_matches([' ', '\n']);
    if let Some(mark) = MARKS.iter().find(|mark| text.starts_with(**mark)) {
        return Some((Token::Mark(mark), &text[mark.len()..]));
    }
    if let Some(quoted) = text.strip_prefix('"') {
        let (name, rest) = quoted.split_at(closing(quoted));
        return Some((Token::Name(name.to_string()), &rest[1..]));
    }
    let end = text.find(|c: char| !c.is_ascii_alphanumeric() && c != '_').unwrap_or(text.len());
    let (word, rest) = text.split_at(end);
    let first = word.chars().next()?;
    assert!(
        !first.is_ascii_digit() || word.chars().all(|c| c.is_ascii_digit()),
        "{word}: neither word nor numeral"
    );
    let kind = match KEYWORDS.contains(&word.to_ascii_lowercase().as_str()) {
        true => Token::Keyword,
        false => Token::Name,
    };
    Some((kind(word.to_string()), rest))
}

/// Where the string ends, at the next quotation mark. Of escapes it has only the ends of lines.
fn closing(quoted: &str) -> usize {
    let end = quoted.find('"').expect("a string is not ended");
    assert!(!quoted[..end].contains('\n'), "a string goes over a line's end");
    let escapes = quoted[..end].split('\\').skip(1);
    escapes.for_each(|rest| {
        assert!(rest.starts_with(['l', 'n', 'r']), "an escape that is none: \\{rest}")
    });
    end
}

fn tokens(mut text: &str) -> Vec<Token> {
    let mut found = Vec::new();
    while let Some((next, rest)) = token(text) {
        found.push(next);
        text = rest;
    }
    assert!(text.trim().is_empty(), "no token: {text}");
    found
}

struct Graph {
    tokens: Vec<Token>,
    at: usize,
    /// The edges that reach each node.
    nodes: BTreeMap<String, usize>,
    edges: usize,
}

impl Graph {
    fn next(&mut self) -> Token {
        self.at += 1;
        self.tokens.get(self.at - 1).cloned().expect("the graph is not ended")
    }

    fn mark(&mut self, mark: &'static str) {
        assert_eq!(self.next(), Token::Mark(mark), "token {}", self.at);
    }

    fn is_mark(&self, mark: &'static str) -> bool {
        self.tokens.get(self.at) == Some(&Token::Mark(mark))
    }

    fn name(&mut self) -> String {
        match self.next() {
            Token::Name(name) => name,
            other => panic!("token {}: {other:?} instead of a name", self.at),
        }
    }

    /// Attributes in brackets, if any, with commas between them.
    fn attributes(&mut self) {
        let mut before = "[";
        while self.is_mark(before) {
            self.mark(before);
            self.name();
            self.mark("=");
            self.name();
            before = ",";
        }
        if before == "," {
            self.mark("]");
        }
    }

    fn statement(&mut self) {
        let first = self.tokens.get(self.at);
        if DEFAULTS.map(|word| Some(Token::Keyword(word.to_string()))).contains(&first.cloned()) {
            self.at += 1;
            assert!(self.is_mark("["), "token {}: a keyword without attributes", self.at);
        } else {
            let name = self.name();
            if self.is_mark("->") {
                self.edge(&name);
            } else {
                assert!(self.nodes.insert(name.clone(), 0).is_none(), "{name} is declared twice");
            }
        }
        self.attributes();
        self.mark(";");
    }

    fn edge(&mut self, from: &str) {
        self.mark("->");
        let to = self.name();
        assert!(self.nodes.contains_key(from), "{from} is not declared");
        *self.nodes.get_mut(&to).unwrap_or_else(|| panic!("{to} is not declared")) += 1;
        self.edges += 1;
    }

    fn graph(&mut self) {
        assert_eq!(self.next(), Token::Keyword("digraph".to_string()));
        self.name();
        self.mark("{");
        while !self.is_mark("}") {
            self.statement();
        }
        self.mark("}");
        assert_eq!(self.at, self.tokens.len(), "something follows the graph");
    }
}

/// The graph of a file, which has passed.
fn checked(path: &str) -> Graph {
    let text = std::fs::read_to_string(path).expect("a graph");
    let mut graph = Graph { tokens: tokens(&text), at: 0, nodes: BTreeMap::new(), edges: 0 };
    graph.graph();
    for (name, edges) in &graph.nodes {
        assert_eq!(*edges, usize::from(!name.starts_with("role ")), "{name}: edges that reach it");
    }
    graph
}

fn main() {
    for path in std::env::args().skip(1) {
        let graph = std::panic::catch_unwind(|| checked(&path));
        let graph = graph.unwrap_or_else(|_| panic!("{path}: not a graph of a register"));
        println!("{path}: {} nodes, {} edges", graph.nodes.len(), graph.edges);
    }
}
