//! A plain judge over flat arrays, for sound books alone: it trusts the bytes.

use std::fmt::Write;

struct Game {
    players: usize,
    start: u8,
    labels: Vec<u16>,
    counts: Vec<u8>,
    /// Where each state's next states begin.
    first: Vec<usize>,
    nexts: Vec<u8>,
}

struct Rule {
    kind: u8,
    group: u8,
    r: usize,
    s: usize,
}

#[derive(Clone, Copy, PartialEq)]
enum Mark {
    Open,
    Yes(u16),
    No(u16),
}

struct Judged {
    marks: Vec<Mark>,
    rounds: u16,
}

/// For a state, the places of a group's choices among the next states, and those of the replies: a vector's place is their sum.
struct Sides {
    choices: Vec<usize>,
    replies: Vec<usize>,
}

fn read(book: &[u8]) -> (Game, Vec<Rule>) {
    let mut game = Game { players: 0, start: 0, labels: vec![], counts: vec![], first: vec![], nexts: vec![] };
    let mut rules = vec![];
    let mut at = 0;
    while at < book.len() {
        let size = u16::from_be_bytes([book[at + 1], book[at + 2]]) as usize;
        let value = &book[at + 3..at + 3 + size];
        match book[at] {
            1 => (game.players, game.start) = (value[0] as usize, value[2]),
            2 => {
                game.labels.push(u16::from_be_bytes([value[0], value[1]]));
                game.counts.extend_from_slice(&value[2..2 + game.players]);
                game.first.push(game.nexts.len());
                game.nexts.extend_from_slice(&value[2 + game.players..]);
            }
            _ => rules.push(Rule { kind: value[0], group: value[1], r: value[2] as usize, s: value[3] as usize }),
        }
        at += 3 + size;
    }
    (game, rules)
}

impl Game {
    fn states(&self) -> usize {
        self.labels.len()
    }

    fn sides(&self, group: u8, state: usize) -> Sides {
        let (mut choices, mut replies) = (vec![0], vec![0]);
        let counts = &self.counts[state * self.players..(state + 1) * self.players];
        let mut weight = counts.iter().map(|count| *count as usize).product::<usize>();
        for player in (0..self.players).rev() {
            let count = counts[player] as usize;
            weight /= count;
            let side = if group >> player & 1 == 1 { &mut choices } else { &mut replies };
            *side = side.iter().flat_map(|place| (0..count).map(move |turn| place + turn * weight)).collect();
        }
        Sides { choices, replies }
    }

    fn can(&self, sides: &Sides, state: usize, set: &[bool]) -> bool {
        let first = self.first[state];
        'choices: for choice in &sides.choices {
            for reply in &sides.replies {
                if !set[self.nexts[first + choice + reply] as usize] {
                    continue 'choices;
                }
            }
            return true;
        }
        false
    }

    fn despite(&self, sides: &Sides, state: usize, set: &[bool]) -> bool {
        let first = self.first[state];
        'choices: for choice in &sides.choices {
            for reply in &sides.replies {
                if set[self.nexts[first + choice + reply] as usize] {
                    continue 'choices;
                }
            }
            return false;
        }
        true
    }
}

fn yes(rule: &Judged) -> Vec<bool> {
    rule.marks.iter().map(|mark| matches!(mark, Mark::Yes(_))).collect()
}

fn once(marks: impl Iterator<Item = bool>) -> Judged {
    Judged { marks: marks.map(|yes| if yes { Mark::Yes(0) } else { Mark::No(0) }).collect(), rounds: 1 }
}

fn strategic(game: &Game, rule: &Rule, r: &[bool], s: &[bool]) -> Judged {
    let states = game.states();
    let sides: Vec<Sides> = (0..states).map(|state| game.sides(rule.group, state)).collect();
    let holds = |state: usize, set: &[bool]| {
        if rule.kind < 6 { game.can(&sides[state], state, set) } else { game.despite(&sides[state], state, set) }
    };
    match rule.kind % 3 {
        0 => once((0..states).map(|state| holds(state, r))),
        turn => {
            let until = turn == 1;
            let mut marks = vec![Mark::Open; states];
            let mut rounds = 0;
            loop {
                let aim: Vec<bool> =
                    marks.iter().map(|mark| if until { matches!(mark, Mark::Yes(_)) } else { *mark == Mark::Open }).collect();
                let mut marked = 0;
                for state in 0..states {
                    let newly = marks[state] == Mark::Open
                        && match (until, rounds) {
                            (true, 0) => s[state],
                            (true, _) => r[state] && holds(state, &aim),
                            (false, 0) => !r[state] && !s[state],
                            (false, _) => !s[state] && !holds(state, &aim),
                        };
                    if newly {
                        marks[state] = if until { Mark::Yes(rounds) } else { Mark::No(rounds) };
                        marked += 1;
                    }
                }
                rounds += 1;
                if marked == 0 {
                    break;
                }
            }
            for mark in &mut marks {
                if *mark == Mark::Open {
                    *mark = if until { Mark::No(256) } else { Mark::Yes(256) };
                }
            }
            Judged { marks, rounds }
        }
    }
}

fn judge(game: &Game, rule: &Rule, judged: &[Judged]) -> Judged {
    if rule.kind == 0 {
        return once(game.labels.iter().map(|labels| labels >> rule.r & 1 == 1));
    }
    let r = yes(&judged[rule.r]);
    let s = yes(&judged[rule.s]);
    match rule.kind {
        1 => once(r.iter().map(|yes| !yes)),
        2 => once(r.iter().zip(&s).map(|(r, s)| *r || *s)),
        _ => strategic(game, rule, &r, &s),
    }
}

pub fn listing(book: &[u8]) -> String {
    let (game, rules) = read(book);
    let mut text = format!("game {} {} {}\n", game.players, game.states(), game.start);
    let mut judged: Vec<Judged> = vec![];
    for (number, rule) in rules.iter().enumerate() {
        let row = judge(&game, rule, &judged);
        write!(text, "{number} {}", row.rounds).expect("text grows");
        for mark in &row.marks {
            let (letter, steps) = match mark {
                Mark::Yes(steps) => ('y', steps),
                Mark::No(steps) => ('n', steps),
                Mark::Open => unreachable!("a settled rule has no open mark"),
            };
            match steps {
                256 => write!(text, " {letter}-"),
                _ => write!(text, " {letter}{steps}"),
            }
            .expect("text grows");
        }
        text.push('\n');
        judged.push(row);
    }
    text
}

/// The most rounds of any rule in a listing.
pub fn most_rounds(listing: &[u8]) -> u16 {
    let text = std::str::from_utf8(listing).unwrap_or("");
    text.lines().skip(1).filter_map(|line| line.split(' ').nth(1)?.parse().ok()).max().unwrap_or(0)
}
