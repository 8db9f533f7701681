//! The kinds of scripts, and how each is made.

use std::fmt;

use crate::letters::{Letters, Unique};
use crate::limit::{near_full, near_pending, near_unseen, MOST_LETTERS};
use crate::random::Random;
use crate::scene::{Manner, Scene};

#[derive(Clone, Copy, Debug, PartialEq, Eq, PartialOrd, Ord)]
pub enum Kind {
    /// Some lines.
    Short,
    /// Every letter once, and no connection is ended.
    Unique,
    /// Every letter once, with a server that stops and writers that join anew.
    Anew,
    /// So many lines that writers tell their revisions, and much comes together that is not seen.
    Long,
    /// Near 256 pending operations.
    Pending,
    /// Near 4,096 entries that a writer has not seen.
    Unseen,
    /// Near 65,536 letters.
    Full,
}

impl Kind {
    pub const ALL: [Kind; 7] = [
        Kind::Short,
        Kind::Unique,
        Kind::Anew,
        Kind::Long,
        Kind::Pending,
        Kind::Unseen,
        Kind::Full,
    ];

    pub fn name(self) -> &'static str {
        match self {
            Kind::Short => "short",
            Kind::Unique => "unique",
            Kind::Anew => "anew",
            Kind::Long => "long",
            Kind::Pending => "pending",
            Kind::Unseen => "unseen",
            Kind::Full => "full",
        }
    }

    /// How many scripts of this kind are made from a seed.
    pub fn count(self) -> u64 {
        match self {
            Kind::Short => 160,
            Kind::Unique | Kind::Anew => 60,
            Kind::Long => 6,
            Kind::Pending => 12,
            Kind::Unseen => 4,
            Kind::Full => 2,
        }
    }

    fn manner(self, random: &mut Random) -> Manner {
        let lines = match self {
            Kind::Short => random.between(20, 200),
            Kind::Unique | Kind::Anew if random.one_in(10) => 2000,
            Kind::Unique | Kind::Anew => random.between(30, 300),
            Kind::Long => 10_000,
            Kind::Pending | Kind::Full => 600,
            Kind::Unseen => 1200,
        };
        let is_unique = matches!(self, Kind::Unique | Kind::Anew);
        let is_limit = matches!(self, Kind::Pending | Kind::Unseen | Kind::Full);
        Manner {
            lines,
            writers: match self {
                Kind::Unseen => random.between(2, 4),
                _ => random.pick_by_weight(&[(1, 1), (3, 2), (3, 3), (3, 4)]),
            },
            late: !is_limit,
            odd: !is_unique,
            letters: match self {
                Kind::Unique | Kind::Anew => Letters::Unique(Unique::new(random)),
                Kind::Short | Kind::Long => Letters::Any,
                Kind::Pending | Kind::Unseen | Kind::Full => Letters::Plain,
            },
            shows_what_is_struck: self == Kind::Unique,
            showing: match self {
                Kind::Unique | Kind::Anew => 200,
                Kind::Full => 2,
                _ => 30,
            },
            settling: match self {
                Kind::Pending | Kind::Unseen => 1,
                _ => random.pick(&[0, 2, 10, 30]),
            },
            stopping: match self {
                Kind::Unique => None,
                Kind::Pending | Kind::Unseen => Some(3000),
                _ => Some(100 + random.below(lines / 2 + 1)),
            },
            leaving: match self {
                Kind::Unique => None,
                Kind::Pending | Kind::Unseen => Some(1000),
                _ => Some(50 + random.below(lines / 2 + 1)),
            },
            crowded: match self {
                Kind::Full => MOST_LETTERS - random.below(3),
                Kind::Long => random.pick(&[3, 10, 30, 100, 1000]),
                _ => random.pick(&[3, 10, 30, 100]),
            },
            phases: match self {
                Kind::Long => &[3, 10, 20, 50, 300, 1000],
                Kind::Pending | Kind::Unseen | Kind::Full => &[1, 2, 3, 5, 10, 20],
                _ => &[1, 3, 5, 10, 10, 20, 50],
            },
            clashes: match self {
                Kind::Short | Kind::Unique | Kind::Anew => random.pick(&[20, 50, 200]),
                Kind::Long => 300,
                _ => 100,
            },
        }
    }
}

/// Which script it is: one of those of a kind that are made from a seed.
#[derive(Clone, Copy, Debug, PartialEq, Eq)]
pub struct Name {
    pub seed: u64,
    pub kind: Kind,
    pub number: u64,
}

impl fmt::Display for Name {
    fn fmt(&self, f: &mut fmt::Formatter) -> fmt::Result {
        write!(f, "seed-{}-{}-{}", self.seed, self.kind.name(), self.number)
    }
}

/// All scripts that are made from a seed.
pub fn all_of(seed: u64) -> impl Iterator<Item = Name> {
    Kind::ALL.into_iter().flat_map(move |kind| {
        let name = move |number| Name { seed, kind, number };
        (1..=kind.count()).map(name)
    })
}

impl Name {
    pub fn script(self) -> Vec<u8> {
        let mut random = Random::of(&[self.seed, self.kind as u64, self.number]);
        let manner = self.kind.manner(&mut random);
        let mut scene = Scene::new(random, manner);
        let limit = match self.kind {
            Kind::Short | Kind::Unique | Kind::Anew | Kind::Long => None,
            Kind::Pending => Some(near_pending(&mut scene)),
            Kind::Unseen => Some(near_unseen(&mut scene)),
            Kind::Full => Some(near_full(&mut scene)),
        };
        if limit.is_some() {
            scene.manner.letters = Letters::Any;
            scene.count_from_here();
        }
        while scene.goes_on() {
            match &limit {
                Some(limit) => limit.go_on(&mut scene),
                None => scene.go_on(),
            }
        }
        scene.finish()
    }
}

#[cfg(test)]
mod tests {
    use super::*;
    use reference::player::Player;
    use reference::script::WRITERS;
    use std::collections::BTreeSet;
    use std::io;

    use crate::properties::Script;

    /// The scripts of a kind.
    fn some(kind: Kind) -> impl Iterator<Item = Vec<u8>> {
        all_of(1)
            .filter(move |name| name.kind == kind)
            .map(Name::script)
    }

    /// What a script prints on either stream.
    fn play(script: &[u8]) -> (Vec<u8>, String) {
        let (mut out, mut err) = (Vec::new(), Vec::new());
        Player::default().play(script, &mut out, &mut err).unwrap();
        (out, String::from_utf8(err).unwrap())
    }

    fn lines(bytes: &[u8]) -> impl Iterator<Item = &[u8]> {
        bytes.split(|&byte| byte == b'\n')
    }

    fn count(bytes: &[u8], is_counted: impl Fn(&[u8]) -> bool) -> usize {
        lines(bytes).filter(|line| is_counted(line)).count()
    }

    fn says_lost(line: &[u8]) -> bool {
        line.get(1..)
            .is_some_and(|line| line.starts_with(b": lost "))
    }

    #[test]
    fn a_name_gives_its_script() {
        let name = |seed, kind, number| Name { seed, kind, number };
        for kind in Kind::ALL {
            let script = name(7, kind, 1).script();
            assert!(script == name(7, kind, 1).script());
            assert!(script != name(7, kind, 2).script());
            assert!(script != name(8, kind, 1).script());
        }
    }

    #[test]
    fn short_scripts_have_every_fault_and_most_refusals() {
        let (mut faults, mut told) = (BTreeSet::new(), BTreeSet::new());
        for script in some(Kind::Short) {
            assert!((15..250).contains(&lines(&script).count()));
            let (out, err) = play(&script);
            let messages = err.lines().filter_map(|line| line.split_once(": "));
            faults.extend(messages.map(|(_, message)| message.to_string()));
            told.extend(
                lines(&out)
                    .filter(|line| line.starts_with(b"refused "))
                    .map(<[u8]>::to_vec),
            );
            told.extend(
                lines(&out)
                    .filter(|&line| line == b"nothing" || says_lost(line))
                    .map(<[u8]>::to_vec),
            );
        }
        assert_eq!(faults.len(), 12);
        for line in [
            "refused 1",
            "refused 3",
            "nothing",
            "0: lost 0",
            "1: lost 1",
            "3: lost 2",
        ] {
            assert!(told.contains(line.as_bytes()), "{line}");
        }
    }

    #[test]
    fn letters_that_are_to_be_unique_are_and_the_properties_hold() {
        for kind in [Kind::Unique, Kind::Anew] {
            let (mut shows, mut lost) = (0, 0);
            for script in some(kind) {
                let (out, err) = play(&script);
                assert_eq!(err, "");
                shows += Script::read(&script).unwrap().check(&out).unwrap();
                lost += count(&out, |line| says_lost(line) && !line.ends_with(b" 0"));
            }
            assert!(shows > 2000, "{shows}");
            assert_eq!(lost > 100, kind == Kind::Anew, "{lost}");
            assert_eq!(lost == 0, kind == Kind::Unique, "{lost}");
        }
    }

    #[test]
    fn scripts_go_over_their_limits_and_back() {
        for (kind, refusal) in [(Kind::Pending, "refused 4"), (Kind::Full, "refused 7")] {
            let mut turns = 0;
            for script in some(kind) {
                let (out, _) = play(&script);
                let is_refusal = |line: &[u8]| line == refusal.as_bytes();
                assert!(count(&out, is_refusal) > 0);
                turns += count(&out, is_refusal);
            }
            assert!(turns > 10, "{turns}");
        }
    }

    #[test]
    fn long_scripts_come_to_256_pending() {
        let refused = |script: Vec<u8>| count(&play(&script).0, |line| line == b"refused 4");
        assert!(some(Kind::Long).map(refused).sum::<usize>() > 100);
    }

    /// How often a connection ends because a writer sees too little:
    /// something of another is taken, and after that there is nothing to see for this one.
    fn ends(script: &[u8]) -> usize {
        let mut player = Player::default();
        let mut count = 0;
        for line in lines(script) {
            let has_to_see = |player: &Player| {
                (0..)
                    .take(WRITERS)
                    .map(|writer| player.has_to_see(writer))
                    .collect::<Vec<_>>()
            };
            let before = has_to_see(&player);
            player
                .play_line(line, &mut io::sink(), &mut io::sink())
                .unwrap();
            if let [b't', b'a', b'k', b'e', b' ', writer] = line {
                let after = has_to_see(&player);
                count += (b'0'..)
                    .zip(before.iter().zip(after))
                    .filter(|(other, (before, after))| other != writer && **before && !after)
                    .count();
            }
        }
        count
    }

    #[test]
    fn connections_end_where_too_little_is_seen() {
        assert!(some(Kind::Unseen).all(|script| ends(&script) > 0));
        assert!(some(Kind::Short).all(|script| ends(&script) == 0));
    }
}
