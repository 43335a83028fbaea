//! The implementations that are timed, and a row of questions that all of them answer.

use std::hint::black_box;

use termcap_tests::subject::{Reference, Subject};

use crate::library::Library;
use crate::plain_c::{self, Search};
use crate::question::Question;

#[derive(Clone, Copy, Debug, PartialEq, Eq)]
pub enum Contender {
    Ours,
    CBytes,
    CMemchr,
    CSimd,
    CLoop,
    Rust,
}

/// Rivals in the order of the table's columns.
pub const RIVALS: [Contender; 5] =
    [Contender::CBytes, Contender::CMemchr, Contender::CSimd, Contender::CLoop, Contender::Rust];

/// Questions that take turns, and the searches that they take as the rules say; without searches
/// the row is not compared with the searches in C.
pub struct Row<'a> {
    pub name: String,
    pub questions: Vec<Question<'a>>,
    pub searches: Vec<Wanted<'a>>,
}

/// A name to find in a database.
#[derive(Clone, Copy, Debug)]
pub struct Wanted<'a> {
    pub database: &'a [u8],
    pub name: &'a [u8],
}

impl Row<'_> {
    /// Those that can answer the row, ours first.
    pub fn contenders(&self) -> Vec<Contender> {
        let mut contenders = vec![Contender::Ours];
        contenders.extend(RIVALS.iter().filter(|rival| rival.answers(self)));
        contenders
    }

    fn is_sending(&self) -> bool {
        self.questions.iter().all(|question| !matches!(question, Question::Read { .. }))
    }

    /// Every question of a row takes equally many searches.
    fn searches_for(&self, place: usize) -> &[Wanted<'_>] {
        let each = self.searches.len() / self.questions.len();
        &self.searches[place * each..][..each]
    }
}

impl Contender {
    pub fn name(self) -> &'static str {
        match self {
            Contender::Ours => "ours",
            Contender::CBytes => "C bytes",
            Contender::CMemchr => "C memchr",
            Contender::CSimd => "C SIMD",
            Contender::CLoop => "C loop",
            Contender::Rust => "Rust",
        }
    }

    pub fn by_name(name: &str) -> Option<Contender> {
        let mut all = RIVALS.to_vec();
        all.push(Contender::Ours);
        all.into_iter().find(|contender| contender.name() == name)
    }

    fn answers(self, row: &Row) -> bool {
        match self {
            Contender::Ours | Contender::Rust => true,
            Contender::CBytes | Contender::CMemchr | Contender::CSimd => !row.searches.is_empty(),
            Contender::CLoop => row.is_sending(),
        }
    }

    /// The search of a contender in C that has nothing else.
    pub fn search(self) -> Option<Search> {
        match self {
            Contender::Ours | Contender::CLoop | Contender::Rust => None,
            Contender::CBytes => Some(plain_c::bytes),
            Contender::CMemchr => Some(plain_c::memchr),
            Contender::CSimd => Some(plain_c::simd),
        }
    }

    /// One question of the row, or the searches for it; which one, turns about.
    pub fn take(self, row: &Row, turn: usize, out: &mut [u8]) {
        let place = turn % row.questions.len();
        let question = &row.questions[place];
        match self {
            Contender::Ours => ask(&Library, question, out),
            Contender::Rust => ask(&Reference, question, out),
            Contender::CBytes => search_all(plain_c::bytes, row.searches_for(place)),
            Contender::CMemchr => search_all(plain_c::memchr, row.searches_for(place)),
            Contender::CSimd => search_all(plain_c::simd, row.searches_for(place)),
            Contender::CLoop => {
                black_box(black_box(question).send_plainly(out));
            }
        }
    }
}

fn ask<S: Subject>(subject: &S, question: &Question, out: &mut [u8]) {
    black_box(black_box(question).ask(subject, out));
}

fn search_all(search: Search, wanted: &[Wanted]) {
    for one in wanted {
        let one = black_box(one);
        black_box(search(one.database, one.name));
    }
}
