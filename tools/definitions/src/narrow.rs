//! Finds where a failed life first parts from the Rust, since the prover's word on a whole life
//! is too long to read.

use crate::lives::{Fact, Seen};
use crate::prover::{self, cut, Verdict};
use crate::scratch::{book_term, column, computed, history, proved, write};
use crate::text;
use std::io;
use std::path::Path;

/// Into how many parts the outputs are taken at each step.
const PARTS: usize = 8;

/// A life that is looked into.
pub struct Narrowing<'a> {
    fact: &'a Fact,
    folder: &'a Path,
    root: &'a Path,
    steps: usize,
}

impl<'a> Narrowing<'a> {
    pub fn new(fact: &'a Fact, folder: &'a Path, root: &'a Path) -> Self {
        Self {
            fact,
            folder,
            root,
            steps: 0,
        }
    }

    /// What is to be read of the first output that differs, or else of the first book.
    pub fn lines(&mut self) -> io::Result<Vec<String>> {
        match self.output()? {
            Some(place) => self.output_lines(place),
            None => self.book_lines(),
        }
    }

    fn check(&mut self, body: &str) -> io::Result<Verdict> {
        // A crate's name has letters, digits and `_` alone.
        let label = self.fact.label.replace('-', "_");
        let name = format!("step{label}_{}", self.steps);
        self.steps += 1;
        let module = ("Parts".to_string(), history(self.fact) + body);
        write(self.folder, &name, self.root, &[module])?;
        prover::check(self.folder, &name)
    }

    /// The place of the first output that differs; none if none does.
    fn output(&mut self) -> io::Result<Option<usize>> {
        let [outputs, _] = computed(self.fact);
        let expected = column(self.fact.outputs.iter().cloned(), 4);
        let expected = format!("abbrev expected : List Output\nexpected =\n    {expected}\n");
        // The first `equal` outputs are as expected, the first `unequal` are not.
        let (mut equal, mut unequal) = (0, self.fact.outputs.len() + 1);
        while equal + 1 < unequal {
            let step = (unequal - equal).div_ceil(PARTS);
            let tried: Vec<usize> = (equal + step..unequal).step_by(step).collect();
            let name = |n: &usize| format!("first{n}");
            let fact = |n: &usize| {
                let computed = format!("take {n} ({outputs})");
                proved(&name(n), &computed, &format!("take {n} expected"))
            };
            let facts: String = tried.iter().map(fact).collect();
            let verdict = self.check(&format!("{expected}\n{facts}"))?;
            let holds = |n: &usize| !verdict.refuses(&name(n));
            let holding = tried.iter().take_while(|n| holds(n)).count();
            unequal = tried.get(holding).copied().unwrap_or(unequal);
            equal = tried[..holding].last().copied().unwrap_or(equal);
        }
        Ok((equal < self.fact.outputs.len()).then_some(equal))
    }

    fn output_lines(&mut self, place: usize) -> io::Result<Vec<String>> {
        let [outputs, _] = computed(self.fact);
        let turn = place.checked_sub(1);
        let turn = turn.and_then(|n| self.fact.script.turns().nth(n));
        let input = turn.map_or("the start".into(), |t| text::input(&t.input));
        let expected = &self.fact.outputs[place];
        let lines = vec![
            format!("output {place} differs"),
            format!("the input: {}", cut(&input)),
            format!("the Rust: {}", cut(expected)),
        ];
        let computed = format!("nth {place} ({outputs})");
        self.with_word(lines, &computed, &format!("Some ({expected})"))
    }

    fn book_lines(&mut self) -> io::Result<Vec<String>> {
        let Some(seen) = self.book()? else {
            return Ok(vec!["the prover refuses no part of it".into()]);
        };
        let lines = vec![format!("the book differs after output {}", seen.place)];
        let fields = seen.book.iter().flatten();
        let fact = |(field, term): &(&str, String)| {
            proved(field, &self.part(seen, field), &format!("Some ({term})"))
        };
        let facts: String = fields.clone().map(fact).collect();
        let verdict = self.check(&facts)?;
        let mut refused = fields.filter(|(field, _)| verdict.refuses(field));
        let Some((field, term)) = refused.next() else {
            return self.with_word(lines, &self.whole(seen), &book_term(seen));
        };
        let mut lines = lines;
        lines.push(format!("the field: {field}"));
        lines.push(format!("the Rust: {}", cut(term)));
        self.with_word(lines, &self.part(seen, field), &format!("Some ({term})"))
    }

    /// The first book that differs.
    fn book(&mut self) -> io::Result<Option<&'a Seen>> {
        let name = |seen: &Seen| format!("at{}", seen.place);
        let fact = |seen| proved(&name(seen), &self.whole(seen), &book_term(seen));
        let facts: String = self.fact.books.iter().map(fact).collect();
        let verdict = self.check(&facts)?;
        let mut books = self.fact.books.iter();
        Ok(books.find(|seen| verdict.refuses(&name(seen))))
    }

    /// The book that the definitions give there, and a field of it.
    fn whole(&self, seen: &Seen) -> String {
        let [_, book] = computed(self.fact);
        format!("{book} {}", seen.place)
    }

    fn part(&self, seen: &Seen, field: &str) -> String {
        format!("part (λ b. b.{field}) ({})", self.whole(seen))
    }

    /// The lines, with what the prover says of this part alone.
    fn with_word(
        &mut self,
        mut lines: Vec<String>,
        computed: &str,
        expected: &str,
    ) -> io::Result<Vec<String>> {
        let verdict = self.check(&proved("same", computed, expected))?;
        let gist = verdict.refusals.first().map(|refusal| refusal.gist());
        let gist = gist.into_iter().flatten();
        lines.extend(gist.map(|line| format!("the prover: {line}")));
        Ok(lines)
    }
}
