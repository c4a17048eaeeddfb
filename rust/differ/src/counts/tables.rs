//! What the tables held, and what was asked of them.
use super::Counts;
use oracle::generate::{LONGEST, ROWS, operators};
use oracle::schedule::{KeySite, ProbePath};
use oracle::{IndexSampler, Probe, Query, Row, Run, Table};

impl Counts {
    pub(super) fn table(&mut self, query: &Query, table: &Table, text: &[u8], run: &Run) {
        self.one("tables");
        self.one(match table.rows.len() {
            0 => "  without rows",
            1..=256 => "  of 1 to 256 rows",
            257..ROWS => "  of 257 to 1,023 rows",
            _ => "  of 1,024 rows",
        });
        self.one_if(text.len() == LONGEST, "  of 65,536 bytes in all");
        self.one_if(!query.from_table, "  that nothing asks for");
        self.one_if(!table.leaders.is_empty(), "  with frames 34");
        *self.at("rows passed over") += (table.rows.len() - table.standing().len()) as u64;
        *self.at("bytes of table texts") += text.len() as u64;
        self.rows(query, table);
        if query.from_table {
            self.samples(run);
            self.buckets(table, run);
        }
    }

    fn rows(&mut self, query: &Query, table: &Table) {
        let ops = operators(query);
        for row in &table.rows {
            self.one(match row {
                Row::Node { .. } => "rows of children",
                Row::Literal { .. } => "rows of a literal",
            });
            self.one_if(!ops.contains(&row.op()), "  of an operator that the query has not");
        }
    }

    fn samples(&mut self, run: &Run) {
        self.one("queries with frame 24");
        self.one_if(run.answer.tallied > 0, "  that tally a measurement");
        self.one_if(run.answer.rejected > 0, "  that reject a measurement");
        let mut one_if_any = |asked: fn(&(KeySite, usize)) -> bool, line| self.one_if(run.asked.sites.iter().any(asked), line);
        one_if_any(|(site, _)| *site == KeySite::Node, "  that take a row's own class");
        one_if_any(|(site, _)| matches!(site, KeySite::Child(_)), "  that take a child");
        one_if_any(|(site, _)| *site == KeySite::Element, "  that take every element");
        one_if_any(|(_, classes)| *classes == 0, "  where a row lacks what is taken");
    }

    fn buckets(&mut self, table: &Table, run: &Run) {
        let sampler = IndexSampler::new(table);
        let (mut short, mut long) = (false, false);
        for probe in &run.asked.probes {
            let bucket = sampler.bucket(probe.class, probe.path);
            self.bucket(sampler.rows(), probe, bucket);
            short |= bucket.len() <= 256;
            long |= bucket.len() > 256;
        }
        self.one_if(short, "  that probe a bucket of at most 256 rows");
        self.one_if(long, "  that probe a bucket of more than 256 rows");
    }

    fn bucket(&mut self, rows: &[Row], probe: &Probe, bucket: &[usize]) {
        self.one(match probe.path {
            ProbePath::ChildPos(_) => "buckets probed by position",
            ProbePath::Contains => "buckets probed by containing",
        });
        self.one(match bucket.len() {
            0 => "  of 0 rows",
            1..=254 => "  of 1 to 254 rows",
            255 => "  of 255 rows",
            256 => "  of 256 rows",
            257 => "  of 257 rows",
            1_000 => "  of 1,000 rows",
            _ => "  of other numbers above 256",
        });
        let counted = bucket.iter().filter(|row| rows[**row].op() == probe.op).count();
        self.one_if(probe.length > 0, "  whose told length is above 0");
        self.one_if(probe.length != counted, "  whose told length is not the count");
    }
}
