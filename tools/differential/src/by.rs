//! By which rules a section is decoded, on both sides: by the four, or by those of a table that the port is given with each call; and what it is
//! held to.

use falgnust::calls::{self, Lent, SectionTables};
use falgnust::evr0::{self, RuleTable};
use falgnust::raw;
use oracle::evr0::Evr0Error;
use oracle::records::DecodedEvr0;
use oracle::rules::Rule;
use oracle::section::Judge;

/// The table that the port is given, or none, where it has the four; and the Rust or a model.
#[derive(Clone, Copy)]
pub struct By<'a> {
    table: Option<&'a RuleTable>,
    judge: Judge<'a>,
}

type Found<T> = Result<Option<T>, evr0::Evr0Error>;

/// The port's function without a table, or the one with it.
macro_rules! call {
    ($by:expr, $plain:ident, $ruled:ident, $($argument:expr),*) => {
        match $by.table {
            None => calls::$plain($($argument),*),
            Some(table) => calls::$ruled(table.bytes(), $($argument),*),
        }
    };
}

macro_rules! crate_call {
    ($by:expr, $name:ident, $($argument:expr),*) => {
        match $by.table {
            None => evr0::$name($($argument),*),
            Some(table) => table.$name($($argument),*),
        }
    };
}

impl<'a> By<'a> {
    pub const FOUR: By<'static> = By {
        table: None,
        judge: Judge::Rust,
    };

    /// By a table that holds the four, against the Rust.
    pub fn four_loaded(table: &'a RuleTable) -> Self {
        By {
            table: Some(table),
            judge: Judge::Rust,
        }
    }

    /// By a table, against the model with its rules.
    pub fn table(table: &'a RuleTable, rules: &'a [Rule]) -> Self {
        By {
            table: Some(table),
            judge: Judge::Ruled(rules),
        }
    }

    /// The same against the model for schema 2.
    pub fn wide(self) -> Self {
        By {
            judge: self.judge.wide(),
            ..self
        }
    }

    /// The same against the model for schema 2 where the section has that.
    pub fn of(self, file: &[u8], cursor: usize) -> Self {
        By {
            judge: self.judge.of(file, cursor),
            ..self
        }
    }

    /// Whether it is by the four, without a table.
    pub fn is_four(&self) -> bool {
        self.table.is_none()
    }

    /// What the table is, to be told of a difference.
    pub fn told(&self) -> String {
        match self.table {
            None => String::new(),
            Some(table) => format!("rules {}, ", crate::tally::hex(table.bytes())),
        }
    }

    // ---- The Rust, or the model

    pub fn expected(
        &self,
        file: &[u8],
        cursor: usize,
    ) -> answers::Answer<(answers::section::Section, DecodedEvr0)> {
        self.judge.section(file, cursor)
    }

    pub fn rust(&self, file: &[u8], cursor: &mut usize) -> Result<DecodedEvr0, Evr0Error> {
        self.judge.decode(file, cursor)
    }

    /// The schema of the sections that it accepts.
    pub fn schema(&self) -> u16 {
        self.judge.schema()
    }

    // ---- The port, through C

    pub fn section(
        &self,
        file: &[u8],
        cursor: usize,
        lent: SectionTables,
        marks: &mut [u8],
    ) -> raw::Section {
        call!(
            self,
            decode_evr0_section,
            decode_evr0_section_by_rules,
            file,
            cursor,
            lent,
            marks
        )
    }

    pub fn unmarked(&self, file: &[u8], cursor: usize, lent: SectionTables) -> raw::Section {
        call!(
            self,
            decode_evr0_unmarked,
            decode_evr0_unmarked_by_rules,
            file,
            cursor,
            lent
        )
    }

    pub fn proposition(
        &self,
        file: &[u8],
        cursor: usize,
        number: u32,
        lent: SectionTables,
    ) -> raw::Proposition {
        call!(
            self,
            proposition_number,
            proposition_number_by_rules,
            file,
            cursor,
            number,
            lent
        )
    }

    pub fn proof(
        &self,
        file: &[u8],
        cursor: usize,
        number: u32,
        lent: SectionTables,
    ) -> raw::Proof {
        call!(
            self,
            proof_number,
            proof_number_by_rules,
            file,
            cursor,
            number,
            lent
        )
    }

    pub fn witness(
        &self,
        file: &[u8],
        cursor: usize,
        number: u32,
        lent: SectionTables,
    ) -> raw::Witness {
        call!(
            self,
            witness_number,
            witness_number_by_rules,
            file,
            cursor,
            number,
            lent
        )
    }

    pub fn parent(
        &self,
        file: &[u8],
        cursor: usize,
        number: u32,
        lent: SectionTables,
    ) -> raw::Parent {
        call!(
            self,
            parent_number,
            parent_number_by_rules,
            file,
            cursor,
            number,
            lent
        )
    }

    pub fn way_down(
        &self,
        file: &[u8],
        cursor: usize,
        from: u32,
        limit: u64,
        lent: SectionTables,
    ) -> raw::WayDown {
        call!(
            self,
            way_down,
            way_down_by_rules,
            file,
            cursor,
            from,
            limit,
            lent
        )
    }

    pub fn authorised(
        &self,
        file: &[u8],
        cursor: usize,
        number: u32,
        lent: SectionTables,
        marks: &mut [u8],
    ) -> raw::Authorised {
        call!(
            self,
            authorised,
            authorised_by_rules,
            file,
            cursor,
            number,
            lent,
            marks
        )
    }

    pub fn depth_by_rounds(&self, file: &[u8], cursor: usize, lent: SectionTables) -> raw::Rounds {
        call!(
            self,
            depth_by_rounds,
            depth_by_rounds_by_rules,
            file,
            cursor,
            lent
        )
    }

    pub fn authorised_table(&self, lent: Lent) -> raw::Section {
        call!(self, authorised_table, authorised_table_by_rules, lent)
    }

    pub fn compare(&self, first: Lent, second: Lent, verdicts: &mut [u8]) -> raw::Comparison {
        call!(
            self,
            compare_sections,
            compare_sections_by_rules,
            first,
            second,
            verdicts
        )
    }

    pub fn write_columns(
        &self,
        file: &[u8],
        cursor: usize,
        lent: SectionTables,
        output: &mut [u8],
    ) -> raw::Columns {
        call!(
            self,
            write_columns,
            write_columns_by_rules,
            file,
            cursor,
            lent,
            output
        )
    }

    pub fn take_columns(
        &self,
        columns: &[u8],
        lent: SectionTables,
        output: &mut [u8],
    ) -> raw::Columns {
        call!(
            self,
            take_columns,
            take_columns_by_rules,
            columns,
            lent,
            output
        )
    }

    // ---- The port, through the crate

    pub fn crate_section(
        &self,
        file: &[u8],
        cursor: &mut usize,
    ) -> Result<evr0::DecodedEvr0, evr0::Evr0Error> {
        match self.table {
            None => evr0::decode_evr0_section(file, cursor),
            Some(table) => table.decode(file, cursor),
        }
    }

    pub fn crate_marks(&self, file: &[u8], cursor: usize) -> Result<Vec<u8>, evr0::Evr0Error> {
        crate_call!(self, marks, file, cursor)
    }

    pub fn crate_proposition(
        &self,
        file: &[u8],
        cursor: usize,
        number: u32,
    ) -> Found<evr0::Proposition> {
        crate_call!(self, proposition_number, file, cursor, number)
    }

    pub fn crate_proof(&self, file: &[u8], cursor: usize, number: u32) -> Found<evr0::Proof> {
        crate_call!(self, proof_number, file, cursor, number)
    }

    pub fn crate_witness(&self, file: &[u8], cursor: usize, number: u32) -> Found<evr0::Witness> {
        crate_call!(self, witness_number, file, cursor, number)
    }

    pub fn crate_parent(&self, file: &[u8], cursor: usize, number: u32) -> Found<u32> {
        crate_call!(self, parent_number, file, cursor, number)
    }

    pub fn crate_way_down(
        &self,
        file: &[u8],
        cursor: usize,
        from: u32,
        limit: u64,
    ) -> Found<evr0::WayDown> {
        crate_call!(self, way_down, file, cursor, from, limit)
    }

    pub fn crate_depth_by_rounds(
        &self,
        file: &[u8],
        cursor: usize,
    ) -> Result<Vec<u64>, evr0::Evr0Error> {
        crate_call!(self, depth_by_rounds, file, cursor)
    }

    pub fn crate_authorised_table(
        &self,
        file: &[u8],
        cursor: usize,
    ) -> Result<Vec<bool>, evr0::Evr0Error> {
        crate_call!(self, authorised_table, file, cursor)
    }

    pub fn crate_compare(
        &self,
        (first, first_cursor): (&[u8], usize),
        (second, second_cursor): (&[u8], usize),
    ) -> Result<evr0::Comparison, evr0::CompareError> {
        crate_call!(
            self,
            compare_sections,
            first,
            first_cursor,
            second,
            second_cursor
        )
    }

    pub fn crate_authorised(&self, file: &[u8], cursor: usize, number: u32) -> Found<bool> {
        crate_call!(self, authorised, file, cursor, number)
    }
    pub fn crate_write_columns(
        &self,
        file: &[u8],
        cursor: usize,
    ) -> Result<Vec<u8>, evr0::Evr0Error> {
        crate_call!(self, write_columns, file, cursor)
    }

    pub fn crate_take_columns(&self, columns: &[u8]) -> Result<Vec<u8>, evr0::ColumnsError> {
        crate_call!(self, take_columns, columns)
    }
}
