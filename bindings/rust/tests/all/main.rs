//! The specimens of document 01, both schemas, tables of rules, sections compared, sections by column, files of functions and locks through the
//! binding, the lengths of lent tables, and the words of records and of blocks.

mod block_words;
mod blocks;
mod characters;
mod columns;
mod compare;
mod functions;
mod least_tables;
mod locks;
mod marks;
mod readme;
mod rules;
mod schemas;
mod sections;
mod words;
mod written;
