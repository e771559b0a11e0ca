pub mod ir;
pub mod lexer;
pub mod parser;
