//! The program and the library against the independent second program: every
//! printed line, every number given back, every told value and every entry of
//! every lent table. What a caller of the library is promised beyond document 01
//! (the lent array of told values) is in `include/adfulmise.h`.
//!
//! | Module      | Idea                                                        |
//! |-------------|-------------------------------------------------------------|
//! | [`request`] | the command line of a comparison                            |
//! | [`process`] | a server behind pipes                                       |
//! | [`program`] | runs of the program                                         |
//! | [`library`] | calls of the library                                        |
//! | [`draw`]    | jobs with an N, and books: of every kind, or rough          |
//! | [`lent`]    | lent tables: their lengths, and what they hold afterwards   |
//! | [`trial`]   | one call of the library, compared                           |
//! | [`rounds`]  | the calls made for one drawn job, and for one at every N    |
//! | [`counts`]  | how often each number was given back                        |

pub mod counts;
pub mod draw;
pub mod lent;
pub mod library;
pub mod process;
pub mod program;
pub mod request;
pub mod rounds;
pub mod trial;
