//! A second, independent program for document 01 ("a planner for delayed
//! carriers, with exact rules") with P1 ("Tell us which ends are shared"), P2
//! ("Prefer standing to wandering") and P3 ("Heavy carriers slip more") of document
//! 02. It exists to disagree with the first one.
//!
//! | Module       | Idea of document 01                                     |
//! |--------------|---------------------------------------------------------|
//! | [`job`]      | the job and checks 1 to 6 and 16                        |
//! | [`tables`]   | the least lengths of lent tables, and check 7           |
//! | [`floor`]    | cells and the moves between them                        |
//! | [`bar`]      | bars (rule 1)                                           |
//! | [`route`]    | a carrier's route under its bars (rule 2), costs, moves |
//! | [`meeting`]  | meetings, swaps and the choice among them (rule 5)      |
//! | [`tree`]     | the search tree (rules 3, 4, 6, 7)                      |
//! | [`planner`]  | checks, then the tree; the numbers given back           |
//! | [`check`]    | the route check (21) and the meeting check (22)         |
//! | [`book`]     | the book of a job and its reader (11 to 15)             |
//! | [`print`]    | the lines the program prints                            |
//! | [`brute`]    | slow answers by trying everything, for small jobs       |
//! | [`random`]   | a small generator of numbers from a seed                |
//! | [`generate`] | random jobs                                             |
//! | [`damage`]   | jobs made to be refused, books made to be refused       |

pub mod bar;
pub mod book;
pub mod brute;
pub mod check;
pub mod damage;
pub mod floor;
pub mod generate;
pub mod job;
pub mod meeting;
pub mod planner;
pub mod print;
pub mod random;
pub mod route;
pub mod tables;
pub mod tree;
