//! The program `sojimu`: what it prints and its status, for every question that it can meet and every reason; its pictures; and that
//! no text, pair or log makes it fail.

mod fits;
mod folder;
mod logs;
mod notation;
mod page;
mod pictures;
mod refusals;
mod usage;
mod xml;
